//! Pulls from images that the published tools write: every block of every file in the root directory
//! against the file itself.

use harptimber_tests::calls::compares::{Compares, Kept, SAME};
use harptimber_tests::calls::pulls::{lists, Call, Pulls};
use harptimber_tests::cards::card::ROOT;
use harptimber_tests::cards::image::Image;
use harptimber_tests::cards::layout::inode::I_CURRENT_DEPTH;
use harptimber_tests::cards::layout::BLOCK_SIZE;
use harptimber_tests::cards::names::good_name;
use harptimber_tests::cards::random::pick;
use harptimber_tests::cards::walk_damage::strike_block;
use harptimber_tests::node_lookup;
use harptimber_tests::tools::published::{
    contents, filled_with, formatted, File, LARGEST, LONGEST_INLINE,
};
use harptimber_tests::trial::Random;

/// Each block of a file, and none behind the last.
pub fn expect_file(pulls: &mut Pulls, image: &Image, (name, bytes): &File) {
    let blocks = bytes.chunks(BLOCK_SIZE);
    let past = blocks.len() as u32;
    for (index, block) in blocks.enumerate() {
        pulls.expect_data(image, name, index as u32, block);
    }
    for index in [past, past + 1, 1 << 20, u32::MAX] {
        pulls.expect(image, name, index, 3);
    }
}

/// Names that are like those of the files but aren't there, and some that are quite others.
fn expect_missing(pulls: &mut Pulls, image: &Image, files: &[File]) {
    let there = |name: &[u8]| files.iter().any(|(other, _)| other == name);
    for (name, _) in files {
        let mut last_changed = name.clone();
        *last_changed.last_mut().expect("a byte") ^= 1;
        let shorter = name[..name.len() - 1].to_vec();
        let other = good_name(&mut pulls.trial.random, name.len());
        for missing in [last_changed, shorter, other] {
            let bad = missing.is_empty() || missing.iter().any(|byte| b"\0/".contains(byte));
            if !bad && !there(&missing) {
                pulls.expect(image, &missing, 0, 2);
            }
        }
    }
}

/// Pulls all from an image with these files, and returns it.
fn expect_files(name: &'static str, options: &str, files: Vec<File>, at_least: u64) -> Image {
    // sload.f2fs leaves much of an image free, so this has to be a few times as long as the files.
    expect_files_on(200, name, options, files, at_least)
}

fn expect_files_on(
    megabytes: usize,
    name: &'static str,
    options: &str,
    files: Vec<File>,
    at_least: u64,
) -> Image {
    let mut pulls = Pulls::new(name);
    let image = filled_with(megabytes, options, &files);
    for file in &files {
        expect_file(&mut pulls, &image, file);
    }
    expect_missing(&mut pulls, &image, &files);
    for dots in [b".".as_slice(), b".."] {
        pulls.expect(&image, dots, 0, 12);
    }
    pulls.finish(at_least, &[0, 2, 3, 12]);
    image
}

/// Sizes around those at which a file stops being inline, has one block more, or one more node.
#[test]
fn sizes() {
    let mut random = Random::new(1);
    let block = BLOCK_SIZE;
    let borders = [
        LONGEST_INLINE,
        block,
        2 * block,
        873 * block,
        (873 + 1018) * block,
    ];
    let around = borders
        .iter()
        .flat_map(|&border| [border - 1, border, border + 1]);
    let others = [1, 2, 1000, 5_000, 100_000, 1_000_000, 3_000_000];
    let sizes: Vec<usize> = around.chain(others).collect();
    let file = |(n, size): (usize, usize)| {
        let name = format!("{n} with {size} bytes").into_bytes();
        (name, contents(&mut random, size))
    };
    let files = sizes.into_iter().enumerate().map(file).collect();
    expect_files("published files of many sizes", "", files, 9000);
}

/// A file that reaches its first indirect node.
#[test]
fn long_file() {
    let mut random = Random::new(2);
    let long = contents(&mut random, (873 + 2 * 1018 + 30) * BLOCK_SIZE - 7);
    let files = vec![
        (b"long".to_vec(), long),
        (b"short".to_vec(), contents(&mut random, 10)),
    ];
    expect_files("published file behind an indirect node", "", files, 2939);
}

/// The largest card, with a file that reaches its first indirect node. With -a the root directory is at the card's end.
#[test]
fn largest_card() {
    let mut compares = Compares::new("compare of 16 GiB with itself");
    for (options, root_from) in [("", 29_184), ("-a 1", 4_190_000)] {
        let mut random = Random::new(6);
        let sizes = [
            10,
            LONGEST_INLINE + 1,
            50_000,
            (873 + 2 * 1018 + 2) * BLOCK_SIZE - 7,
        ];
        let file = |size| {
            (
                format!("{size} bytes").into_bytes(),
                contents(&mut random, size),
            )
        };
        let files = sizes.map(file).to_vec();
        let name = files[3].0.clone();
        let title = "published files on 16 GiB";
        let image = expect_files_on(LARGEST, title, options, files, 2911 + 13);
        assert!(node_lookup(image.bytes(), ROOT).address >= root_from);
        for index in [0, 872, 873, 1890, 1891, 2908, 2909, 2910, 2911] {
            compares.expect(&Kept::new(&image, &name, index), &image, SAME);
        }
    }
    compares.finish(2 * 9, &[(15, 0, 0)]);
}

/// Names of every length, so many that they need several levels.
#[test]
fn names() {
    let mut random = Random::new(3);
    let mut files = Vec::new();
    for len in (1..=255).chain((1..=255).rev()) {
        let name = format!("{len:x}").repeat(255).into_bytes();
        let last = if files.len() < 255 { b'<' } else { b'>' };
        let name = [&name[..len - 1], &[last]].concat();
        let size = if len == 9 { 10 } else { 3345 + len };
        files.push((name, contents(&mut random, size)));
    }
    let image = expect_files("published files with long names", "", files, 5 * 500);
    let root = node_lookup(image.bytes(), ROOT).address;
    let depth = image.get(root, I_CURRENT_DEPTH);
    assert!(
        depth > 3,
        "so many names need levels, not a depth of {depth}"
    );
}

/// Damages numbers in blocks that a pull reads.
#[test]
fn damaged() {
    const ROUNDS: u64 = 10_000;
    let mut pulls = Pulls::new("published files, damaged");
    let mut random = Random::new(5);
    let file = |n: usize| {
        let name = format!("file {n}").into_bytes();
        (name, contents(&mut random, (870 + n) * BLOCK_SIZE))
    };
    let files: Vec<File> = (0..5).map(file).collect();
    let mut image = filled_with(100, "", &files);
    for _ in 0..pulls.trial.times(ROUNDS) {
        let random = &mut pulls.trial.random;
        let name = &files[random.below(5) as usize].0;
        let index = random.below(880) as u32;
        let (_, blocks) = lists(&Call::new(&image, name, index));
        for _ in 0..1 + random.below(3) {
            let block = pick(random, &blocks);
            strike_block(&mut image, block, random);
        }
        pulls.compare(&image, name, index);
        image.undo(0);
    }
    pulls.finish(ROUNDS, &[0, 1, 2, 3, 9, 11, 12, 13, 14]);
}

/// Larger sections, over which the files are spread otherwise.
#[test]
fn sections() {
    let mut random = Random::new(4);
    let file = |n: usize| {
        let name = format!("file {n}").into_bytes();
        (name, contents(&mut random, n * 200))
    };
    let files = (0..400).map(file).collect();
    expect_files("published files in larger sections", "-s 2", files, 4000);
}

/// A fresh image has the root's two dots and no file.
#[test]
fn empty() {
    let mut pulls = Pulls::new("published image without files");
    for options in ["", "-z 2"] {
        let image = formatted(64, options);
        for dots in [b".".as_slice(), b".."] {
            pulls.expect(&image, dots, 0, 12);
        }
        for len in 1..=255 {
            let name = good_name(&mut pulls.trial.random, len);
            let answer = if name == b"." || name == b".." { 12 } else { 2 };
            pulls.expect(&image, &name, 0, answer);
        }
    }
    pulls.finish(2 * 257, &[2, 12]);
}

/// Images that don't open.
#[test]
fn unopened() {
    let mut pulls = Pulls::new("published images that don't open");
    for (options, answer) in [("-O extra_attr", 6), ("-g android", 6), ("-i", 7)] {
        let image = formatted(64, options);
        for name in [b".".as_slice(), b"file"] {
            pulls.expect(&image, name, 0, answer);
        }
    }
    pulls.finish(3 * 2, &[6, 7]);
}

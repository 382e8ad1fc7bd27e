//! Files in folders: pulls of paths, and what other readers give for them.

use harptimber_tests::calls::compares::{changed, Compares, Kept, SAME};
use harptimber_tests::calls::pulls::{lists, Call, Pulls};
use harptimber_tests::cards::image::Image;
use harptimber_tests::cards::layout::inode::I_CURRENT_DEPTH;
use harptimber_tests::cards::layout::BLOCK_SIZE;
use harptimber_tests::cards::names::good_name;
use harptimber_tests::cards::random::pick;
use harptimber_tests::cards::walk_damage::strike_block;
use harptimber_tests::node_lookup;
use harptimber_tests::tools::fsck::fsck;
use harptimber_tests::tools::outside::{inode_number, CardFile, Opinions};
use harptimber_tests::tools::published::{
    contents, filled_on, filled_with, filled_with_links, File, LONGEST_INLINE,
};
use harptimber_tests::trial::Random;

use crate::files::expect_file;
use crate::outside_readers::{ALL, FIRST, WITHOUT_GRUB};

/// Some with blocks and some inline.
const SIZES: [usize; 4] = [10, LONGEST_INLINE, LONGEST_INLINE + 1, 3 * BLOCK_SIZE + 7];

fn file(random: &mut Random, path: impl Into<Vec<u8>>) -> File {
    let size = pick(random, &SIZES);
    (path.into(), contents(random, size))
}

fn files<T: Into<Vec<u8>>>(random: &mut Random, paths: impl IntoIterator<Item = T>) -> Vec<File> {
    let paths = paths.into_iter();
    paths.map(|path| file(random, path)).collect()
}

/// Two files with one name in each of ten folders, one in the other. From nine names on only other readers read them.
#[test]
fn depths() {
    let mut pulls = Pulls::new("published files in folders in folders");
    let mut opinions = Opinions::new("outside readers, folders in folders");
    let folders = |depth: usize| "laps/".repeat(depth - 1);
    let paths = (1..=10).flat_map(|depth| {
        let folders = folders(depth);
        [format!("{folders}road"), format!("{folders}road.bin")]
    });
    let files = files(&mut pulls.trial.random, paths);
    let image = filled_with(100, "", &files);
    assert!(fsck(&image).sound, "{image:?}");
    let card = CardFile::of(&image);
    for (nth, file) in files.iter().enumerate() {
        let (path, bytes) = file;
        if nth / 2 < 8 {
            expect_file(&mut pulls, &image, file);
            opinions.expect(&ALL, &card, (path, bytes));
        } else {
            pulls.expect(&image, path, 0, 4);
        }
    }
    for depth in 2..=8 {
        let path = folders(depth);
        let path = path.trim_end_matches('/').as_bytes();
        pulls.expect(&image, path, 0, 12);
        let below_file = format!("{}road/laps", folders(depth - 1));
        pulls.expect(&image, below_file.as_bytes(), 0, 12);
        let missing = format!("{}laps.bin/road", folders(depth - 1));
        pulls.expect(&image, missing.as_bytes(), 0, 2);
    }
    opinions.finish(&ALL.map(|reader| (reader, 16)));
    pulls.finish(16 * 5 + 4 + 7 * 3, &[0, 2, 3, 4, 12]);
}

/// Folders with the names of the files in them, and the same name in many.
#[test]
fn one_name_everywhere() {
    let mut pulls = Pulls::new("published files and folders of one name");
    let mut opinions = Opinions::new("outside readers, one name everywhere");
    let paths = ["a/a/a/a", "a/a/b", "a/b/a", "b/a/a", "b/b", "a/c", "c"];
    let files = files(&mut pulls.trial.random, paths);
    let image = filled_with(64, "", &files);
    let card = CardFile::of(&image);
    for file in &files {
        expect_file(&mut pulls, &image, file);
        opinions.expect(&FIRST, &card, (&file.0, &file.1));
    }
    for (path, answer) in [
        ("a/a/a", 12),
        ("a/b/b", 2),
        ("b/b/a", 12),
        ("b/c", 2),
        ("c/c", 12),
    ] {
        pulls.expect(&image, path.as_bytes(), 0, answer);
    }
    opinions.finish(&FIRST.map(|reader| (reader, 7)));
    pulls.finish(7 * 5 + 5, &[0, 2, 3, 12]);
}

/// The two dots that sload.f2fs writes into each folder.
#[test]
fn dots() {
    let mut pulls = Pulls::new("published files by paths with dots");
    let (path, bytes) = file(&mut pulls.trial.random, "wet/north/road");
    let image = filled_with(64, "", &[(path, bytes.clone())]);
    for dotted in [
        "./wet/north/road",
        "../wet/./north/./road",
        "wet/../wet/north/road",
        "wet/north/../../wet/north/road",
        "wet/north/../north/./././road",
    ] {
        let block = &bytes[..bytes.len().min(BLOCK_SIZE)];
        pulls.expect_data(&image, dotted.as_bytes(), 0, block);
    }
    for (dotted, answer) in [
        ("wet/..", 12),
        ("wet/.", 12),
        ("wet/../north/road", 2),
        ("wet/north/road/..", 12),
        ("wet/north/road/../road", 12),
        ("dry/../wet/north/road", 2),
        ("./././././././wet/north/road", 4),
    ] {
        pulls.expect(&image, dotted.as_bytes(), 0, answer);
    }
    pulls.finish(5 + 7, &[0, 2, 4, 12]);
}

/// A symbolic link isn't followed, on the way or at its end.
#[test]
fn links() {
    let mut pulls = Pulls::new("published files behind links");
    let files = files(&mut pulls.trial.random, ["wet/road", "road"]);
    let links = [
        ("dry", "wet"),
        ("wet/back", ".."),
        ("wet/track", "road"),
        ("lane", "road"),
    ];
    let image = filled_with_links(64, &files, &links);
    for file in &files {
        expect_file(&mut pulls, &image, file);
    }
    for path in [
        "dry",
        "dry/road",
        "wet/back",
        "wet/back/road",
        "wet/track",
        "lane",
        "lane/x",
    ] {
        pulls.expect(&image, path.as_bytes(), 0, 12);
    }
    pulls.finish(2 * 5 + 7, &[0, 3, 12]);
}

/// So many names in a folder that it needs several levels. GRUB and dump.f2fs are asked for some.
#[test]
fn large_folders() {
    let mut pulls = Pulls::new("published files in large folders");
    let mut opinions = Opinions::new("outside readers, large folders");
    let folders = ["runs", "runs/wet/north"];
    let paths = folders.iter().flat_map(|folder| {
        (0..300).map(move |n| format!("{folder}/{n} {}", "long".repeat(20)).into_bytes())
    });
    let files = files(&mut pulls.trial.random, paths);
    let image = filled_with(100, "", &files);
    for folder in folders {
        let number = inode_number(&image, folder.as_bytes());
        let inode = node_lookup(image.bytes(), number).address;
        assert!(image.get(inode, I_CURRENT_DEPTH) > 2, "{folder}");
    }
    for file in &files {
        expect_file(&mut pulls, &image, file);
        let mut missing = file.0.clone();
        *missing.last_mut().expect("a byte") ^= 1;
        pulls.expect(&image, &missing, 0, 2);
    }
    let card = CardFile::of(&image);
    for (path, bytes) in files.iter().step_by(40) {
        opinions.expect(&FIRST, &card, (path, bytes));
    }
    opinions.finish(&FIRST.map(|reader| (reader, 15)));
    pulls.finish(600 * 6, &[0, 2, 3]);
}

/// Any bytes in names, up to as many as there may be. GRUB ends its search at a name of 255 bytes.
#[test]
fn names() {
    let mut pulls = Pulls::new("published files in folders with any names");
    let mut opinions = Opinions::new("outside readers, any names of folders");
    for (len, readers) in [
        (3, &FIRST[..]),
        (30, &FIRST),
        (254, &FIRST),
        (255, &WITHOUT_GRUB),
    ] {
        let random = &mut pulls.trial.random;
        let names: Vec<_> = (0..6).map(|_| good_name(random, len)).collect();
        let paths = (1..=6).map(|names_of| names[..names_of].join(&b'/'));
        let paths = paths.map(|path| [path.as_slice(), b"/road"].concat());
        let files = files(random, paths);
        let image = filled_with(64, "", &files);
        let card = CardFile::of(&image);
        for file in &files {
            expect_file(&mut pulls, &image, file);
            opinions.expect(readers, &card, (&file.0, &file.1));
        }
    }
    opinions.finish(&WITHOUT_GRUB.map(|reader| (reader, 24)));
    pulls.finish(4 * 6 * 5, &[0, 3]);
}

/// Damages numbers in blocks that pulls of paths read.
#[test]
fn damaged() {
    const ROUNDS: u64 = 5000;
    let mut pulls = Pulls::new("published files in folders, damaged");
    let paths = ["a/b/c/d/e/f/g/h", "a/b/i", "a/j", "k"];
    let bytes = contents(&mut pulls.trial.random, 3 * BLOCK_SIZE);
    let files = paths.map(|path| (path.into(), bytes.clone()));
    let mut image = filled_with(64, "", &files);
    for _ in 0..pulls.trial.times(ROUNDS) {
        let random = &mut pulls.trial.random;
        let path = paths[random.below(4) as usize].as_bytes();
        let (_, blocks) = lists(&Call::new(&image, path, 0));
        for _ in 0..1 + random.below(3) {
            let block = pick(random, &blocks);
            strike_block(&mut image, block, random);
        }
        pulls.compare(&image, path, 0);
        image.undo(0);
    }
    pulls.finish(ROUNDS, &[0, 1, 2, 11, 12, 13, 14]);
}

/// Two cards that differ in the bytes of one file: those in other folders are the same, and in its own folder too.
#[test]
fn another_surface() {
    const DATE: u32 = 1_705_320_000;
    let mut compares = Compares::new("compare of files in folders");
    let random = &mut compares.trial.random;
    let bytes = contents(random, 2 * BLOCK_SIZE);
    let paths = ["wet/road", "wet/table", "dry/road", "dry/old/road", "road"];
    let mut files: Vec<File> = paths.map(|path| (path.into(), bytes.clone())).to_vec();
    let kept = filled_on(64, DATE, &files);
    files[2].1[BLOCK_SIZE] ^= 1;
    let fresh = filled_on(64, DATE, &files);
    let (_, blocks) = lists(&Call::new(&kept, b"dry/road", 1));
    let data = differing(&kept, &fresh, &blocks);
    for path in paths {
        for index in [0, 1, 2] {
            let kept = Kept::new(&kept, path.as_bytes(), index);
            let expected = match (path, index) {
                ("dry/road", 1) => changed(3, data),
                _ => SAME,
            };
            compares.expect(&kept, &fresh, expected);
        }
    }
    compares.finish(5 * 3, &[(15, 0, 0), (16, 0, 3)]);
}

/// The one of these blocks that two cards have other bytes in.
fn differing(kept: &Image, fresh: &Image, blocks: &[u32]) -> u32 {
    let differ = |block: &&u32| kept.block(**block) != fresh.block(**block);
    let differing: Vec<u32> = blocks.iter().filter(differ).copied().collect();
    assert_eq!(differing.len(), 1, "{differing:?}");
    differing[0]
}

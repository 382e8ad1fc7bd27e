//! Directories with a level of their own, as sload.f2fs fills them once the root's inode has one, and what other
//! readers make of them.

use reference::hash::raw_hash;

use harptimber_tests::calls::compares::{changed, Compares, Kept, SAME};
use harptimber_tests::calls::pulls::Pulls;
use harptimber_tests::cards::directory::{DirLevel, MOST_DEPTH};
use harptimber_tests::cards::image::Image;
use harptimber_tests::cards::layout::inode::{I_CURRENT_DEPTH, I_DIR_LEVEL};
use harptimber_tests::cards::layout::BLOCK_SIZE;
use harptimber_tests::node_lookup;
use harptimber_tests::tools::fsck::{fsck, misplaced, Misplaced};
use harptimber_tests::tools::outside::{inode_number, CardFile, Opinions, Reader};
use harptimber_tests::tools::published::{
    contents, filled_with, filled_with_level, formatted, root_block, File,
};
use harptimber_tests::trial::Random;

fn files(random: &mut Random, names: impl IntoIterator<Item = String>) -> Vec<File> {
    let file = |(n, name): (usize, String)| (name.into_bytes(), contents(random, 5000 + n));
    names.into_iter().enumerate().map(file).collect()
}

/// Expects each block of each file, and that names like theirs aren't there.
fn expect_files(pulls: &mut Pulls, image: &Image, files: &[File]) {
    for (name, bytes) in files {
        for (index, block) in bytes.chunks(BLOCK_SIZE).enumerate() {
            pulls.expect_data(image, name, index as u32, block);
        }
        pulls.expect(image, name, 2, 3);
        pulls.expect(image, &[name, b"x".as_slice()].concat(), 0, 2);
    }
}

/// Neither tool writes a level: not for the root, not for a folder below it, also if the root has one.
#[test]
fn none_by_the_tools() {
    let level_of = |image: &Image, nid| {
        let block = node_lookup(image.bytes(), nid).address;
        image.get(block, I_DIR_LEVEL)
    };
    for options in ["", "-a 1", "-s 2", "-z 2", "-o 10"] {
        let image = formatted(100, options);
        assert_eq!(image.get(root_block(&image), I_DIR_LEVEL), 0, "{image:?}");
    }
    let below = [(b"folder/file".to_vec(), vec![1; 5000])];
    for (image, root) in [
        (filled_with(100, "", &below), 0),
        (filled_with_level(100, 4, &below), 4),
    ] {
        assert_eq!(
            image.get(root_block(&image), I_DIR_LEVEL),
            root,
            "{image:?}"
        );
        let folder = inode_number(&image, b"folder");
        assert_eq!(level_of(&image, folder), 0, "folder of {image:?}");
    }
}

/// Long names, so many that they need several hash levels.
#[test]
fn deep() {
    let mut pulls = Pulls::new("published files in directories with a level");
    let mut opinions = Opinions::new("outside readers, directories with a level");
    for (level, depth) in [(1, 4), (3, 2), (8, 1)] {
        let random = &mut pulls.trial.random;
        let names = (0..300).map(|n| format!("{n} {}", "long".repeat(50)));
        let files = files(random, names);
        let image = filled_with_level(100, level, &files);
        let root = root_block(&image);
        assert_eq!(image.get(root, I_DIR_LEVEL), u64::from(level));
        assert!(image.get(root, I_CURRENT_DEPTH) >= depth, "{image:?}");
        assert!(fsck(&image).sound, "{image:?}");
        expect_files(&mut pulls, &image, &files);
        // GRUB goes through all blocks of a directory and asks neither for levels nor for hashes.
        let card = CardFile::of(&image);
        for (name, bytes) in files.iter().step_by(30) {
            opinions.expect(&READERS, &card, (name, bytes));
        }
    }
    opinions.finish(&READERS.map(|reader| (reader, 3 * 10)));
    pulls.finish(3 * 300 * 4, &[0, 2, 3]);
}

const READERS: [Reader; 3] = [Reader::Harptimber, Reader::GrubCat, Reader::Dump];

/// So far out that their blocks are behind each kind of node. GRUB isn't asked: it doesn't take a node for a hole.
const FAR: [u32; 10] = [9, 12, 18, 20, 22, 23, 25, 28, 29, 30];

/// With some other names sload.f2fs 1.15 ends in a fault at levels from 19 on.
const FAR_NAMES: [&str; 3] = ["mu.bin", "road.tab", "brake.tab"];

fn far_files(random: &mut Random) -> Vec<File> {
    files(random, FAR_NAMES.map(String::from))
}

#[test]
fn far_out() {
    let mut pulls = Pulls::new("published files far out in directories with a level");
    let mut compares = Compares::new("compare of cards by the tools with a level");
    for level in FAR {
        let files = far_files(&mut pulls.trial.random);
        let mut image = filled_with_level(200, level, &files);
        assert!(fsck(&image).sound, "{image:?}");
        expect_files(&mut pulls, &image, &files);
        let kept = image.clone();
        let root = root_block(&image);
        image.set(root, I_DIR_LEVEL, u64::from(level) + 1);
        for (name, _) in &files {
            let kept = Kept::new(&kept, name, 1);
            compares.expect(&kept, kept.call.image, SAME);
            compares.expect(&kept, &image, changed(3, root));
        }
    }
    compares.finish(10 * 3 * 2, &[(15, 0, 0), (16, 0, 3)]);
    pulls.finish(10 * 3 * 4, &[0, 2, 3]);
}

/// Where an entry belongs, beside where fsck.f2fs says it does.
fn expect_place(pulls: &mut Pulls, dir_level: DirLevel, entry: &Misplaced) {
    let Misplaced { level, index, .. } = *entry;
    let blocks = dir_level.start(level)..dir_level.start(level + 1);
    let hash = raw_hash(&entry.name);
    let bucket = [0, 1].map(|nth| dir_level.index(level, hash, nth));
    let by_rule = (dir_level.0, blocks.contains(&index), bucket);
    let by_tool = (entry.dir_level, true, entry.bucket);
    pulls.trial.compare(entry, by_rule, by_tool);
}

/// A card that is given every other level: fsck.f2fs says which entries are misplaced then, and where they belong. Just
/// those aren't found.
fn expect_misplaced(pulls: &mut Pulls, image: &mut Image, files: &[File]) {
    let root = root_block(image);
    for dir_level in DirLevel::all() {
        image.set(root, I_DIR_LEVEL, u64::from(dir_level.0));
        image.set(root, I_CURRENT_DEPTH, u64::from(MOST_DEPTH));
        let entries = misplaced(image);
        for entry in &entries {
            expect_place(pulls, dir_level, entry);
        }
        for (name, bytes) in files {
            match entries.iter().any(|entry| entry.name == *name) {
                true => pulls.expect(image, name, 0, 2),
                false => pulls.expect_data(image, name, 0, &bytes[..BLOCK_SIZE]),
            }
        }
        image.undo(0);
    }
}

#[test]
fn places_by_fsck() {
    let mut pulls = Pulls::new("places of entries beside fsck.f2fs");
    let random = &mut pulls.trial.random;
    let near = files(random, (0..40).map(|n| format!("file {n}")));
    let far = far_files(random);
    expect_misplaced(&mut pulls, &mut filled_with_level(100, 3, &near), &near);
    for level in [18, 22, 27, 30] {
        let mut image = filled_with_level(200, level, &far);
        expect_misplaced(&mut pulls, &mut image, &far);
    }
    pulls.finish(31 * (40 + 3 * 4) + 31 * 30, &[0, 2]);
}

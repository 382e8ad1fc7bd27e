//! Keep: what is written, for pulls with every answer and of every length.

use std::collections::BTreeSet;

use harptimber_tests::calls::keeps::Keeps;
use harptimber_tests::calls::lookups::{distinct_entry, journalled};
use harptimber_tests::calls::pulls::Call;
use harptimber_tests::cards::directory::Dentry;
use harptimber_tests::cards::folders::Folders;
use harptimber_tests::cards::layout::dentry;
use harptimber_tests::cards::layout::inode::{
    INLINE_DATA, INLINE_DENTRY, INLINE_ROOM, INLINE_ROOM_WITH_XATTR, INLINE_XATTR,
};
use harptimber_tests::cards::layout::BLOCK_SIZE;
use harptimber_tests::cards::one_file::{Scene, Setting, NAME};
use harptimber_tests::cards::stops::{stops, INDEX};

use crate::EIGHT;

/// Paths of one to eight names through folders of any kind, that find their block, and that are stopped at each place
/// where a pull can be: with each answer that comes after opening.
#[test]
fn every_answer() {
    let mut keeps = Keeps::new("keep with every answer");
    let mut count = 0;
    for names in 1..=EIGHT {
        let mut folders = Folders::any(&mut keeps.trial.random, names, INDEX);
        let stops = stops(&mut folders);
        let answers: BTreeSet<u32> = stops.iter().map(|&(answer, ..)| answer).collect();
        assert_eq!(answers, (1..=3).chain(9..=14).collect());
        let path = folders.path();
        let image = &mut folders.card.image;
        keeps.expect(&Call::new(image, &path, INDEX), 0);
        for &(answer, block, field, value) in &stops {
            image.set(block, field, value);
            keeps.expect(&Call::new(image, &path, INDEX), answer);
            image.undo(0);
        }
        count += 1 + stops.len() as u64;
    }
    keeps.finish(count, &[0, 1, 2, 3, 9, 10, 11, 12, 13, 14]);
}

/// Names of one byte and of 255, so that paths have up to 2,047.
#[test]
fn paths_by_length() {
    let mut keeps = Keeps::new("keep by length of the path");
    for names in 1..=EIGHT {
        for len in [1, 2, 100, 255] {
            let folders = Folders::of_len(&mut keeps.trial.random, names, len);
            let path = folders.path();
            assert_eq!(path.len(), names * (len + 1) - 1);
            keeps.expect(&Call::new(&folders.card.image, &path, 0), 0);
        }
    }
    keeps.finish(4 * 8, &[0]);
}

/// The block has the file's bytes up to its count and then zeros, and only zeros for a hole.
#[test]
fn counts_of_bytes() {
    let mut keeps = Keeps::new("keep by bytes of the block");
    for size in [1, 2, 4095, 4096, 4097, 2 * 4096, 2 * 4096 + 1] {
        let setting = Setting {
            root_inline: 0,
            file_inline: 0,
            size,
        };
        let mut scene = Scene::new(&mut keeps.trial.random, setting);
        scene.card.add_block(scene.ino, 0);
        let blocks = size.div_ceil(BLOCK_SIZE as u64) as u32;
        for index in [0, 1, 2, 3, u32::MAX] {
            let answer = match index {
                0 => 0,
                _ if index < blocks => 1,
                _ => 3,
            };
            keeps.expect(&Call::new(&scene.card.image, NAME, index), answer);
        }
    }
    keeps.finish(7 * 5, &[0, 1, 3]);
}

/// Files in their inodes, in a root that is one too.
#[test]
fn inline_files() {
    let mut keeps = Keeps::new("keep of inline files");
    for (inline, room) in [(0, INLINE_ROOM), (INLINE_XATTR, INLINE_ROOM_WITH_XATTR)] {
        for (size, answer) in [(1, 0), (1000, 0), (room, 0), (room + 1, 12)] {
            let setting = Setting {
                root_inline: INLINE_DENTRY,
                file_inline: INLINE_DATA | inline,
                size: size as u64,
            };
            let scene = Scene::new(&mut keeps.trial.random, setting);
            let image = &scene.card.image;
            keeps.expect(&Call::new(image, NAME, 0), answer);
            let behind = if answer == 0 { 3 } else { 12 };
            keeps.expect(&Call::new(image, NAME, 1), behind);
        }
    }
    keeps.finish(2 * 4 * 2, &[0, 3, 12]);
}

/// What the table says of a node comes from the journal if that has its number. It is 9, 0, 0 for numbers that no
/// table has, and 0 with any two numbers for others, whether there is a node or not.
#[test]
fn table_answers() {
    let mut keeps = Keeps::new("keep by table answers");
    let setting = Setting {
        root_inline: 0,
        file_inline: 0,
        size: 1,
    };
    let mut scene = Scene::new(&mut keeps.trial.random, setting);
    let (entry, card) = (scene.linked, &mut scene.card);
    let past = card.node_numbers;
    let free = card.free_number();
    card.set_entry(free, u32::MAX, 0);
    card.set_entry(past - 1, 7, u32::MAX);
    card.image.settle("numbers at the ends of the table");
    for (number, answer) in [
        (0, 9),
        (free, 9),
        (past - 1, 10),
        (past, 9),
        (past + 1, 9),
        (u32::MAX, 9),
    ] {
        let ino = entry.field(dentry::INO);
        card.image.set(entry.block, ino, u64::from(number));
        keeps.expect(&Call::new(&card.image, NAME, 0), answer);
        let journal = [journalled(number, distinct_entry(number % 1000))];
        card.image.set_journal(card.which_pack, &journal);
        let in_table = (1..past).contains(&number);
        let answer = if in_table { 10 } else { 9 };
        keeps.expect(&Call::new(&card.image, NAME, 0), answer);
        card.image.undo(0);
    }
    keeps.finish(6 * 2, &[9, 10]);
}

/// A number is listed once, however often it was looked up; and so is a block.
#[test]
fn listed_once() {
    let mut keeps = Keeps::new("keep of a path that comes by a folder twice");
    for names in 2..=EIGHT {
        let mut folders = Folders::any(&mut keeps.trial.random, 1, 0);
        let root = folders.folders[0].ino;
        folders.card.enter(root);
        folders.card.link(0, 0, &Dentry::new(b".", root));
        let path = [b"./".repeat(names - 1), folders.path()].concat();
        keeps.compare(&Call::new(&folders.card.image, &path, 0));
    }
    keeps.finish(7, &[0]);
}

#[test]
fn image_is_only_read() {
    let mut keeps = Keeps::new("keep and the image");
    let folders = Folders::any(&mut keeps.trial.random, 3, INDEX);
    let (path, image) = (folders.path(), folders.card.image);
    let before = image.bytes().to_vec();
    for (index, answer) in [(INDEX, 0), (0, 1), (INDEX + 1, 3)] {
        keeps.expect(&Call::new(&image, &path, index), answer);
    }
    assert!(image.bytes() == before, "a writer wrote to {image:?}");
    keeps.finish(3, &[0, 1, 3]);
}

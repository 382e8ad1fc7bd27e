//! `harptimber compare` on images that open: one change at a time to the new one, against compares by the
//! reference of every block.

use std::collections::BTreeSet;

use harptimber_tests::cards::directory::Dentry;
use harptimber_tests::cards::image::Image;
use harptimber_tests::cards::layout::inode::{
    INLINE_AT, INLINE_ROOM, INLINE_ROOM_WITH_XATTR, I_SIZE,
};
use harptimber_tests::cards::layout::nat::BLOCK_ADDR;
use harptimber_tests::cards::layout::superblock::SEGMENT_COUNT_MAIN;
use harptimber_tests::cards::layout::BLOCK_SIZE;
use harptimber_tests::cards::on_disk::OnDisk;
use harptimber_tests::program::card::{
    ProgramCard, AROUND_RUNS, EMPTY, LONG, NAMES, OUTSIDE, ROAD,
};
use harptimber_tests::program::card::{FULL, FULL_BESIDE_XATTR, INLINE, INLINE_EMPTY};
use harptimber_tests::program::compares::Expected;
use harptimber_tests::program::page::{expect_head, expect_name, shown};
use harptimber_tests::program::special_build::SpecialBuild;
use harptimber_tests::program::versions::{add_moved_road, MOVED_BYTE};
use harptimber_tests::program::{run, Ran, Words};
use harptimber_tests::tools::published::{filled_on, File};
use harptimber_tests::trial::Random;

use crate::check::expect_as_compare;

/// A kept card and a new one, which are the same but for what a test changes.
pub(crate) struct Cards {
    kept: ProgramCard,
    fresh: OnDisk,
    run: Box<dyn Fn(Words) -> Ran>,
}

impl Cards {
    fn new() -> Cards {
        Cards::of(ProgramCard::build())
    }

    pub(crate) fn of(kept: ProgramCard) -> Cards {
        let fresh = OnDisk::new(kept.disk.image.clone());
        let run = Box::new(run);
        Cards { kept, fresh, run }
    }

    /// Changes the new image, in memory and in its file.
    fn change(&mut self, change: impl FnOnce(&mut Image)) {
        change(&mut self.fresh.image);
        self.write();
    }

    fn undo(&mut self) {
        let changed = self.changed_blocks();
        self.fresh.image.undo(0);
        self.fresh.write_blocks(&changed);
    }

    fn write(&self) {
        self.fresh.write_blocks(&self.changed_blocks());
    }

    fn changed_blocks(&self) -> Vec<u32> {
        let changes = self.fresh.image.written();
        let blocks = changes.map(|(place, _)| (place / BLOCK_SIZE) as u32);
        let blocks: BTreeSet<u32> = blocks.collect();
        blocks.into_iter().collect()
    }

    fn byte(&mut self, block: u32, at: usize) {
        self.change(|image| {
            let old = image.block(block)[at];
            image.put("byte", block, at, &[old ^ 1]);
        });
    }

    /// Compares a file as a whole and at some indexes. Returns the status of the whole.
    fn expect(&self, name: &[u8]) -> i32 {
        for index in [0, 1, 2, 3, 5, 922, 923, 926, u32::MAX] {
            self.expect_at(name, Some(index));
        }
        self.expect_at(name, None)
    }

    fn expect_at(&self, name: &[u8], index: Option<u32>) -> i32 {
        let images = [&self.kept.disk.image, &self.fresh.image];
        let expected = Expected::of(images, name, index);
        let paths = [self.kept.disk.path(), self.fresh.path()];
        let index = index.unwrap_or(0);
        let words: Words = &[
            &"--index", &index, &"compare", &"--", &paths[0], &paths[1], &name,
        ];
        let words = &words[2 * usize::from(expected.whole())..];
        let run = &self.run;
        let in_words = run(words).expect(expected.status);
        expected.expect_words(in_words.words(), true);
        let quiet = run(&[&[&"-q" as _], words].concat()).expect(expected.status);
        assert_eq!((quiet.words(), quiet.err.as_str()), ("", ""));
        let as_json = run(&[&[&"--json" as _], words].concat()).expect(expected.status);
        let json = as_json.json();
        expect_head(&json, "compare", expected.answer);
        expect_name(&json, name);
        let shown = ["kept", "new"].map(|key| json[key].text().to_string());
        assert_eq!(shown, paths.map(|path| path.to_str().unwrap().to_string()));
        assert!(json.get("side").is_none(), "a side in {json:?}");
        expected.expect_json(&json);
        assert_eq!(in_words.err + &as_json.err, "");
        if !expected.whole() {
            let cards = [&self.kept.disk, &self.fresh];
            expect_as_compare(run, cards, name, index);
        }
        expected.status
    }
}

#[test]
fn same() {
    expect_same(&Cards::new());
}

pub(crate) fn expect_same(cards: &Cards) {
    for name in [ROAD, LONG, b"4096", b"a hole", NAMES[0], NAMES[2], NAMES[5]] {
        assert_eq!(cards.expect(name), 0, "of {}", shown(name));
    }
    for name in [INLINE, FULL, FULL_BESIDE_XATTR] {
        assert_eq!(cards.expect_at(name, None), 0, "of {}", shown(name));
        assert_eq!(cards.expect_at(name, Some(0)), 0);
        assert_eq!(cards.expect_at(name, Some(1)), 2, "past the end");
    }
    for name in [EMPTY, INLINE_EMPTY] {
        assert_eq!(cards.expect_at(name, None), 0, "still empty");
    }
}

/// Cards that the published tools write before and after a change of two bytes.
#[test]
fn published_cards() {
    let mut random = Random::new(7);
    let mut table = random.bytes(30 * BLOCK_SIZE + 7);
    let road: File = (b"road".to_vec(), random.bytes(900 * BLOCK_SIZE));
    let card = |table: &[u8]| {
        let files = [(b"table".to_vec(), table.to_vec()), road.clone()];
        OnDisk::new(filled_on(100, 1_700_000_000, &files))
    };
    let kept = card(&table);
    table[3 * BLOCK_SIZE] ^= 1;
    table[30 * BLOCK_SIZE + 6] ^= 1;
    let fresh = card(&table);
    for (name, status) in [("table", 1), ("road", 0)] {
        let cards = [&kept.image, &fresh.image];
        let expected = Expected::of(cards, name.as_bytes(), None);
        assert_eq!(expected.status, status, "of {name}");
        let words: Words = &[&"compare", &kept.path(), &fresh.path(), &name];
        expected.expect_words(run(words).expect(status).words(), true);
        let ran = run(&[words, &[&"--json"]].concat()).expect(status);
        expected.expect_json(&ran.json());
    }
}

/// One byte in each of some blocks; in the last one behind the file's end, which a pull reads too.
#[test]
fn data() {
    expect_data(&mut Cards::new());
}

pub(crate) fn expect_data(cards: &mut Cards) {
    let blocks = cards.kept.file(ROAD).blocks.clone();
    let sets: [&[u32]; 7] = [&[0], &[1], &[3], &[5], &[0, 1], &[0, 3], &[0, 1, 3, 5]];
    for set in sets {
        for index in set {
            cards.byte(blocks[index], 4095);
        }
        assert_eq!(cards.expect(ROAD), 1, "blocks {set:?} changed");
        assert_eq!(cards.expect(b"4097"), 0, "another file");
        cards.undo();
        assert_eq!(cards.expect_at(ROAD, None), 0, "nothing changed");
    }
}

/// A byte behind a block that isn't on the new card any more is the first only of what both cards have.
#[test]
fn behind_a_missing_block() {
    let mut cards = Cards::new();
    let road = cards.kept.file(ROAD).clone();
    let inode = cards.kept.card.inode_block(road.ino);
    cards.change(|image| image.put("address", inode, 360 + 4, &[1, 0, 0, 0]));
    cards.byte(road.blocks[&3], 17);
    assert_eq!(cards.expect(ROAD), 1);
    let paths = [cards.kept.disk.path(), cards.fresh.path()];
    let ran = run(&[&"compare", &paths[0], &paths[1], &ROAD]).expect(1);
    let first = "differ, among those on both cards first at byte 12305 of the file (";
    assert!(ran.words().contains(first), "{ran:?}");
}

/// Bytes of inline files and around them, which are all in one block; and other sizes, up to one that isn't read.
#[test]
fn inline_files() {
    expect_inline_files(&mut Cards::new());
}

pub(crate) fn expect_inline_files(cards: &mut Cards) {
    for (name, room) in [
        (INLINE, INLINE_ROOM),
        (FULL_BESIDE_XATTR, INLINE_ROOM_WITH_XATTR),
    ] {
        let file = cards.kept.file(name).clone();
        let inode = file.inline.expect("an inline file");
        let end = INLINE_AT + file.size as usize;
        for at in [32, INLINE_AT - 1, INLINE_AT, end - 1, end, 4051, 4095] {
            cards.byte(inode, at);
            assert_eq!(cards.expect(name), 1, "byte {at} changed");
            assert_eq!(cards.expect_at(FULL, None), 0, "another file");
            cards.undo();
        }
        for size in [
            0,
            1,
            file.size - 1,
            file.size + 1,
            room as u64,
            room as u64 + 1,
        ] {
            if size != file.size {
                cards.change(|image| image.set(inode, I_SIZE, size));
                assert_eq!(cards.expect(name), 1, "size {size}");
                cards.undo();
            }
        }
    }
}

/// Data and a node behind the inode.
#[test]
fn behind_a_node() {
    expect_behind_a_node(&mut Cards::new());
}

pub(crate) fn expect_behind_a_node(cards: &mut Cards) {
    let long = cards.kept.file(LONG).clone();
    let node = cards.kept.card.node(long.ino, 1).block;
    for block in [long.blocks[&923], node] {
        cards.byte(block, 2000);
        assert_eq!(cards.expect(LONG), 1);
        cards.undo();
    }
}

/// The inode moved to another block: kind 2, for each block of the file.
#[test]
fn table() {
    expect_table(&mut Cards::new());
}

pub(crate) fn expect_table(cards: &mut Cards) {
    let ino = cards.kept.file(ROAD).ino;
    let inode = cards.kept.card.inode_block(ino);
    let moved = cards.kept.card.free_block();
    let (table, at) = cards.kept.card.entry_place(ino);
    cards.change(|image| {
        let bytes = image.block(inode).to_vec();
        image.put("inode", moved, 0, &bytes);
        image.set(table, BLOCK_ADDR.moved(at), u64::from(moved));
    });
    assert_eq!(cards.expect(ROAD), 1);
    assert_eq!(cards.expect(b"4097"), 0, "another file");
}

/// The version of the new card's last checkpoint has wrapped to 0, and by its journal the file has moved, with another byte.
/// As long as that pack isn't whole, the card is what it was.
#[test]
fn wrapped_version() {
    let mut cards = Cards::new();
    for disk in [&mut cards.kept.disk, &mut cards.fresh] {
        let blocks = disk.image.set_version(0, u64::MAX);
        disk.write_blocks(&blocks);
    }
    add_moved_road(&mut cards.kept, &mut cards.fresh.image, 0);
    let last = cards.fresh.image.last_block(1);
    let whole = cards.fresh.image.mark();
    cards.change(|image| image.put("no last block", last, 0, &[0; BLOCK_SIZE]));
    assert_eq!(cards.expect(ROAD), 0, "by the pack before");
    cards.fresh.image.undo(whole);
    cards.write();
    assert_eq!(cards.expect(ROAD), 1, "by the new pack");
    assert_eq!(cards.expect(b"4097"), 0, "another file");
    let before = cards.kept.file(ROAD).block(&cards.kept.disk.image, 0)[MOVED_BYTE];
    let line = format!(
        "road.bin: 1 of 6 blocks differs, first at byte {MOVED_BYTE} of the file (0x{before:02x} before, 0x{:02x} now); \
         5 have the same bytes but rest on something that changed\n",
        !before
    );
    let paths = [cards.kept.disk.path(), cards.fresh.path()];
    let ran = run(&[&"compare", &paths[0], &paths[1], &ROAD]).expect(1);
    assert!(ran.words().starts_with(&line), "no '{line}' in {ran:?}");
    let info = run(&[&"info", &paths[1]]).expect(0);
    let in_use = "checkpoint pack 2: in use; version 0 (0x0), newer than the other's by 1: ";
    assert!(info.words().contains(in_use), "of {info:?}");
}

/// A longer main area: kind 1, for every file.
#[test]
fn main_area() {
    let mut cards = Cards::new();
    cards.change(|image| {
        image.set(0, SEGMENT_COUNT_MAIN, 2);
        image.set(1, SEGMENT_COUNT_MAIN, 2);
    });
    for name in [ROAD, OUTSIDE, EMPTY] {
        assert_eq!(cards.expect(name), 1, "of {}", shown(name));
    }
    assert_eq!(cards.expect(b"no such name"), 4, "on neither card");
}

/// Where the kept card refuses, that is said; unless something changed. A name that is on neither card is
/// the question's fault.
#[test]
fn refused_by_kept() {
    expect_refused_by_kept(&mut Cards::new());
}

pub(crate) fn expect_refused_by_kept(cards: &mut Cards) {
    let refused = cards.kept.refused.clone();
    for (name, index, answer) in &refused {
        let status = if *answer == 2 { 4 } else { 2 };
        assert_eq!(cards.expect(name), status, "of {}", shown(name));
        assert_eq!(cards.expect_at(name, Some(*index)), status);
    }
    assert_eq!(cards.expect_at(ROAD, Some(6)), 2, "past the end");
    let blocks = cards.kept.outside.blocks.clone();
    for (index, status) in [(0, 1), (1, 1), (3, 2)] {
        cards.byte(blocks[&index], 0);
        assert_eq!(cards.expect(OUTSIDE), status, "block {index} changed");
        cards.undo();
    }
    let ino = cards.kept.outside.ino;
    cards.byte(cards.kept.card.inode_block(ino), 300);
    assert_eq!(cards.expect(OUTSIDE), 1, "inode changed");
}

/// Blocks that changed, and ones that the kept card refuses, around where the program's runs of pulls end.
#[test]
fn around_runs() {
    let mut cards = Cards::of(ProgramCard::around_runs());
    for blocks in AROUND_RUNS {
        let name = format!("{blocks} blocks").into_bytes();
        assert_eq!(cards.expect_at(&name, None), 0, "of {}", shown(&name));
        let data = cards.kept.file(&name).blocks.clone();
        for (index, block) in data {
            cards.byte(block, 7);
            assert_eq!(cards.expect_at(&name, None), 1, "block {index} changed");
            cards.undo();
        }
        let name = format!("refused at {blocks}").into_bytes();
        assert_eq!(cards.expect_at(&name, None), 2, "of {}", shown(&name));
    }
}

/// A name that wasn't there and is, and the other way round.
#[test]
fn names() {
    expect_names(&mut Cards::new());
}

pub(crate) fn expect_names(cards: &mut Cards) {
    let (missing, ..) = cards.kept.refused[0].clone();
    let ino = cards.kept.file(ROAD).ino;
    let directory = cards.kept.card.directory[&0];
    cards.change(|image| image.put_dentry(directory, 210, &Dentry::new(&missing, ino)));
    assert_eq!(cards.expect(&missing), 1);
    cards.undo();
    cards.change(|image| image.clear_slots(directory));
    assert_eq!(cards.expect(ROAD), 1);
}

/// A file that was empty has no block, but its inode is what says so.
#[test]
fn empty_file() {
    let mut cards = Cards::new();
    let inode = cards.kept.card.inode_block(cards.kept.file(EMPTY).ino);
    cards.change(|image| image.set(inode, I_SIZE, 5000));
    assert_eq!(cards.expect(EMPTY), 1, "grown");
    cards.undo();
    assert_eq!(cards.expect_at(EMPTY, Some(0)), 2, "no block 0");
    assert_eq!(cards.expect_at(EMPTY, None), 0, "still empty");
}

/// Where damage may strike without making a file so long that a compare takes hours: a size's higher bytes stay.
fn strike(random: &mut Random, block: u32, inode: bool, image: &mut Image) {
    let ends = [32, 400, BLOCK_SIZE as u64][random.below(3) as usize];
    let from_end = random.below(4) == 0;
    let at = random.below(ends) as usize;
    let at = if from_end {
        BLOCK_SIZE - 1 - at % 48
    } else {
        at
    };
    if !inode || !(18..24).contains(&at) {
        let byte = [0, 255, random.number() as u8, image.block(block)[at] ^ 1];
        image.put("damage", block, at, &[byte[random.below(4) as usize]]);
    }
}

/// Nodes and directory blocks with a few bytes changed anywhere, on the new card. Returns how often each status came.
fn damage(cards: &mut Cards, random: &mut Random, rounds: usize) -> [u32; 5] {
    let [root, road] = [3, cards.kept.file(ROAD).ino].map(|ino| cards.kept.card.inode_block(ino));
    let node = cards.kept.card.node(cards.kept.file(LONG).ino, 1).block;
    let directory = cards.kept.card.directory[&0];
    let data = cards.kept.file(ROAD).blocks[&1];
    let targets = [
        (root, true),
        (road, true),
        (node, false),
        (directory, false),
        (data, false),
    ];
    let mut statuses = [0; 5];
    for _ in 0..rounds {
        let (block, inode) = targets[random.below(5) as usize];
        let strikes = 1 + random.below(6);
        cards.change(|image| (0..strikes).for_each(|_| strike(random, block, inode, image)));
        // The long file takes long, and has a node of its own.
        let other: &[u8] = if block == node { LONG } else { b"4097" };
        for name in [ROAD, other, b"no such name"] {
            statuses[cards.expect_at(name, None) as usize] += 1;
        }
        cards.undo();
    }
    println!(
        "compare of damaged cards: {} inputs compared, statuses {statuses:?}",
        3 * rounds
    );
    statuses
}

#[test]
fn damaged() {
    let mut cards = Cards::new();
    let statuses = damage(&mut cards, &mut Random::new(41), 40);
    assert!(
        [0, 1, 4].iter().all(|&status| statuses[status] > 9),
        "{statuses:?}"
    );
}

#[test]
fn damaged_under_sanitizers() {
    let build = SpecialBuild::sanitized();
    let mut cards = Cards::new();
    cards.run = Box::new(move |words| build.run(words));
    let statuses = damage(&mut cards, &mut Random::new(42), 8);
    assert!(
        [0, 1, 4].iter().all(|&status| statuses[status] > 1),
        "{statuses:?}"
    );
}

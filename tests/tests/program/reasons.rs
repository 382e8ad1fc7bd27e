//! Why a pull was refused, in words and in JSON, for each thing that can be wrong on the way.

use std::fs::File;
use std::os::unix::fs::FileExt;
use std::path::{Path, PathBuf};

use reference::hash::raw_hash;

use harptimber_tests::calls::pulls::{reference_pull, Call, Outcome};
use harptimber_tests::cards::card::{Card, Node, ROOT};
use harptimber_tests::cards::damage::Damage;
use harptimber_tests::cards::directory::{bucket_index, in_slot, Dentry, Linked};
use harptimber_tests::cards::layout::dentry::{FILE_TYPE, HASH_CODE, INO, NAME_LEN};
use harptimber_tests::cards::layout::footer;
use harptimber_tests::cards::layout::inode::*;
use harptimber_tests::cards::layout::superblock::MAIN_BLKADDR;
use harptimber_tests::cards::layout::{Field, BLOCK_SIZE};
use harptimber_tests::cards::one_file::{Scene, Setting, NAME};
use harptimber_tests::cards::random_files::{any_target, random_files, RandomFiles};
use harptimber_tests::cards::tree;
use harptimber_tests::cards::walk_damage::strike_either;
use harptimber_tests::program::compare_words::grouped;
use harptimber_tests::program::page::{expect_head, meaning};
use harptimber_tests::program::special_build::SpecialBuild;
use harptimber_tests::program::{run, Ran, Words};
use harptimber_tests::tools::published::Scratch;
use harptimber_tests::trial::Random;

const BLOCKS: u32 = 2000;

/// A card whose file has data in its inode and in a node at place 1.
struct Stage {
    scene: Scene,
    scratch: Scratch,
}

impl Stage {
    fn new() -> Stage {
        let setting = Setting {
            root_inline: 0,
            file_inline: 0,
            size: u64::from(BLOCKS) * BLOCK_SIZE as u64,
        };
        let mut scene = Scene::new(&mut Random::new(21), setting);
        for index in [0, ADDRESSES] {
            scene.card.add_block(scene.ino, index);
        }
        // What only words speak of is junk else.
        for block in [scene.file_block(), scene.root_block()] {
            let image = &mut scene.card.image;
            image.set_all(block, &[(I_ADVISE, 0), (I_FLAGS, 0)]);
        }
        scene.card.image.settle("a file with a node");
        Stage {
            scene,
            scratch: Scratch::new(),
        }
    }

    fn card(&mut self) -> &mut Card {
        &mut self.scene.card
    }

    fn save(&self) -> PathBuf {
        let path = self.scratch.path("card.img");
        self.scene.card.image.save(&path);
        path
    }

    /// Changes the card, and says that a pull of a block then has this answer and this reason.
    fn expect(&mut self, index: u32, answer: u32, reason: &str, change: impl FnOnce(&mut Scene)) {
        let mark = self.scene.card.image.mark();
        change(&mut self.scene);
        let path = self.save();
        let ran = run(&[&"pull", &path, &NAME, &index]).expect(2);
        let name = String::from_utf8_lossy(NAME);
        let meaning = meaning("pull", answer);
        let line = format!("{name}, block {index}: {meaning} (answer {answer}): {reason}\n");
        assert!(ran.words().starts_with(&line), "no '{line}' in {ran:?}");
        let json = run(&[&"pull", &"--json", &path, &NAME, &index])
            .expect(2)
            .json();
        expect_head(&json, "pull", answer);
        assert_eq!(json["reason"].text(), reason, "in {json:?}");
        self.scene.card.image.undo(mark);
    }

    /// The same with fields of an inode.
    fn expect_fields(&mut self, block: u32, answer: u32, reason: &str, fields: &[(Field, u64)]) {
        self.expect(0, answer, reason, |scene| {
            scene.card.image.set_all(block, fields)
        });
    }

    fn main_area(&self) -> String {
        let areas = &self.scene.card.image.areas;
        format!(
            "the main area is blocks {} to {}",
            areas.main,
            areas.main_end - 1
        )
    }
}

/// 9: a number that is out of range, or not in use.
#[test]
fn no_node() {
    let mut stage = Stage::new();
    let (ino, linked) = (stage.scene.ino, stage.scene.linked);
    let entry = in_slot(INO, linked.slot);
    for number in [0, stage.card().node_numbers] {
        let reason = format!("node {number} (the file's inode) is out of range");
        stage.expect_fields(linked.block, 9, &reason, &[(entry, u64::from(number))]);
    }
    let unused = format!("node {ino} (the file's inode) isn't in use");
    stage.expect(0, 9, &unused, |scene| scene.card.set_entry(ino, ino, 0));
    let below = stage.card().node(ino, 1).nid;
    let unused = format!("node {below} (place 1 of the file) isn't in use");
    stage.expect(ADDRESSES, 9, &unused, |scene| {
        scene.card.set_entry(below, ino, 0)
    });
    let root = "node 3 (the root directory's inode) isn't in use";
    stage.expect(0, 9, root, |scene| scene.card.set_entry(ROOT, ROOT, 0));
}

/// 9 on the way to a block of the root directory, which needs a directory of many levels.
#[test]
fn no_node_of_the_root() {
    let mut stage = Stage::new();
    let level = 9;
    let index = bucket_index(level, raw_hash(NAME), 0);
    let place = tree::way(ADDRESSES, index)[1].place;
    let (root, linked) = (stage.scene.root_block(), stage.scene.linked);
    stage.card().way(ROOT, index);
    let node = stage.card().node(ROOT, place).nid;
    let reason = format!("node {node} (place {place} of the root directory) isn't in use");
    stage.expect(0, 9, &reason, |scene| {
        let card = &mut scene.card;
        card.image.set(root, I_CURRENT_DEPTH, u64::from(level) + 1);
        // Otherwise it is found before.
        card.image
            .set_slot_bits(linked.block, linked.slot, 1, false);
        card.set_entry(node, ROOT, 0);
    });
}

/// 10 and 13: an address outside the main area.
#[test]
fn outside() {
    let mut stage = Stage::new();
    let ino = stage.scene.ino;
    let [first, end] = [
        stage.card().image.areas.main,
        stage.card().image.areas.main_end,
    ];
    let main_area = stage.main_area();
    for address in [first - 1, end, u32::MAX - 1] {
        let reason = |whose: &str| format!("{whose} has address {address}; {main_area}");
        let inode = reason(&format!("node {ino} (the file's inode)"));
        stage.expect(0, 10, &inode, |scene| {
            scene.card.set_entry(ino, ino, address)
        });
        let below = stage.card().node(ino, 1).nid;
        let node = reason(&format!("node {below} (place 1 of the file)"));
        stage.expect(ADDRESSES, 10, &node, |scene| {
            scene.card.set_entry(below, ino, address)
        });
        for index in [0, ADDRESSES] {
            let data = reason(&format!("block {index} of the file"));
            stage.expect(index, 13, &data, |scene| {
                scene.card.set_address(ino, index, address)
            });
        }
        let entries = reason("block 0 of the root directory");
        stage.expect(0, 13, &entries, |scene| {
            scene.card.set_address(ROOT, 0, address)
        });
    }
}

/// The main area is that of the copy in use, though the other has its mark.
#[test]
fn second_copy() {
    let mut stage = Stage::new();
    let ino = stage.scene.ino;
    let areas = stage.card().image.areas;
    let reason = format!("block 0 of the file has address {}", areas.main_end);
    let reason = format!("{reason}; {}", stage.main_area());
    stage.expect(0, 13, &reason, |scene| {
        let main = u64::from(areas.main);
        scene.card.image.set(0, MAIN_BLKADDR, main - 512);
        scene.card.set_address(ino, 0, areas.main_end);
    });
}

/// A footer's flag word with this place.
fn at_place(place: u64) -> (Field, u64) {
    (footer::FLAG, place << footer::OFFSET_BIT_SHIFT | 5)
}

/// 11: which number of the block, or of the table, is another.
#[test]
fn foreign() {
    let mut stage = Stage::new();
    let ino = stage.scene.ino;
    let Node { nid, block } = stage.card().node(ino, 1);
    let head = format!("node {nid} (place 1 of the file) should be in block {block}, but");
    let other = u64::from(ino ^ 1);
    let number = format!("the block's number is 77, not {nid}");
    let owner = format!("the block's inode is {other}, not {ino}");
    let cases: [(&[(Field, u64)], String); 4] = [
        (&[(footer::NID, 77)], number.clone()),
        (&[(footer::INO, other)], owner.clone()),
        (&[at_place(9)], "the block's place is 9, not 1".to_string()),
        (
            &[(footer::NID, 77), (footer::INO, other), at_place(0)],
            format!("{number}; {owner}; the block's place is 0, not 1"),
        ),
    ];
    for (fields, why) in cases {
        stage.expect(ADDRESSES, 11, &format!("{head} {why}"), |scene| {
            scene.card.image.set_all(block, fields)
        });
    }
    let why = format!("{head} the table's inode is {other}, not {ino}");
    stage.expect(ADDRESSES, 11, &why, |scene| {
        scene.card.set_entry(nid, other as u32, block)
    });
}

/// The same of an inode.
#[test]
fn foreign_inode() {
    let mut stage = Stage::new();
    let ino = stage.scene.ino;
    let block = stage.scene.file_block();
    let place = "the block's place is 1, not 0";
    let why = format!("node {ino} (the file's inode) should be in block {block}, but {place}");
    stage.expect_fields(block, 11, &why, &[at_place(1)]);
}

const MARKED_FILE: &str = "it is marked as an inline file (inline data)";
const MARKED_DIRECTORY: &str = "it is marked as an inline directory (inline dentry)";
const MARKED_BOTH: &str =
    "it is marked as an inline file (inline data) and as an inline directory (inline dentry)";
const EXTRA: &str = "its inode has extra attributes";

/// What a file can be else, by its mode.
const KINDS: [(u64, &str); 7] = [
    (0x1000, "a FIFO"),
    (0x2000, "a character device"),
    (S_IFDIR, "a directory"),
    (0x6000, "a block device"),
    (0xA000, "a symbolic link"),
    (0xC000, "a socket"),
    (0x9000, "a file of no known kind"),
];

/// Fields of a file's inode, and each part of the reason.
const MARKED_FILES: [(&[(Field, u64)], &[&str]); 10] = [
    (&[(I_INLINE, INLINE_DENTRY)], &[MARKED_DIRECTORY]),
    (
        &[(I_INLINE, INLINE_DENTRY | INLINE_XATTR), (I_SIZE, 0)],
        &[MARKED_DIRECTORY],
    ),
    (
        &[(I_INLINE, INLINE_DENTRY | EXTRA_ATTR)],
        &[MARKED_DIRECTORY, EXTRA],
    ),
    (&[(I_INLINE, INLINE_DATA | INLINE_DENTRY)], &[MARKED_BOTH]),
    (
        &[(I_INLINE, INLINE_DATA | INLINE_DENTRY), (I_SIZE, 100)],
        &[MARKED_BOTH],
    ),
    (
        &[(I_INLINE, INLINE_DATA | INLINE_DENTRY | EXTRA_ATTR)],
        &[MARKED_BOTH, EXTRA],
    ),
    (
        &[(I_INLINE, INLINE_DATA | EXTRA_ATTR), (I_SIZE, 100)],
        &[EXTRA],
    ),
    (&[(I_INLINE, EXTRA_ATTR)], &[EXTRA]),
    (
        &[(I_INLINE, EXTRA_ATTR), (I_ADVISE, ADVISE_ENCRYPT)],
        &[EXTRA, "it is encrypted"],
    ),
    (
        &[(I_INLINE, EXTRA_ATTR), (I_FLAGS, FLAG_COMPRESSED)],
        &[EXTRA, "it is compressed"],
    ),
];

/// 12 of a file.
#[test]
fn kinds_of_files() {
    let mut stage = Stage::new();
    let inode = stage.scene.file_block();
    for (mode, kind) in KINDS {
        let fields = [(I_MODE, mode | 0o644), (I_INLINE, INLINE_DATA)];
        stage.expect_fields(inode, 12, &format!("it is {kind}"), &fields);
    }
    for (fields, why) in MARKED_FILES {
        stage.expect_fields(inode, 12, &why.join("; "), fields);
    }
}

/// Fields of the root directory's inode, and why it isn't read.
const UNREAD_ROOTS: [(&[(Field, u64)], &str); 13] = [
    (&[(I_MODE, S_IFREG | 0o644)], "it is a regular file"),
    (
        &[(I_MODE, S_IFREG | 0o644), (I_INLINE, INLINE_DENTRY)],
        "it is a regular file",
    ),
    (&[(I_INLINE, INLINE_DATA)], MARKED_FILE),
    (&[(I_INLINE, INLINE_DATA), (I_SIZE, 0)], MARKED_FILE),
    (
        &[(I_INLINE, INLINE_DATA | INLINE_DENTRY), (I_SIZE, 100)],
        MARKED_BOTH,
    ),
    (&[(I_INLINE, EXTRA_ATTR)], EXTRA),
    (
        &[(I_INLINE, EXTRA_ATTR | INLINE_DENTRY), (I_SIZE, 100)],
        EXTRA,
    ),
    (&[(I_CURRENT_DEPTH, 64)], "its depth is 64, over 63"),
    (
        &[(I_CURRENT_DEPTH, u32::MAX as u64)],
        "its depth is 4294967295, over 63",
    ),
    (&[(I_DIR_LEVEL, 31)], "its directory level is 31, over 30"),
    (&[(I_DIR_LEVEL, 255)], "its directory level is 255, over 30"),
    // Without it, a size or a depth of 0 is answered with 2.
    (
        &[(I_DIR_LEVEL, 32), (I_SIZE, 0)],
        "its directory level is 32, over 30",
    ),
    (
        &[(I_DIR_LEVEL, 64), (I_CURRENT_DEPTH, 0)],
        "its directory level is 64, over 30",
    ),
];

/// 12 of the root directory, whatever name is sought.
#[test]
fn kinds_of_roots() {
    let mut stage = Stage::new();
    let root = stage.scene.root_block();
    for (fields, why) in UNREAD_ROOTS {
        let reason = format!("the root directory isn't read: {why}");
        stage.expect_fields(root, 12, &reason, fields);
    }
}

/// 14: where the entry is, and how long its name.
#[test]
fn malformed() {
    let mut stage = Stage::new();
    let block = stage.scene.linked.block;
    let slot = stage.scene.linked.slot;
    for (len, bytes) in [(0, "0 bytes"), (256, "256 bytes"), (65_535, "65,535 bytes")] {
        let place =
            format!("slot {slot} of the card's block {block} (block 0 of the root directory)");
        let reason = format!("{place} has a name of {bytes}");
        stage.expect_fields(block, 14, &reason, &[(in_slot(NAME_LEN, slot), len)]);
    }
    let place = format!("slot 213 of the card's block {block} (block 0 of the root directory)");
    stage.expect(0, 14, &format!("{place} has a name of 9 bytes"), |scene| {
        let image = &mut scene.card.image;
        image.set_slot_bits(block, slot, 1, false);
        image.put_dentry(block, 213, &Dentry::new(b"123456789", 5));
        image.set(block, in_slot(FILE_TYPE, 213), 1);
    });
}

/// 2: which directory hasn't the name, wherever its entry stands instead.
#[test]
fn no_name() {
    let mut stage = Stage::new();
    let Linked { block, slot, .. } = stage.scene.linked;
    let reason = format!(
        "the root directory has no {}",
        String::from_utf8_lossy(NAME)
    );
    for (field, number) in [(NAME_LEN, 7), (HASH_CODE, 0)] {
        let fields = [(in_slot(field, slot), number)];
        stage.expect_fields(block, 2, &reason, &fields);
    }
    let root = stage.scene.root_block();
    stage.expect_fields(root, 2, &reason, &[(I_SIZE, 0)]);
}

/// 3: how long the file is.
#[test]
fn past_the_end() {
    let mut stage = Stage::new();
    let inode = stage.scene.file_block();
    let whole = "it has 8,192,000 bytes, so that its last block is 1999";
    for index in [BLOCKS, u32::MAX] {
        stage.expect(index, 3, whole, |_| ());
    }
    stage.expect_fields(inode, 3, "it is empty", &[(I_SIZE, 0)]);
    let sizes = [(1, "1 byte"), (4096, "4,096 bytes")];
    for (size, bytes) in sizes {
        let reason = format!("it has {bytes}, so that its last block is 0");
        stage.expect(1, 3, &reason, |scene| {
            scene.card.image.set(inode, I_SIZE, size)
        });
    }
}

/// A size of more blocks than a file has places for, whose last the addresses of the inode tell.
#[test]
fn past_the_last_place() {
    let mut stage = Stage::new();
    let inode = stage.scene.file_block();
    for (inline, last) in [(0, 1_057_053_438u32), (INLINE_XATTR, 1_057_053_388)] {
        let most = u64::from(last) + 1;
        for blocks in [most, most + 1, 1 << 50] {
            let size = blocks * BLOCK_SIZE as u64;
            let end = match blocks == most {
                true => format!("so that its last block is {last}"),
                false => format!("but no place for a block behind {last}"),
            };
            let reason = format!("it has {} bytes, {end}", grouped(size));
            let fields = [(I_INLINE, inline), (I_SIZE, size)];
            stage.expect(last + 1, 3, &reason, |scene| {
                for (field, number) in fields {
                    scene.card.image.set(inode, field, number);
                }
            });
        }
    }
}

/// `cat` has the reason too, and how much it wrote before.
#[test]
fn in_cat() {
    let mut stage = Stage::new();
    let ino = stage.scene.ino;
    let end = stage.card().image.areas.main_end;
    stage.card().set_address(ino, 1, end);
    let path = stage.save();
    let output = stage.scratch.path("output");
    let reason = format!(
        "block 1 of the file has address {end}; {}",
        stage.main_area()
    );
    let line = format!(" (answer 13): {reason}; 4,096 bytes were written\n");
    let ran = run(&[&"cat", &path, &NAME]).expect(2);
    assert!(ran.err.ends_with(&line), "no '{line}' in {ran:?}");
    let ran = run(&[&"cat", &"--json", &"-o", &output, &path, &NAME]).expect(2);
    assert_eq!(ran.json()["reason"].text(), reason, "in {ran:?}");
}

/// Of a block or a hole there is nothing to explain.
#[test]
fn no_reason() {
    let stage = Stage::new();
    let path = stage.save();
    let lines: [Words; 3] = [
        &[&"pull", &"--json", &path, &NAME, &"0"],
        &[&"pull", &"--json", &path, &NAME, &"1"],
        &[&"node", &"--json", &path, &"3"],
    ];
    for line in lines {
        let json = run(line).expect(0).json();
        assert!(json.get("reason").is_none(), "a reason in {json:?}");
    }
}

/// Writes these bytes of a card's image to its file.
pub(crate) fn write_places(path: &Path, card: &Card, places: &[(usize, usize)]) {
    let file = File::options().write(true).open(path).expect("the image");
    for &(at, len) in places {
        let bytes = &card.image.bytes()[at..at + len];
        file.write_all_at(bytes, at as u64).expect("its bytes");
    }
}

/// Whatever the damage is, the program's walk stops where the library's does, so that there is a reason. Returns the answer.
pub(crate) fn expect_reason(
    card: &Card,
    path: &PathBuf,
    (name, index): (&[u8], u32),
    run: impl Fn(Words) -> Ran,
) -> u32 {
    let call = Call::new(&card.image, name, index);
    let answer = Outcome::of(reference_pull, &call, call.least())
        .pulled
        .answer;
    let json = run(&[&"pull", &"--json", &"--", path, &name, &index]).json();
    expect_head(&json, "pull", answer);
    let explained = json.get("reason").is_some();
    assert_eq!(
        explained,
        matches!(answer, 2..=14),
        "in {json:?} of {:?}",
        card.image
    );
    answer
}

/// Damages random cards. Returns how often each answer came.
pub(crate) fn damage_cards(
    seed: u64,
    cards: u32,
    damages: u32,
    make: fn(&mut Random) -> RandomFiles,
    run: impl Fn(Words) -> Ran,
) -> [u32; 15] {
    let mut random = Random::new(seed);
    let scratch = Scratch::new();
    let path = scratch.path("card.img");
    let mut answers = [0; 15];
    for _ in 0..cards {
        let RandomFiles { mut card, targets } = make(&mut random);
        card.image.save(&path);
        let opening = Damage::of(&card.image);
        for _ in 0..damages {
            let target = any_target(&targets, &mut random);
            for _ in 0..1 + random.below(2) {
                strike_either(&mut card, (&opening, 12), target, &mut random);
            }
            let places = card.image.written().map(|(at, bytes)| (at, bytes.len()));
            let places: Vec<(usize, usize)> = places.collect();
            write_places(&path, &card, &places);
            let (name, index) = target.any_call(&mut random);
            // A command line has no zero bytes.
            let name = if name.contains(&0) {
                target.name.clone()
            } else {
                name
            };
            let answer = expect_reason(&card, &path, (&name, index), &run);
            answers[answer as usize] += 1;
            card.image.undo(0);
            write_places(&path, &card, &places);
        }
    }
    answers
}

/// Each of these answers came.
pub(crate) fn expect_answers(answers: &[u32; 15], expected: impl IntoIterator<Item = usize>) {
    let missing = expected.into_iter().find(|&answer| answers[answer] == 0);
    assert_eq!(missing, None, "an answer that didn't come, in {answers:?}");
}

/// Walks were stopped often enough.
pub(crate) fn expect_stops(answers: &[u32; 15]) {
    let stopped: u32 = answers[9..].iter().sum();
    assert!(stopped >= 20, "walks that stopped, in {answers:?}");
}

#[test]
fn damaged() {
    expect_answers(&damage_cards(22, 10, 100, random_files, run), 0..15);
}

/// It keeps to the image's bytes.
#[test]
fn damaged_under_sanitizers() {
    let build = SpecialBuild::sanitized();
    let run = |words: Words| build.run(words);
    expect_stops(&damage_cards(23, 3, 30, random_files, run));
}

//! Cards whose root directory has a directory level: what each command says of them in words and as JSON, and that the
//! program's walk stops where the library does.

use std::path::PathBuf;

use harptimber_tests::cards::card::{addresses_by, Card, Node, ROOT};
use harptimber_tests::cards::directory::{in_slot, DirLevel};
use harptimber_tests::cards::layout::dentry::NAME_LEN;
use harptimber_tests::cards::layout::footer;
use harptimber_tests::cards::layout::inode::*;
use harptimber_tests::cards::layout::Field;
use harptimber_tests::cards::on_disk::OnDisk;
use harptimber_tests::cards::random::pick;
use harptimber_tests::cards::tree::last_index;
use harptimber_tests::cards::walk_damage::strike_block;
use harptimber_tests::program::card::{ProgramCard, LONG, OUTSIDE, ROAD};
use harptimber_tests::program::compares;
use harptimber_tests::program::levels::{some_hash_levels, LeveledCard, Placed, MOST_LEVEL};
use harptimber_tests::program::page::{expect_head, meaning};
use harptimber_tests::program::special_build::SpecialBuild;
use harptimber_tests::program::{run, Ran, Words};
use harptimber_tests::tools::fsck::fsck;
use harptimber_tests::tools::published::{contents, filled_with_level, root_block, File, Scratch};
use harptimber_tests::trial::Random;

use crate::compare::{self, Cards};
use crate::ls::{expect_listing, published_file, Expected};
use crate::pull::expect_json;
use crate::reasons::{expect_answers, expect_reason, expect_stops, write_places};
use crate::{cat, ls, pull, words};

/// The last index cuts the last hash level in reach at each of them. At 29 and 30 that is the first one, and 23 has as many
/// in reach as 22.
const LEVELS: [u8; 7] = [0, 1, 4, 22, 23, 29, 30];

/// Levels that aren't read.
const REFUSED: [u8; 5] = [31, 32, 63, 128, 255];

fn not_read(level: u8) -> String {
    format!("the root directory isn't read: its directory level is {level}, over 30")
}

/// All that the commands say of files whose names are each in a bucket of its own.
#[test]
fn files() {
    for level in [1, 4, 22] {
        let card = ProgramCard::leveled(level);
        pull::expect_every_answer(&card);
        words::expect_pulls(&card);
        cat::expect_built_files(&card);
        ls::expect_every_answer(&card);
    }
}

#[test]
fn compares_of_files() {
    compare::expect_same(&Cards::of(ProgramCard::leveled(4)));
    for expect in [
        compare::expect_data,
        compare::expect_behind_a_node,
        compare::expect_table,
        compare::expect_refused_by_kept,
    ] {
        expect(&mut Cards::of(ProgramCard::leveled(22)));
    }
}

/// A card with a name in its first and in later hash levels, for each level and both kinds of inodes.
fn each_card(seed: u64, mut expect: impl FnMut(LeveledCard)) {
    let mut random = Random::new(seed);
    for level in LEVELS {
        for inline in [0, INLINE_XATTR] {
            let hash_levels = some_hash_levels(level);
            expect(LeveledCard::new(&mut random, level, inline, &hash_levels));
        }
    }
}

/// The blocks, the bytes and the end of each file.
fn expect_files(card: &LeveledCard, disk: &OnDisk) {
    let image = &card.card.image;
    for Placed { put, .. } in &card.files {
        let answers = [0, 1, 2].map(|index| expect_json(disk, image, &put.name, index));
        assert_eq!(answers, [0, 0, 3], "of level {}", card.level);
        let name = String::from_utf8_lossy(&put.name);
        let ran = run(&[&"pull", &disk.path(), &put.name, &"1"]).expect(0);
        let line = format!("{name}, block 1: data (answer 0), 1,904 bytes\n");
        assert!(ran.words().starts_with(&line), "no '{line}' in {ran:?}");
        let ran = run(&[&"pull", &disk.path(), &put.name, &"2"]).expect(2);
        let end = "(answer 3): it has 6,000 bytes, so that its last block is 1\n";
        assert!(ran.words().contains(end), "no '{end}' in {ran:?}");
        let cat = run(&[&"cat", &disk.path(), &put.name]).expect(0);
        assert!(cat.out == put.bytes(image), "bytes by {cat:?}");
    }
}

/// Names in the first, the second, a middle and the last hash levels in reach.
#[test]
fn names_in_hash_levels() {
    each_card(91, |card| {
        let disk = OnDisk::new(card.card.image.clone());
        expect_files(&card, &disk);
        let names = card.files.iter().map(|file| &file.put);
        let listed = names.map(|put| Expected::new(&put.name, put.size, 0, ""));
        expect_listing(&disk.path(), listed.collect(), &[]);
        let missing = "no such name";
        assert_eq!(expect_json(&disk, &disk.image, missing.as_bytes(), 0), 2);
    });
}

/// Changes a number of the root's inode. Returns what a pull of the name then answers, which is listed too.
fn answer_with(card: &Card, (field, value): (Field, u64), name: &[u8]) -> u32 {
    let mut image = card.image.clone();
    image.set(card.inode_block(ROOT), field, value);
    let disk = OnDisk::new(image);
    let answer = expect_json(&disk, &disk.image, name, 0);
    let ls = run(&[&"ls", &"--json", &disk.path()]).expect(0).json();
    let mut names = ls["names"].list().iter();
    let listed = names.find(|json| json["name"].text().as_bytes() == name);
    let listed = listed.expect("the name")["answer"].number();
    assert_eq!(listed, u64::from(answer), "in {ls:?}");
    answer
}

/// A name isn't found where another level would have it, nor below the depth; but it is listed.
#[test]
fn names_found_by_no_pull() {
    each_card(92, |LeveledCard { card, level, files }| {
        for Placed {
            put, hash_level, ..
        } in files
        {
            let with = |field, value| answer_with(&card, (field, value), &put.name);
            assert_eq!(with(I_SIZE, 0), 2);
            assert_eq!(with(I_CURRENT_DEPTH, u64::from(hash_level)), 2);
            assert_eq!(with(I_CURRENT_DEPTH, u64::from(hash_level) + 1), 0);
            let beside = with(I_DIR_LEVEL, u64::from(level) + 1);
            let expected: &[u32] = match (level, hash_level) {
                (MOST_LEVEL, _) => &[12],
                // Half of the names in the first hash level stay where they are.
                (_, 0) => &[0, 2],
                _ => &[2],
            };
            assert!(expected.contains(&beside), "{beside} beside level {level}");
        }
    });
}

/// A card with a level that isn't read, and its files.
fn refused_card(level: u8) -> (OnDisk, Vec<Placed>) {
    let mut card = LeveledCard::new(&mut Random::new(93), 4, 0, &[0, 3]);
    let root = card.card.inode_block(ROOT);
    card.card.image.set(root, I_DIR_LEVEL, level.into());
    (OnDisk::new(card.card.image), card.files)
}

/// Above 30 every name is answered 12, with the level as the reason; it can be listed all the same.
#[test]
fn refused_levels() {
    for level in REFUSED {
        let (disk, files) = refused_card(level);
        let (path, output) = (disk.path(), disk.scratch.path("output"));
        let reason = not_read(level);
        let said = format!("{} (answer 12): {reason}", meaning("pull", 12));
        for name in [&files[0].put.name, &files[1].put.name, &b"missing".to_vec()] {
            assert_eq!(expect_json(&disk, &disk.image, name, 0), 12);
            let shown = String::from_utf8_lossy(name);
            let ran = run(&[&"pull", &path, name, &"0"]).expect(2);
            let line = format!("{shown}, block 0: {said}\nrests on 1 node and 1 block\n");
            assert_eq!(ran.words(), line);
            let json = run(&[&"pull", &"--json", &path, name, &"0"])
                .expect(2)
                .json();
            assert_eq!(json["reason"].text(), reason, "in {json:?}");
            run(&[&"cat", &path, name]).expect_message(2, &[&said]);
            let words: Words = &[&"cat", &"--json", &"-o", &output, &path, name];
            let json = run(words).expect(2).json();
            expect_head(&json, "cat", 12);
            assert_eq!(json["reason"].text(), reason, "in {json:?}");
        }
        let names = files.iter().map(|file| &file.put);
        let listed = names.map(|put| Expected::new(&put.name, put.size, 12, &reason));
        expect_listing(&path, listed.collect(), &[]);
        run(&[&"info", &path]).expect(0);
    }
}

/// What a compare says if the root directory has another level on the new card.
fn expect_compared(levels: [u8; 2], name: &[u8], card: &Card) -> (i32, Ran) {
    let disks = levels.map(|level| {
        let mut image = card.image.clone();
        image.set(card.inode_block(ROOT), I_DIR_LEVEL, u64::from(level));
        OnDisk::new(image)
    });
    let images = [&disks[0].image, &disks[1].image];
    let expected = compares::Expected::of(images, name, None);
    let words: Words = &[&"compare", &disks[0].path(), &disks[1].path(), &name];
    let ran = run(words).expect(expected.status);
    expected.expect_words(ran.words(), true);
    let json = run(&[words, &[&"--json"]].concat()).expect(expected.status);
    expect_head(&json.json(), "compare", expected.answer);
    expected.expect_json(&json.json());
    (expected.status, ran)
}

/// A level that differs is named with what it was and is, and what became of the file is told.
#[test]
fn compares_of_levels() {
    let LeveledCard { card, files, .. } = LeveledCard::new(&mut Random::new(94), 4, 0, &[0, 3, 9]);
    let block = card.inode_block(ROOT);
    for file in &files {
        let name = &file.put.name;
        assert_eq!(expect_compared([4, 4], name, &card).0, 0);
        assert_eq!(expect_compared([31, 31], name, &card).0, 2);
        for ([kept, new], became) in [
            ([4, 7], "gone"),
            ([7, 4], "new"),
            ([4, 31], "no longer readable"),
            ([255, 4], "readable now"),
        ] {
            let (status, ran) = expect_compared([kept, new], name, &card);
            assert_eq!(status, 1);
            let told = format!(
                "directory level ({kept} before, {new} now) changed in the root directory's inode (node 3, the card's block {block})"
            );
            assert!(ran.words().contains(&told), "no '{told}' in {ran:?}");
            assert!(ran.words().contains(became), "no '{became}' in {ran:?}");
            let over = [kept, new].into_iter().find(|&level| level > MOST_LEVEL);
            let reason = over.map(not_read).unwrap_or_default();
            assert!(ran.words().contains(&reason), "no '{reason}' in {ran:?}");
        }
    }
}

/// A card in a file, of which damage is written and taken back.
struct Stage {
    card: LeveledCard,
    path: PathBuf,
    _scratch: Scratch,
}

impl Stage {
    fn new(card: LeveledCard) -> Stage {
        let scratch = Scratch::new();
        let path = scratch.path("card.img");
        card.card.image.save(&path);
        Stage {
            card,
            path,
            _scratch: scratch,
        }
    }

    /// Changes the card for the length of a test.
    fn with(&mut self, change: impl FnOnce(&mut Card), test: impl FnOnce(&Stage)) {
        change(&mut self.card.card);
        let written = self.card.card.image.written();
        let places: Vec<(usize, usize)> = written.map(|(at, bytes)| (at, bytes.len())).collect();
        write_places(&self.path, &self.card.card, &places);
        test(self);
        self.card.card.image.undo(0);
        write_places(&self.path, &self.card.card, &places);
    }

    /// With a change, a pull of the name has this answer and this reason, in words and as JSON.
    fn expect(&mut self, name: &[u8], answer: u32, reason: &str, change: impl FnOnce(&mut Card)) {
        self.with(change, |stage| {
            let by_reference = expect_reason(&stage.card.card, &stage.path, (name, 0), run);
            assert_eq!(by_reference, answer, "of '{reason}'");
            let json = run(&[&"pull", &"--json", &stage.path, &name, &0]).expect(2);
            assert_eq!(json.json()["reason"].text(), reason);
            let ran = run(&[&"pull", &stage.path, &name, &0]).expect(2);
            let said = format!(" (answer {answer}): {reason}\n");
            assert!(ran.words().contains(&said), "no '{said}' in {ran:?}");
        });
    }

    /// Of a file whose entry is found, in its hash level: 14 and 13.
    fn expect_at_block(&mut self, file: &Placed) {
        let areas = self.card.card.image.areas;
        let (index, end) = (file.index, areas.main_end);
        let (block, slot) = (file.linked.block, file.linked.slot);
        let whose = format!("(block {index} of the root directory)");
        let malformed =
            format!("slot {slot} of the card's block {block} {whose} has a name of 0 bytes");
        self.expect(&file.put.name, 14, &malformed, |card| {
            card.image.set(block, in_slot(NAME_LEN, slot), 0)
        });
        let main_area = format!("the main area is blocks {} to {}", areas.main, end - 1);
        let outside = format!("block {index} of the root directory has address {end}; {main_area}");
        self.expect(&file.put.name, 13, &outside, |card| {
            card.set_address(ROOT, index, end)
        });
        for passage in &self.card.way(file)[1..] {
            let Node { nid, block } = passage.node;
            let node = format!("node {nid} (place {} of the root directory)", passage.place);
            let name = &file.put.name;
            self.expect(name, 9, &format!("{node} isn't in use"), |card| {
                card.set_entry(nid, ROOT, 0)
            });
            let outside = format!("{node} has address {end}; {main_area}");
            self.expect(name, 10, &outside, |card| card.set_entry(nid, ROOT, end));
            let foreign = format!("the block's number is 2, not {nid}");
            let foreign = format!("{node} should be in block {block}, but {foreign}");
            self.expect(name, 11, &foreign, |card| {
                card.image.set(block, footer::NID, 2)
            });
        }
    }
}

/// 9 to 11, 13 and 14 on the way to each hash level, behind nodes of every kind.
#[test]
fn stops() {
    let mut steps = Vec::new();
    each_card(95, |card| {
        let mut stage = Stage::new(card);
        for file in stage.card.files.clone() {
            steps.push((stage.card.level, stage.card.way(&file).len()));
            stage.expect_at_block(&file);
        }
    });
    for level in LEVELS {
        let longest = steps.iter().filter(|of| of.0 == level).max();
        assert_eq!(longest, Some(&(level, 4)));
    }
    assert!((1..=4).all(|len| steps.contains(&(1, len))), "{steps:?}");
}

/// The same in the block at the last index, which the program's walk has to read too. It is the first of its bucket, and
/// the second isn't there any more.
#[test]
fn stops_at_the_last_index() {
    let mut random = Random::new(96);
    for level in LEVELS {
        for inline in [0, INLINE_XATTR] {
            let card = LeveledCard::at_the_last_index(&mut random, level, inline);
            let file = card.files[0].clone();
            assert_eq!(file.index, last_index(addresses_by(inline)));
            Stage::new(card).expect_at_block(&file);
        }
    }
}

/// A file's own level isn't asked for: neither where a block is read, nor where a pull is refused.
#[test]
fn level_of_a_file() {
    for of_root in [0, 4, 22] {
        let mut card = ProgramCard::leveled(of_root);
        let files = [card.file(ROAD), card.file(LONG), &card.outside];
        let inodes = files.map(|file| card.card.inode_block(file.ino));
        for of_file in [0, 1, 30, 31, 255] {
            for inode in inodes {
                card.card.image.set(inode, I_DIR_LEVEL, of_file);
            }
            let disk = OnDisk::new(card.card.image.clone());
            cat::expect_built_file(&card, &disk.path(), ROAD);
            let calls = [(ROAD, 0, 0), (LONG, 923, 0), (ROAD, 6, 3), (OUTSIDE, 2, 13)];
            for (name, index, answer) in calls {
                assert_eq!(expect_json(&disk, &disk.image, name, index), answer);
                expect_reason(&card.card, &disk.path(), (name, index), run);
            }
        }
    }
}

/// Damages what a search comes by on leveled cards. Returns how often each answer came.
fn damage(seed: u64, cards: u32, damages: u32, run: impl Fn(Words) -> Ran) -> [u32; 15] {
    let mut random = Random::new(seed);
    let mut answers = [0; 15];
    for _ in 0..cards {
        let level = random.below(u64::from(MOST_LEVEL) + 1) as u8;
        let inline = pick(&mut random, &[0, INLINE_XATTR]);
        let card = LeveledCard::new(&mut random, level, inline, &some_hash_levels(level));
        let mut stage = Stage::new(card);
        for _ in 0..damages {
            let files = &stage.card.files;
            let file = files[random.below(files.len() as u64) as usize].clone();
            let way = stage.card.way(&file);
            let inodes = [ROOT, file.put.ino].map(|ino| stage.card.card.inode_block(ino));
            let nodes = way.iter().map(|passage| passage.node.block);
            let blocks: Vec<u32> = nodes.chain(inodes).chain([file.linked.block]).collect();
            let strikes = 1 + random.below(2);
            let index = pick(&mut random, &[0, 0, 0, 1, 2]);
            let strike = |card: &mut Card| {
                for _ in 0..strikes {
                    let block = pick(&mut random, &blocks);
                    strike_block(&mut card.image, block, &mut random);
                }
            };
            stage.with(strike, |stage| {
                let call = (file.put.name.as_slice(), index);
                let answer = expect_reason(&stage.card.card, &stage.path, call, &run);
                answers[answer as usize] += 1;
            });
        }
    }
    answers
}

#[test]
fn damaged() {
    expect_answers(&damage(97, 40, 40, run), [0, 2, 3, 9, 11, 12, 13, 14]);
}

/// No sum or shift leaves its type, and no byte outside the image is read.
#[test]
fn damaged_under_sanitizers() {
    let build = SpecialBuild::sanitized();
    expect_stops(&damage(98, 10, 12, |words| build.run(words)));
}

/// At each level, a stop in the last hash level in reach.
#[test]
fn every_level_under_sanitizers() {
    let build = SpecialBuild::sanitized();
    let mut random = Random::new(99);
    for level in 0..=MOST_LEVEL {
        let last = DirLevel(level.into()).in_reach() - 1;
        let mut stage = Stage::new(LeveledCard::new(&mut random, level, 0, &[last]));
        let file = stage.card.files[0].clone();
        let outside =
            |card: &mut Card| card.set_address(ROOT, file.index, card.image.areas.main_end);
        stage.with(outside, |stage| {
            let call = (file.put.name.as_slice(), 0);
            let run = |words: Words| build.run(words);
            let answer = expect_reason(&stage.card.card, &stage.path, call, run);
            assert_eq!(answer, 13, "of level {level}");
        });
    }
}

/// A card of the published tools that was filled while its root directory had this level; fsck.f2fs finds nothing wrong.
fn published_card(level: u8, files: &[File]) -> OnDisk {
    let image = filled_with_level(200, level.into(), files);
    assert_eq!(image.get(root_block(&image), I_DIR_LEVEL), level.into());
    assert!(fsck(&image).sound, "{image:?}");
    OnDisk::new(image)
}

/// So many names that the directory has several hash levels without a level.
#[test]
fn published_cards() {
    let mut random = Random::new(100);
    let files: Vec<File> = (0..700)
        .map(|number| {
            let name = format!("{}{number}", "surface of the road ".repeat(number % 12));
            (name.into_bytes(), contents(&mut random, 4000 + number))
        })
        .collect();
    for level in [1, 3, 12] {
        let disk = published_card(level, &files);
        let expected = files
            .iter()
            .map(|(name, bytes)| published_file(name, bytes.len()));
        expect_listing(&disk.path(), expected.collect(), &[]);
        for (name, bytes) in files.iter().step_by(29) {
            let cat = run(&[&"cat", &disk.path(), name]).expect(0);
            assert!(cat.out == *bytes, "bytes by {cat:?}");
            assert_eq!(expect_json(&disk, &disk.image, name, 0), 0);
        }
    }
}

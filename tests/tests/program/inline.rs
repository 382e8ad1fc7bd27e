//! Inline files, and an inline root directory: what each command says of them in words and as JSON, on both sides of each bound,
//! and that the program's walk stops where the library does.

use std::fs;
use std::path::PathBuf;

use harptimber_tests::cards::card::{inline_room_by, Card, ROOT};
use harptimber_tests::cards::directory::Dentry;
use harptimber_tests::cards::knobs::Knobs;
use harptimber_tests::cards::layout::dentry::{self, IN_INODE, NAME_LEN, SLOT_LEN};
use harptimber_tests::cards::layout::inode::*;
use harptimber_tests::cards::layout::{footer, Field, BLOCK_SIZE};
use harptimber_tests::cards::on_disk::OnDisk;
use harptimber_tests::cards::one_file::{small_knobs, NAME};
use harptimber_tests::cards::random::pick;
use harptimber_tests::program::card::{ProgramCard, Put};
use harptimber_tests::program::inline::{put_inline, slots_in};
use harptimber_tests::program::page::{counted, expect_head, meaning, with_commas};
use harptimber_tests::program::special_build::SpecialBuild;
use harptimber_tests::program::{run, Ran, Words};
use harptimber_tests::trial::Random;

use crate::compare::{self, Cards};
use crate::ls::{expect_listing, Expected, NOT_THERE};
use crate::pull::expect_json;
use crate::reasons::{expect_answers, expect_reason, expect_stops, write_places};
use crate::{cat, ls, pull, words};

/// All that the commands say of a card whose root directory is inline.
#[test]
fn files_in_an_inline_root() {
    for flags in [0, INLINE_XATTR] {
        let card = ProgramCard::in_inline_root(flags);
        pull::expect_answers(&card, (0..=3).chain(9..=13).collect());
        words::expect_pulls(&card);
        cat::expect_built_files(&card);
        ls::expect_names(&card, 0);
        run(&[&"info", &card.disk.path()]).expect(0);
    }
}

#[test]
fn compares_in_an_inline_root() {
    let card = || ProgramCard::in_inline_root(INLINE_XATTR);
    compare::expect_same(&Cards::of(card()));
    for expect in [
        compare::expect_data,
        compare::expect_inline_files,
        compare::expect_behind_a_node,
        compare::expect_table,
        compare::expect_refused_by_kept,
    ] {
        expect(&mut Cards::of(card()));
    }
}

/// A card with one inline file of 100 bytes, in a file. Its root directory is inline too, or has a block.
struct Stage {
    card: Card,
    file: Put,
    disk: OnDisk,
}

impl Stage {
    /// With these flags beside the ones that make an inode inline.
    fn new(seed: u64, of_root: Option<u64>, of_file: u64) -> Stage {
        let mut random = Random::new(seed);
        Stage::on(
            Card::new(small_knobs(&mut random), random),
            of_root,
            of_file,
        )
    }

    fn on(mut card: Card, of_root: Option<u64>, of_file: u64) -> Stage {
        card.add_root(of_root.map_or(0, |flags| INLINE_DENTRY | flags), 1);
        let file = put_inline(&mut card, NAME, of_file, 100);
        // What only words speak of is junk else.
        for ino in [ROOT, file.ino] {
            let inode = card.inode_block(ino);
            card.image.set_all(inode, &[(I_ADVISE, 0), (I_FLAGS, 0)]);
        }
        card.image.settle("an inline file");
        let disk = OnDisk::new(card.image.clone());
        Stage { card, file, disk }
    }

    fn root(&self) -> u32 {
        self.card.inode_block(ROOT)
    }

    fn inode(&self) -> u32 {
        self.file.inline.expect("an inline file")
    }

    fn path(&self) -> PathBuf {
        self.disk.path()
    }

    /// Changes the card for the length of a test.
    fn with(&mut self, change: impl FnOnce(&mut Card), test: impl FnOnce(&Stage)) {
        change(&mut self.card);
        let written = self.card.image.written();
        let places: Vec<(usize, usize)> = written.map(|(at, bytes)| (at, bytes.len())).collect();
        write_places(&self.path(), &self.card, &places);
        test(self);
        self.card.image.undo(0);
        write_places(&self.path(), &self.card, &places);
    }

    /// The same with fields of a block.
    fn with_fields(&mut self, block: u32, fields: &[(Field, u64)], test: impl FnOnce(&Stage)) {
        self.with(|card| card.image.set_all(block, fields), test);
    }

    /// Each command reads the file, which has so many bytes.
    fn expect_read(&self, size: usize) {
        let (path, image) = (self.path(), &self.card.image);
        let file = Put {
            size: size as u64,
            ..self.file.clone()
        };
        let bytes = file.bytes(image);
        assert_eq!(bytes.len(), size);
        assert_eq!(expect_json(&self.disk, image, NAME, 0), 0);
        let ran = run(&[&"pull", &path, &NAME, &"0"]).expect(0);
        let line = format!(
            "road.bin, block 0: data (answer 0), {}\n",
            counted(size, "byte")
        );
        assert!(ran.words().starts_with(&line), "no '{line}' in {ran:?}");
        let cat = run(&[&"cat", &path, &NAME]).expect(0);
        assert!(cat.out == bytes, "bytes by {cat:?}");
        expect_listing(&path, vec![Expected::new(NAME, size as u64, 0, "")], &[]);
        let end = format!(
            "it has {}, so that its last block is 0",
            counted(size, "byte")
        );
        for index in [1, u32::MAX] {
            self.expect_refused(index, 3, &end);
        }
    }

    /// A pull has this answer and this reason, in words and as JSON.
    fn expect_refused(&self, index: u32, answer: u32, reason: &str) {
        let path = self.path();
        assert_eq!(
            expect_reason(&self.card, &path, (NAME, index), run),
            answer,
            "of '{reason}'"
        );
        let ran = run(&[&"pull", &path, &NAME, &index]).expect(2);
        let said = format!("{} (answer {answer}): {reason}\n", meaning("pull", answer));
        let line = format!("road.bin, block {index}: {said}");
        assert!(ran.words().starts_with(&line), "no '{line}' in {ran:?}");
        let json = run(&[&"pull", &"--json", &path, &NAME, &index]).expect(2);
        assert_eq!(json.json()["reason"].text(), reason);
    }

    /// No command reads the file, and each says why.
    fn expect_unread(&self, size: u64, reason: &str) {
        let (path, output) = (self.path(), self.disk.scratch.path("output"));
        for index in [0, 1, u32::MAX] {
            self.expect_refused(index, 12, reason);
        }
        let said = format!("{} (answer 12): {reason}", meaning("cat", 12));
        run(&[&"cat", &path, &NAME]).expect_message(2, &[&said]);
        let words: Words = &[&"cat", &"--json", &"-o", &output, &path, &NAME];
        let json = run(words).expect(2).json();
        expect_head(&json, "cat", 12);
        assert_eq!(json["reason"].text(), reason, "in {json:?}");
        expect_listing(&path, vec![Expected::new(NAME, size, 12, reason)], &[]);
    }
}

/// Roots of every kind: with a block, and inline with both sizes of room for a file.
const ROOTS: [Option<u64>; 3] = [None, Some(0), Some(INLINE_XATTR)];

/// Why an inline inode isn't read that says it has so many bytes.
fn too_long(size: u64, room: usize) -> String {
    let size = counted(size as usize, "byte");
    let room = with_commas(room);
    format!("it is inline, but its size is {size}, over the {room} that its inode has room for")
}

/// Sizes of an inline file up to the room in its inode, and behind it.
#[test]
fn rooms_of_files() {
    for (number, of_root) in ROOTS.into_iter().enumerate() {
        for of_file in [0, INLINE_XATTR, 0x08, 0xD9] {
            let mut stage = Stage::new(110 + number as u64, of_root, of_file);
            let (inode, room) = (stage.inode(), inline_room_by(of_file));
            for size in [1, 2, 3343, 3344, 3345, room - 1, room] {
                let fields = [(I_SIZE, size as u64)];
                stage.with_fields(inode, &fields, |stage| stage.expect_read(size));
            }
            let over = room as u64 + 1;
            for size in [over, 4096, 4097, 8192, 1 << 32, (1 << 32) + 1, u64::MAX] {
                let reason = too_long(size, room);
                let fields = [(I_SIZE, size)];
                stage.with_fields(inode, &fields, |stage| stage.expect_unread(size, &reason));
            }
        }
    }
}

/// An empty one is empty like any file.
#[test]
fn empty_files() {
    for of_file in [0, INLINE_XATTR, 0x08] {
        let mut stage = Stage::new(113, Some(0), of_file);
        let inode = stage.inode();
        stage.with_fields(inode, &[(I_SIZE, 0)], |stage| {
            let path = stage.path();
            for index in [0, 1] {
                stage.expect_refused(index, 3, "it is empty");
            }
            assert_eq!(run(&[&"cat", &path, &NAME]).expect(0).out, b"");
            let output = stage.disk.scratch.path("output");
            fs::write(&output, "before").unwrap();
            run(&[&"cat", &"-o", &output, &path, &NAME]).expect(0);
            assert_eq!(fs::read(&output).unwrap(), b"");
            expect_listing(&path, vec![Expected::new(NAME, 0, 3, "it is empty")], &[]);
        });
    }
}

fn root_not_read(why: &str) -> String {
    format!("the root directory isn't read: {why}")
}

/// An inline root's depth or level, up to its bound and over it.
fn expect_bound(stage: &mut Stage, field: Field, what: &str, read: [u64; 4], over: [u64; 2]) {
    let root = stage.root();
    for value in read {
        let fields = [(field, value)];
        stage.with_fields(root, &fields, |stage| stage.expect_read(100));
        let empty = [(field, value), (I_SIZE, 0)];
        stage.with_fields(root, &empty, |stage| {
            assert_eq!(expect_json(&stage.disk, &stage.card.image, NAME, 0), 2);
            let listed = vec![Expected::new(NAME, 100, 2, NOT_THERE)];
            expect_listing(&stage.path(), listed, &[]);
        });
    }
    // A size of 0 comes behind them.
    for (value, size) in over
        .iter()
        .flat_map(|&value| [0, 1].map(|size| (value, size)))
    {
        let reason = root_not_read(&format!("its {what} is {value}, over {}", read[3]));
        let fields = [(field, value), (I_SIZE, size)];
        stage.with_fields(root, &fields, |stage| stage.expect_unread(100, &reason));
    }
}

/// An inline root's size, depth and level, on both sides of each bound. It can be listed all the same, whatever they are.
#[test]
fn rooms_of_roots() {
    for flags in [0, INLINE_XATTR] {
        let mut stage = Stage::new(114, Some(flags), 0);
        let root = stage.root();
        for size in [1, 100, 3487, 3488] {
            let fields = [(I_SIZE, size)];
            stage.with_fields(root, &fields, |stage| stage.expect_read(100));
        }
        for size in [3489, 3688, 4096, (1 << 32) + 1, u64::MAX] {
            let reason = root_not_read(&too_long(size, INLINE_ROOM_WITH_XATTR));
            for (depth, level) in [(1, 0), (64, 0), (1, 31)] {
                let others = [(I_CURRENT_DEPTH, depth), (I_DIR_LEVEL, level)];
                let fields = [&others[..], &[(I_SIZE, size)]].concat();
                stage.with_fields(root, &fields, |stage| stage.expect_unread(100, &reason));
            }
        }
        for (field, what, read, over) in [
            (I_CURRENT_DEPTH, "depth", [0, 1, 2, 63], [64, 255]),
            (I_DIR_LEVEL, "directory level", [0, 1, 29, 30], [31, 255]),
        ] {
            expect_bound(&mut stage, field, what, read, over);
        }
    }
}

/// Roots with a mark that isn't theirs can't be listed either; what a file is marked with changes nothing in a listing.
#[test]
fn marks() {
    let file = "it is marked as an inline file (inline data)";
    let directory = "it is marked as an inline directory (inline dentry)";
    let both =
        "it is marked as an inline file (inline data) and as an inline directory (inline dentry)";
    let extra = "its inode has extra attributes";
    let mut stage = Stage::new(115, Some(0), 0);
    let (root, inode) = (stage.root(), stage.inode());
    for (flags, why) in [
        (INLINE_DATA, file.to_string()),
        (INLINE_DATA | INLINE_XATTR, file.to_string()),
        (INLINE_DATA | INLINE_DENTRY, both.to_string()),
        (EXTRA_ATTR | INLINE_DENTRY, extra.to_string()),
        (EXTRA_ATTR | INLINE_DATA, format!("{file}; {extra}")),
    ] {
        let reason = root_not_read(&why);
        stage.with_fields(root, &[(I_INLINE, flags)], |stage| {
            stage.expect_refused(0, 12, &reason);
            expect_listing(&stage.path(), vec![], &[reason.clone()]);
        });
    }
    for (flags, why) in [
        (INLINE_DENTRY, directory.to_string()),
        (INLINE_DENTRY | INLINE_XATTR, directory.to_string()),
        (INLINE_DATA | INLINE_DENTRY, both.to_string()),
        (EXTRA_ATTR | INLINE_DATA, extra.to_string()),
        (EXTRA_ATTR | INLINE_DENTRY, format!("{directory}; {extra}")),
    ] {
        stage.with_fields(inode, &[(I_INLINE, flags)], |stage| {
            stage.expect_unread(100, &why)
        });
    }
}

/// Every byte of inline flags at either inode: the reason, if there is one, is found by the same walk as the answer.
#[test]
fn every_flag() {
    for of_root in [None, Some(0)] {
        let mut stage = Stage::new(116, of_root, 0);
        let inodes = [stage.root(), stage.inode()];
        let mut answers = [0; 15];
        for (block, flags) in inodes
            .iter()
            .flat_map(|&block| (0..=255).map(move |f| (block, f)))
        {
            stage.with_fields(block, &[(I_INLINE, flags)], |stage| {
                let answer = expect_reason(&stage.card, &stage.path(), (NAME, 0), run);
                answers[answer as usize] += 1;
            });
        }
        assert!(answers[0] > 0 && answers[12] > 0, "{answers:?}");
    }
}

/// What is read of them: the two inodes and nothing else, whatever addresses and node numbers seem to stand there.
#[test]
fn lists() {
    for flags in [0, INLINE_XATTR] {
        let stage = Stage::new(117, Some(flags), flags);
        let nodes = format!("nodes: {ROOT} {}\n", stage.file.ino);
        let mut blocks = [stage.root(), stage.inode()];
        blocks.sort();
        let blocks = format!("blocks: {} {}\n", blocks[0], blocks[1]);
        for (index, status) in [(0, 0), (1, 2)] {
            let ran = run(&[&"pull", &"--lists", &stage.path(), &NAME, &index]).expect(status);
            let lists = format!("\nrests on 2 nodes and 2 blocks\n{nodes}{blocks}");
            assert!(ran.words().ends_with(&lists), "no '{lists}' in {ran:?}");
        }
        let ran = run(&[&"pull", &"--lists", &stage.path(), &"missing", &"0"]).expect(2);
        let lists = format!(
            "\nrests on 1 node and 1 block\nnodes: 3\nblocks: {}\n",
            stage.root()
        );
        assert!(ran.words().ends_with(&lists), "no '{lists}' in {ran:?}");
    }
}

/// Names that end with the last inline slot, and that would end one behind it.
#[test]
fn last_slots() {
    let mut stage = Stage::new(118, Some(0), 0);
    let (root, ino) = (stage.root(), stage.file.ino);
    for len in [1, 8, 9, 16, 17, 255] {
        let name = vec![b'n'; len];
        let first = IN_INODE.slots - len.div_ceil(SLOT_LEN);
        for slot in (first..IN_INODE.slots).take(2) {
            let put = |card: &mut Card| {
                card.image.clear_slots(slots_in(root));
                card.image
                    .put_dentry(slots_in(root), slot, &Dentry::new(&name, ino));
            };
            let whose = format!(
                "inline slot {slot} of the card's block {root} (the root directory's inode)"
            );
            let reason = format!("{whose} has a name of {}", counted(len, "byte"));
            let (answer, listed, problems) = match slot == first {
                true => (0, vec![Expected::new(&name, 100, 0, "")], vec![]),
                false => (14, vec![], vec![reason]),
            };
            stage.with(put, |stage| {
                let call = (name.as_slice(), 0);
                let found = expect_reason(&stage.card, &stage.path(), call, run);
                assert_eq!(found, answer, "{len} bytes in slot {slot}");
                expect_listing(&stage.path(), listed, &problems);
            });
        }
    }
}

/// A malformed entry hides those behind it, and is told by its slot in the inode.
#[test]
fn malformed() {
    let mut stage = Stage::new(119, Some(INLINE_XATTR), 0);
    let (root, ino) = (stage.root(), stage.file.ino);
    for (slot, len) in [
        (50, 0),
        (50, 256),
        (50, 65535),
        (181, 9),
        (150, 0),
        (151, 255),
    ] {
        let put = |card: &mut Card| {
            let image = &mut card.image;
            image.put_dentry(slots_in(root), slot, &Dentry::new(b"m", ino));
            image.set(root, IN_INODE.in_slot(NAME_LEN, slot), len);
            image.set_slot_bits(slots_in(root), 0, 1, false);
            image.put_dentry(slots_in(root), 40, &Dentry::new(b"before", ino));
            image.set_slot_bits(slots_in(root), slot + 1, IN_INODE.slots, false);
        };
        let place = format!("inline slot {slot} of the card's block {root}");
        let bytes = counted(len as usize, "byte");
        let reason = format!("{place} (the root directory's inode) has a name of {bytes}");
        stage.with(put, |stage| {
            stage.expect_refused(0, 14, &reason);
            let image = &stage.card.image;
            assert_eq!(expect_json(&stage.disk, image, b"before", 0), 0);
            let listed = vec![Expected::new(b"before", 100, 0, "")];
            expect_listing(&stage.path(), listed, std::slice::from_ref(&reason));
        });
    }
}

/// Bits of the map that belong to no slot are no entries, and neither are names in slots that are free.
#[test]
fn free_slots() {
    let mut stage = Stage::new(120, Some(0), 0);
    let root = stage.root();
    let free = |card: &mut Card| card.image.clear_slots(slots_in(root));
    stage.with(free, |stage| {
        assert_eq!(expect_json(&stage.disk, &stage.card.image, NAME, 0), 2);
        expect_listing(&stage.path(), vec![], &[]);
    });
}

/// The entries for the root directory itself aren't files; a name that no pull finds is listed.
#[test]
fn listed_entries() {
    let mut stage = Stage::new(121, Some(INLINE_XATTR), 0);
    let (root, ino) = (stage.root(), stage.file.ino);
    let put = |card: &mut Card| {
        let hidden = Dentry::new(b"hidden", ino).under_hash_of(b"other");
        for (slot, dentry) in [
            (10, Dentry::new(b".", ROOT)),
            (11, Dentry::new(b"..", ROOT)),
            (12, Dentry::new(b"a longer name than that", ino)),
            (20, hidden),
            (181, Dentry::new(b"last one", ino)),
        ] {
            card.image.put_dentry(slots_in(root), slot, &dentry);
        }
    };
    stage.with(put, |stage| {
        let read = |name: &[u8]| Expected::new(name, 100, 0, "");
        let listed = vec![
            read(NAME),
            read(b"a longer name than that"),
            read(b"last one"),
            Expected::new(b"hidden", 100, 2, "the root directory has no hidden"),
        ];
        expect_listing(&stage.path(), listed, &[]);
    });
}

/// A number of an inode that decides, or of an inline entry in it.
fn any_field(random: &mut Random) -> (Field, Vec<u64>) {
    let slot = pick(random, &[0, 0, 0, 1, 2, 181]);
    match random.below(6) {
        0 => (pick(random, footer::ALL), vec![0, 3, 8]),
        1 => (
            I_INLINE,
            (0..8).map(|bit| 1 << bit).chain([3, 5, 6, 7]).collect(),
        ),
        2 => (
            I_SIZE,
            vec![0, 1, 99, 3487, 3488, 3489, 3687, 3688, 3689, 4096, u64::MAX],
        ),
        3 => (
            pick(random, &[I_CURRENT_DEPTH, I_DIR_LEVEL]),
            vec![0, 30, 31, 63, 64, 255],
        ),
        4 => (IN_INODE.map_byte(slot), vec![0, 1, 3, 7, 255]),
        _ => (
            IN_INODE.in_slot(pick(random, dentry::ALL), slot),
            vec![0, 1, 7, 8, 9, 255, 256, 3],
        ),
    }
}

/// Damages inline inodes. Returns how often each answer came.
fn damage(seed: u64, cards: u64, damages: u32, run: impl Fn(Words) -> Ran) -> [u32; 15] {
    let mut random = Random::new(seed);
    let mut answers = [0; 15];
    for card in 0..cards {
        let flags = [0; 2].map(|_| pick(&mut random, &[0, INLINE_XATTR]));
        let of_root = pick(&mut random, &[None, Some(flags[0]), Some(flags[0])]);
        let mut stage = Stage::new(seed + card, of_root, flags[1]);
        let inodes = [stage.root(), stage.inode()];
        for _ in 0..damages {
            let strikes = 1 + random.below(3);
            let index = pick(&mut random, &[0, 0, 0, 1]);
            let strike = |card: &mut Card| {
                for _ in 0..strikes {
                    let (field, likely) = any_field(&mut random);
                    let any = random.number();
                    let value = pick(&mut random, &[&likely[..], &[any]].concat());
                    let inode = pick(&mut random, &inodes);
                    card.image.set(inode, field, value & field.greatest());
                }
            };
            stage.with(strike, |stage| {
                let answer = expect_reason(&stage.card, &stage.path(), (NAME, index), &run);
                answers[answer as usize] += 1;
                run(&[&"ls", &stage.path()]);
            });
        }
    }
    answers
}

#[test]
fn damaged() {
    expect_answers(&damage(122, 20, 40, run), [0, 2, 3, 9, 11, 12, 13, 14]);
}

/// It keeps to the image's bytes.
#[test]
fn damaged_under_sanitizers() {
    let build = SpecialBuild::sanitized();
    expect_stops(&damage(123, 8, 12, |words| build.run(words)));
}

/// An inode at the very end of an image, whose contents and slots reach as far as they can.
#[test]
fn at_the_end_under_sanitizers() {
    let build = SpecialBuild::sanitized();
    for (root_is_last, flags) in [(false, 0), (false, INLINE_XATTR), (true, 0)] {
        let card = Card::new(Knobs::sound(), Random::new(124));
        let Stage { mut card, file, .. } = Stage::on(card, Some(flags), flags);
        let [root, inode] = [ROOT, file.ino].map(|ino| card.inode_block(ino));
        let size = inline_room_by(flags);
        card.image.set(inode, I_SIZE, size as u64);
        let longest = [b'n'; 255];
        card.image
            .put_dentry(slots_in(root), 150, &Dentry::new(&longest, file.ino));
        let (nid, from) = if root_is_last {
            (ROOT, root)
        } else {
            (file.ino, inode)
        };
        let (bytes, last) = (
            card.image.block(from).to_vec(),
            card.image.areas.main_end - 1,
        );
        card.image.put("moved", last, 0, &bytes);
        card.set_entry(nid, nid, last);
        assert_eq!(card.image.bytes().len(), (last as usize + 1) * BLOCK_SIZE);
        let disk = OnDisk::new(card.image);
        let contents = &disk.image.block(inode)[INLINE_AT..][..size];
        for name in [NAME, &longest] {
            let cat = build.run(&[&"cat", &disk.path(), &name]).expect(0);
            assert!(cat.out == contents, "bytes by {cat:?}");
        }
        build.run(&[&"ls", &disk.path()]).expect(0);
        build
            .run(&[&"pull", &disk.path(), &"missing", &"0"])
            .expect(2);
    }
}

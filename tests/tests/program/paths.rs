//! Paths: what a pull of a file in folders gives, and what is said of each thing that can be wrong on the way, in words and as
//! JSON.

use std::fs;

use reference::hash::raw_hash;

use harptimber_tests::cards::card::{addresses_by, Node, Passage};
use harptimber_tests::cards::directory::Linked;
use harptimber_tests::cards::folders::{Folders, Shape};
use harptimber_tests::cards::image::Image;
use harptimber_tests::cards::layout::dentry::NAME_LEN;
use harptimber_tests::cards::layout::inode::*;
use harptimber_tests::cards::layout::nat::BLOCK_ADDR;
use harptimber_tests::cards::layout::{footer, Field};
use harptimber_tests::cards::on_disk::OnDisk;
use harptimber_tests::cards::random_trees::random_trees;
use harptimber_tests::cards::tree::last_index;
use harptimber_tests::program::page::{expect_head, expect_name, in_words, meaning};
use harptimber_tests::program::special_build::SpecialBuild;
use harptimber_tests::program::{run, Words};
use harptimber_tests::sizes::NAMES_MOST;
use harptimber_tests::trial::Random;

use crate::reasons::{damage_cards, expect_answers, expect_stops};

pub(crate) const EIGHT: usize = NAMES_MOST as usize;

/// A name that such a folder can have, and people can read.
pub(crate) fn name_in(shape: Shape, n: usize) -> Vec<u8> {
    let last = u64::from(last_index(addresses_by(shape.inline)));
    let fits = |name: &String| shape.dir_level.index(0, raw_hash(name.as_bytes()), 1) <= last;
    let names = (0..).map(|i| format!("name {n}.{i}"));
    names.into_iter().find(fits).unwrap().into_bytes()
}

/// Names in folders of every kind. Blocks of some folders are behind nodes.
fn named(names: usize) -> Vec<(Shape, Vec<u8>)> {
    let named = Shape::in_turn(names)
        .into_iter()
        .enumerate()
        .map(|(n, shape)| (shape, name_in(shape, n)));
    named.collect()
}

/// A file of one block at the end of some names.
pub(crate) struct Stage {
    pub folders: Folders,
    pub disk: OnDisk,
}

impl Stage {
    pub fn new(names: usize) -> Stage {
        Stage::with(&named(names))
    }

    pub fn with(named: &[(Shape, Vec<u8>)]) -> Stage {
        let mut folders = Folders::with(&mut Random::new(71), named, 0);
        let inodes = (0..named.len()).map(|nth| folders.inode_block(nth));
        let inodes = inodes.chain([folders.card.inode_block(folders.ino)]);
        for block in inodes.collect::<Vec<_>>() {
            // What only words speak of is junk else.
            let image = &mut folders.card.image;
            image.set_all(block, &[(I_ADVISE, 0), (I_FLAGS, 0)]);
        }
        folders.card.image.settle("folders");
        let disk = OnDisk::new(folders.card.image.clone());
        Stage { folders, disk }
    }

    pub fn path(&self) -> Vec<u8> {
        self.folders.path()
    }

    /// A directory on the path in words.
    pub fn directory(&self, nth: usize) -> String {
        match nth {
            0 => "the root directory".to_string(),
            _ => format!("the directory {}", in_words(&self.folders.path_of(nth))),
        }
    }

    /// The inode that so many names lead to, in words. What it is isn't said.
    pub fn inode(&self, nth: usize) -> String {
        match nth {
            0 => "the root directory's inode".to_string(),
            _ => format!("the inode of {}", in_words(&self.folders.path_of(nth))),
        }
    }

    /// Where the nth directory has the name that leads on, and the nodes on the way there.
    pub fn way(&self, nth: usize) -> (Linked, &[Passage]) {
        let folder = &self.folders.folders[nth];
        (folder.linked, &folder.way)
    }

    pub fn is_inline(&self, nth: usize) -> bool {
        self.folders.folders[nth].linked.block == self.folders.inode_block(nth)
    }

    /// A card with this changed.
    pub fn changed(&self, change: impl FnOnce(&mut Image)) -> OnDisk {
        let mut image = self.disk.image.clone();
        change(&mut image);
        OnDisk::new(image)
    }

    pub fn with_number(&self, block: u32, field: Field, number: u64) -> OnDisk {
        self.changed(|image| image.set(block, field, number))
    }
}

/// An answer in words with its reason; of all that can be out of shape, only what is.
fn said(answer: u32, reason: &str) -> String {
    let meaning = meaning("pull", answer);
    let meaning = match answer {
        4 => meaning.split(':').next().unwrap(),
        _ => &meaning,
    };
    format!("{meaning} (answer {answer}): {reason}")
}

/// A path at the start of a line.
fn subject(path: &[u8]) -> String {
    match path {
        b"" => "''".to_string(),
        _ => in_words(path),
    }
}

/// What a pull answers, in words and as JSON. Returns the reason.
fn pull_refused(disk: &OnDisk, path: &[u8], answer: u32) -> String {
    let card = disk.path();
    let json = run(&[&"pull", &"--json", &card, &path, &"0"]).expect(2);
    let json = json.json();
    expect_head(&json, "pull", answer);
    expect_name(&json, path);
    let reason = json["reason"].text().to_string();
    let ran = run(&[&"pull", &card, &path, &"0"]).expect(2);
    let line = format!("{}, block 0: {}\n", subject(path), said(answer, &reason));
    assert!(ran.words().starts_with(&line), "no '{line}' in {ran:?}");
    reason
}

fn expect_refused(disk: &OnDisk, path: &[u8], answer: u32, reason: &str) {
    assert_eq!(pull_refused(disk, path, answer), reason);
    let ran = run(&[&"cat", &disk.path(), &path]).expect(2);
    let said = said(answer, reason);
    assert!(ran.err.contains(&said), "no '{said}' in {ran:?}");
}

/// What ls says of a path that leads nowhere.
pub(crate) fn expect_unlisted(disk: &OnDisk, path: &[u8], answer: u32, reason: &str) {
    let ran = run(&[&"ls", &disk.path(), &path]).expect(2);
    let line = format!("{}: {}\n", subject(path), said(answer, reason));
    assert_eq!(ran.words(), line);
    let ran = run(&[&"ls", &"--json", &disk.path(), &path]).expect(2);
    let json = ran.json();
    expect_head(&json, "ls", answer);
    expect_name(&json, path);
    assert_eq!(json["reason"].text(), reason, "in {json:?}");
}

/// One name to eight, in folders of every kind: the bytes, and what they rest on.
#[test]
fn pulls() {
    for names in 1..=EIGHT {
        let mut stage = Stage::new(names);
        let (path, card) = (stage.path(), stage.disk.path());
        let (nodes, blocks) = stage.folders.whole_lists();
        let bytes = stage.disk.image.block(stage.folders.data);
        let json = run(&[&"pull", &"--json", &card, &path, &"0"]).expect(0);
        let json = json.json();
        expect_head(&json, "pull", 0);
        expect_name(&json, &path);
        for (key, mut numbers) in [("nodes", nodes), ("blocks", blocks)] {
            numbers.sort();
            numbers.dedup(); // an inline directory's block is its inode's
            let listed = json[key].list().iter().map(|number| number.number() as u32);
            assert_eq!(listed.collect::<Vec<_>>(), numbers, "{key} of {names}");
        }
        let output = stage.disk.scratch.path("output");
        run(&[&"pull", &"-o", &output, &card, &path, &"0"]).expect(0);
        assert_eq!(fs::read(&output).unwrap(), bytes);
        let ran = run(&[&"cat", &card, &path]).expect(0);
        assert_eq!(ran.out, bytes);
    }
}

/// What is no path, with what is said of it.
fn bad_paths() -> Vec<(Vec<u8>, String)> {
    let long = |nth: usize| {
        let names = (0..3).map(|n| vec![b'x'; 255 + usize::from(n == nth)]);
        let path = names.collect::<Vec<_>>().join(&b'/');
        let why = "of the path has 256 bytes; at most 255 are possible";
        (path, format!("name {} {why}", nth + 1))
    };
    let start = "the path starts with a slash; a path is taken from the root directory on";
    let end = "the path ends with a slash";
    let twice = "the path has two slashes side by side";
    let bad = [
        ("", "the path is empty"),
        ("/", start),
        ("/roads", start),
        ("//", start),
        ("roads/", end),
        ("roads//", end),
        ("roads//wet", twice),
        ("a/b///c", twice),
        (
            "1/2/3/4/5/6/7/8/9",
            "the path has 9 names; at most 8 are possible",
        ),
    ];
    let bad = bad.map(|(path, why)| (path.as_bytes().to_vec(), why.to_string()));
    bad.into_iter().chain([0, 1, 2].map(long)).collect()
}

#[test]
fn out_of_shape() {
    let disk = Stage::new(2).disk;
    let other = OnDisk::new(disk.image.clone());
    for (path, why) in bad_paths() {
        expect_refused(&disk, &path, 4, &why);
        expect_unlisted(&disk, &path, 4, &why);
        let ran = run(&[&"compare", &disk.path(), &other.path(), &path]).expect(2);
        let line = format!("{}: {}\n", subject(&path), said(4, &why));
        assert_eq!(ran.words(), line);
    }
}

/// As long as a path can be.
#[test]
fn longest() {
    let named = (0..EIGHT as u8).map(|n| (Shape::PLAIN, vec![b'a' + n; 255]));
    let stage = Stage::with(&named.collect::<Vec<_>>());
    let path = stage.path();
    assert_eq!(path.len(), 2047);
    let ran = run(&[&"cat", &stage.disk.path(), &path]).expect(0);
    assert_eq!(ran.out, stage.disk.image.block(stage.folders.data));
    let reason = format!("{} has no missing", stage.directory(EIGHT - 1));
    let missing = stage.folders.path_with(EIGHT - 1, b"missing");
    expect_refused(&stage.disk, &missing, 2, &reason);
}

/// Each name on the way is missing, or leads to what isn't read, or what leads there is damaged.
#[test]
fn on_the_way() {
    let stage = Stage::new(EIGHT);
    for nth in 0..EIGHT {
        let missing = stage.folders.path_with(nth, b"missing");
        let reason = format!("{} has no missing", stage.directory(nth));
        expect_refused(&stage.disk, &missing, 2, &reason);
        expect_unlisted(&stage.disk, &missing, 2, &reason);
        expect_unread(&stage, nth);
        expect_nodes(&stage, nth);
        expect_blocks(&stage, nth);
    }
}

/// Kinds of inodes that aren't read.
fn expect_unread(stage: &Stage, nth: usize) {
    let (path, inode) = (stage.path(), stage.folders.inode_block(nth));
    let not_read = format!("{} isn't read", stage.directory(nth));
    let kind = match nth {
        0 => not_read.clone(),
        _ => format!(
            "{} isn't a directory",
            in_words(&stage.folders.path_of(nth))
        ),
    };
    for (field, number, reason) in [
        (I_MODE, S_IFREG, format!("{kind}: it is a regular file")),
        (I_MODE, 0xA000, format!("{kind}: it is a symbolic link")),
        (
            I_INLINE,
            EXTRA_ATTR,
            format!("{not_read}: its inode has extra attributes"),
        ),
        (
            I_CURRENT_DEPTH,
            64,
            format!("{not_read}: its depth is 64, over 63"),
        ),
        (
            I_DIR_LEVEL,
            31,
            format!("{not_read}: its directory level is 31, over 30"),
        ),
    ] {
        let disk = stage.with_number(inode, field, number);
        expect_refused(&disk, &path, 12, &reason);
        expect_unlisted(&disk, &path, 12, &reason);
    }
}

/// Nodes that aren't in use, lie outside, or are another's.
fn expect_nodes(stage: &Stage, nth: usize) {
    let path = stage.path();
    let end = stage.disk.image.areas.main_end;
    for passage in stage.way(nth).1 {
        let Node { nid, block } = passage.node;
        let whose = match passage.place {
            0 => stage.inode(nth),
            place => format!("place {place} of {}", stage.directory(nth)),
        };
        let node = format!("node {nid} ({whose})");
        let (table, at) = stage.folders.card.entry_place(nid);
        let address = BLOCK_ADDR.moved(at);
        let disk = stage.with_number(table, address, 0);
        expect_refused(&disk, &path, 9, &format!("{node} isn't in use"));
        let disk = stage.with_number(table, address, end.into());
        let start = format!("{node} has address {end}; ");
        assert!(pull_refused(&disk, &path, 10).starts_with(&start));
        let disk = stage.with_number(block, footer::NID, 0xABCDE);
        let foreign = format!(
            "{node} should be in block {block}, but the block's number is 703710, not {nid}"
        );
        expect_refused(&disk, &path, 11, &foreign);
    }
}

/// An address outside, and a malformed slot.
fn expect_blocks(stage: &Stage, nth: usize) {
    let (path, directory) = (stage.path(), stage.directory(nth));
    let end = stage.disk.image.areas.main_end;
    let (linked, way) = stage.way(nth);
    let (start, whose) = match stage.is_inline(nth) {
        true => ("inline slot", format!("({})", stage.inode(nth))),
        false => ("slot", format!(" of {directory})")),
    };
    let disk = stage.with_number(linked.block, linked.field(NAME_LEN), 256);
    let reason = pull_refused(&disk, &path, 14);
    let place = format!(
        "{start} {} of the card's block {} (",
        linked.slot, linked.block
    );
    let has = format!("{whose} has a name of 256 bytes");
    assert!(
        reason.starts_with(&place) && reason.ends_with(&has),
        "{reason}"
    );
    if stage.is_inline(nth) {
        return;
    }
    let last = &way[way.len() - 1];
    let disk = stage.with_number(last.node.block, last.slot, end.into());
    let reason = pull_refused(&disk, &path, 13);
    let outside = format!(" of {directory} has address {end}; ");
    assert!(
        reason.starts_with("block ") && reason.contains(&outside),
        "{reason}"
    );
}

/// Whatever the damage is, the program's walk stops where the library's does.
#[test]
fn damaged() {
    expect_answers(&damage_cards(72, 10, 100, random_trees, run), 0..15);
}

#[test]
fn damaged_under_sanitizers() {
    let build = SpecialBuild::sanitized();
    let run = |words: Words| build.run(words);
    expect_stops(&damage_cards(73, 3, 30, random_trees, run));
}

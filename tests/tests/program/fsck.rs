//! Whether fsck.f2fs makes a card readable again whose checkpoint pack in use isn't read: by running it, beside what the program
//! says and the man page.

use std::fs;
use std::path::PathBuf;
use std::process::Command;

use harptimber_tests::cards::image::Image;
use harptimber_tests::cards::layout::checkpoint::*;
use harptimber_tests::cards::layout::journal::JournalEntry;
use harptimber_tests::cards::layout::slots::I_ADDR;
use harptimber_tests::cards::on_disk::OnDisk;
use harptimber_tests::program::{run, Ran};
use harptimber_tests::tools::published::{self, contents, filled_with, formatted, Scratch};
use harptimber_tests::trial::Random;

use crate::unread::{causes, entry};

const NAME: &[u8] = b"road.bin";

/// With this flag fsck.f2fs compares what it has noted beside a pack, and mends that.
const NAT_BITS: u32 = 0x80;

/// A card of the published tools, with a file on it.
struct Published {
    image: Image,
    road: Vec<u8>,
    scratch: Scratch,
}

impl Published {
    fn new() -> Published {
        let road = contents(&mut Random::new(93), 40_000);
        let files = [(NAME.to_vec(), road.clone())];
        let image = filled_with(64, "", &files);
        Published {
            image,
            road,
            scratch: Scratch::new(),
        }
    }

    /// What fsck.f2fs notes beside a pack is gone, so that it doesn't write because that isn't right.
    fn without_nat_bits(mut self) -> Published {
        let which = self.image.pack_in_use();
        set_flags(&mut self.image, which, |flags| flags & !NAT_BITS);
        self
    }

    /// The number of the file's inode, and its entry, by the table.
    fn road_entry(&self) -> JournalEntry {
        let path = self.save();
        let json = run(&[&"ls", &"--json", &path]).expect(0).json();
        let names = json["names"].list().iter();
        let mut road = names.filter(|name| name["name"].text().as_bytes() == NAME);
        let nid = road.next().expect("the file")["inode"].number() as u32;
        let json = run(&[&"node", &"--json", &path, &nid]).expect(0).json();
        let number = |key: &str| json[key].number() as u32;
        entry(nid, 0, number("inode"), number("address"))
    }

    /// In the journal of the pack in use.
    fn put_journal(&mut self, entries: &[JournalEntry]) {
        let which = self.image.pack_in_use();
        self.image.set_journal(which, entries);
    }

    fn save(&self) -> PathBuf {
        let path = self.scratch.path("card.img");
        self.image.save(&path);
        path
    }

    /// Whether the file has its bytes.
    fn has_road(&self, path: &PathBuf) -> bool {
        let ran = run(&[&"cat", path, &NAME]);
        ran.status == 0 && ran.out == self.road
    }
}

/// In a pack's first and last block.
fn set_flags(image: &mut Image, which: usize, change: impl Fn(u32) -> u32) {
    let [first, last] = [image.first_block(which), image.last_block(which)];
    let flags = change(image.get(first, CKPT_FLAGS) as u32);
    for block in [first, last] {
        image.set_sealed(block, CKPT_FLAGS, u64::from(flags));
    }
}

/// As the program says it.
fn fsck(path: &PathBuf) -> Ran {
    published::ran(Command::new("fsck.f2fs").arg("-f").arg(path))
}

/// Whether the program advises it, in words and in JSON.
fn is_advised(path: &PathBuf) -> bool {
    let ran = run(&[&"info", path]).expect(2);
    let json = run(&[&"pull", &"--json", path, &NAME, &"0"])
        .expect(2)
        .json();
    let advised = ran.words().contains("; fsck.f2fs -f checks it");
    let reason = json["reason"].text();
    assert_eq!(reason.contains("; fsck.f2fs -f checks it"), advised);
    advised
}

/// Asked for a check, fsck.f2fs clears both flags: in either pack, with what it notes beside it and without.
#[test]
fn needs_check() {
    let with_bits = Published::new();
    let without = Published::new().without_nat_bits();
    for mut card in [with_bits, without] {
        for other in [false, true] {
            let mut which = card.image.pack_in_use();
            if other {
                let version = card.image.versions()[which].expect("a version");
                which = card.image.copy_pack(which);
                card.image.set_version(which, version + 1);
            }
            assert_eq!(card.image.pack_in_use(), which);
            let mark = card.image.mark();
            for bits in [CP_FSCK_FLAG, CP_FSCK_FLAG | CP_ERROR_FLAG] {
                set_flags(&mut card.image, which, |flags| flags | bits);
                let path = card.save();
                assert!(is_advised(&path), "no advice");
                fsck(&path).expect(0);
                run(&[&"info", &path]).expect(0);
                assert!(card.has_road(&path), "the file's bytes");
                card.image.undo(mark);
            }
        }
    }
}

/// The same of a card without files, whose pack is compact.
#[test]
fn needs_check_of_an_empty_card() {
    let mut image = formatted(64, "");
    let which = image.pack_in_use();
    let flags = image.pack(which).flags;
    assert!(flags & CP_COMPACT_SUM_FLAG != 0, "flags {flags:#x}");
    set_flags(&mut image, which, |flags| flags & !NAT_BITS | CP_FSCK_FLAG);
    let disk = OnDisk::new(image);
    assert!(is_advised(&disk.path()), "no advice");
    fsck(&disk.path()).expect(0);
    run(&[&"info", &disk.path()]).expect(0);
}

/// What it can't mend it removes, as the page warns: here the address of a file's block.
#[test]
fn needs_check_of_a_damaged_card() {
    let mut card = Published::new();
    let inode = card.road_entry().entry.block_addr;
    let which = card.image.pack_in_use();
    set_flags(&mut card.image, which, |flags| flags | CP_FSCK_FLAG);
    for (address, kept) in [(None, true), (Some(77), false)] {
        if let Some(address) = address {
            card.image.set(inode, I_ADDR, address);
        }
        let path = card.save();
        assert!(is_advised(&path), "no advice");
        fsck(&path);
        run(&[&"info", &path]).expect(0);
        assert_eq!(card.has_road(&path), kept, "with {address:?}");
    }
}

/// fsck.f2fs finds nothing wrong, and leaves the card as it is.
fn expect_left(card: &Published, expected: &[&str]) {
    let path = card.save();
    assert!(!is_advised(&path), "advice");
    let before = fs::read(&path).unwrap();
    fsck(&path).expect(0);
    assert!(fs::read(&path).unwrap() == before, "written to");
    let json = run(&[&"info", &"--json", &path]).expect(2).json();
    assert_eq!(causes(&json), expected, "in {json:?}");
}

/// Of an error flag alone fsck.f2fs takes no notice. If it has something else to mend, it clears that, too.
#[test]
fn error_alone() {
    let mark = |mut card: Published| {
        let which = card.image.pack_in_use();
        set_flags(&mut card.image, which, |flags| flags | CP_ERROR_FLAG);
        card
    };
    expect_left(&mark(Published::new().without_nat_bits()), &["error_flag"]);
    // What it has noted beside the pack isn't of these bytes.
    let card = mark(Published::new());
    let path = card.save();
    assert!(!is_advised(&path), "advice");
    fsck(&path).expect(0);
    run(&[&"info", &path]).expect(0);
    assert!(card.has_road(&path), "the file's bytes");
}

/// Nor of a number that is there twice; and beside that, a check that is asked for doesn't help.
#[test]
fn equal_entries() {
    let mut card = Published::new().without_nat_bits();
    let road = card.road_entry();
    card.put_journal(&[road, road]);
    expect_left(&card, &["number_twice"]);
    let which = card.image.pack_in_use();
    set_flags(&mut card.image, which, |flags| flags | CP_FSCK_FLAG);
    let path = card.save();
    assert!(!is_advised(&path), "advice");
    fsck(&path).expect(0);
    let json = run(&[&"info", &"--json", &path]).expect(2).json();
    assert_eq!(causes(&json), ["number_twice"], "in {json:?}");
}

/// Of entries that differ the last one holds. If that is the wrong one, the file is lost.
#[test]
fn differing_entries() {
    let mut card = Published::new();
    let right = card.road_entry();
    let mut none = right;
    none.entry.block_addr = 0;
    let mut newer = right;
    newer.entry.version += 1;
    for (journal, kept) in [
        ([none, right], true),
        ([right, none], false),
        ([right, newer], false),
    ] {
        card.put_journal(&journal);
        let path = card.save();
        assert!(!is_advised(&path), "advice");
        fsck(&path);
        run(&[&"info", &path]).expect(0);
        assert_eq!(card.has_road(&path), kept, "with {journal:?}");
    }
}

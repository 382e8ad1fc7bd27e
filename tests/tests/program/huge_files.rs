//! Files of more than 4 GiB, nearly all of them holes: sizes, indexes and bytes that 32 bits don't hold.

use harptimber_tests::cards::layout::inode::I_SIZE;
use harptimber_tests::cards::layout::BLOCK_SIZE;
use harptimber_tests::cards::on_disk::OnDisk;
use harptimber_tests::program::card::{put, ProgramCard, Put};
use harptimber_tests::program::json::Json;
use harptimber_tests::program::page::expect_head;
use harptimber_tests::program::{run, run_on_terminal, Words};

/// 5 GiB and a byte, so that the last block has one byte; data stands in it and in the one before.
const SIZE: u64 = (5 << 30) + 1;
const LAST: u32 = 1_310_720;
/// The first block that lies wholly behind 4 GiB.
const BEHIND: u32 = 1 << 20;
/// In a second file of that size, this one has an address outside the main area.
const OUTSIDE: u32 = 3000;

struct Huge {
    card: ProgramCard,
    file: Put,
    disk: OnDisk,
}

impl Huge {
    fn new() -> Huge {
        let mut card = ProgramCard::far();
        let file = put(&mut card.card, b"huge", SIZE, &[0, BEHIND, LAST - 1, LAST]);
        let cut = put(&mut card.card, b"cut", SIZE, &[0]);
        card.card.set_address(cut.ino, OUTSIDE, 1);
        let disk = OnDisk::new(card.card.image.clone());
        Huge { card, file, disk }
    }
}

#[test]
fn sizes() {
    let Huge { disk, .. } = Huge::new();
    let path = disk.path();
    let ls = run(&[&"ls", &path]).expect(2);
    let line = "\n 5,368,709,121  huge: data (answer 0)\n";
    assert!(ls.words().contains(line), "no '{line}' in {ls:?}");
    let json = run(&[&"ls", &"--json", &path]).expect(2).json();
    let mut names = json["names"].list().iter();
    let huge = names.find(|name| name["name"].text() == "huge").unwrap();
    assert_eq!(huge["size"].number(), 5_368_709_121);
    let past = run(&[&"pull", &"--json", &path, &"huge", &(LAST + 1)]).expect(2);
    let json = past.json();
    expect_head(&json, "pull", 3);
    let end = "it has 5,368,709,121 bytes, so that its last block is 1310720";
    assert_eq!(json["reason"].text(), end);
}

#[test]
fn pulls() {
    let Huge { card, file, disk } = Huge::new();
    let output = disk.scratch.path("block");
    for index in [0, 1, BEHIND - 1, BEHIND, LAST - 2, LAST - 1, LAST] {
        run(&[&"pull", &"-o", &output, &disk.path(), &"huge", &index]).expect(0);
        let bytes = file.block(&card.card.image, index);
        assert!(std::fs::read(&output).unwrap() == bytes, "block {index}");
    }
}

/// Where a byte lies in the file.
#[test]
fn compares() {
    let Huge { file, disk, .. } = Huge::new();
    let mut new = OnDisk::new(disk.image.clone());
    for (index, at) in [(BEHIND, 5), (LAST - 1, 4095), (LAST, 0)] {
        let block = file.blocks[&index];
        let before = new.image.block(block)[at];
        new.image.put("byte", block, at, &[!before]);
        new.write_blocks(&[block]);
        let place = u64::from(index) * BLOCK_SIZE as u64 + at as u64;
        assert!(place > u64::from(u32::MAX));
        let index = format!("--index={index}");
        let index = index.as_str();
        let line: Words = &[&"compare", &index, &disk.path(), &new.path(), &"huge"];
        let ran = run(line).expect(1);
        let first = format!("differs, first at byte {place} of the file (0x{before:02x} before, ");
        assert!(ran.words().contains(&first), "no '{first}' in {ran:?}");
        let json = run(&[line, &[&"--json"]].concat()).expect(1).json();
        let [run] = json["runs"].list() else {
            panic!("one run isn't what is in {json:?}");
        };
        assert_eq!(run["byte"].number(), place, "in {json:?}");
        assert_eq!(json["kept_size"].number(), SIZE, "in {json:?}");
    }
}

/// A whole one, in bytes and blocks, as far as past 4 GiB.
#[test]
fn whole() {
    let Huge {
        card,
        file,
        mut disk,
    } = Huge::new();
    let size = u64::from(BEHIND) * BLOCK_SIZE as u64 + 7;
    let inode = card.card.inode_block(file.ino);
    disk.image.set(inode, I_SIZE, size);
    disk.write_blocks(&[inode]);
    let line: Words = &[
        &"cat",
        &"--json",
        &"-o",
        &"/dev/null",
        &disk.path(),
        &"huge",
    ];
    let json = run(line).expect(0).json();
    expect_head(&json, "cat", 0);
    let counts = ["bytes", "blocks", "holes"].map(|key| json[key].number());
    assert_eq!(counts, [4_294_967_303, 1_048_577, 1_048_575]);
}

/// How far it has come, up to a block that is refused.
#[test]
fn progress() {
    let Huge { disk, .. } = Huge::new();
    let new = OnDisk::new(disk.image.clone());
    let output = disk.scratch.path("output");
    let cat: Words = &[&"cat", &"-o", &output, &disk.path(), &"cut"];
    let compare: Words = &[&"compare", &disk.path(), &new.path(), &"cut"];
    for line in [cat, compare] {
        let ran = run_on_terminal(line, None).expect(2);
        let parts: Vec<&str> = ran.words().split('\r').collect();
        assert!(parts.contains(&"cut: 0 of 5,121 MiB"), "of {ran:?}");
        assert!(ran.words().contains("block 3000: "), "of {ran:?}");
    }
    let json: Json = run(&[&"compare", &"--json", &disk.path(), &new.path(), &"cut"])
        .expect(2)
        .json();
    assert_eq!(json["same"].number(), u64::from(OUTSIDE));
}

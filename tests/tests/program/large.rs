//! Cards of 16 GiB: what each command says of files at their very end, on a disk too, and what that takes.

use std::path::{Path, PathBuf};
use std::process::Command;
use std::sync::Arc;

use harptimber_tests::cards::card::ROOT;
use harptimber_tests::cards::disks::{entry, Disk, GptEntry, GptForm, EXTENDED, LINUX, SECTOR};
use harptimber_tests::cards::layout::sit::SitEntry;
use harptimber_tests::cards::layout::BLOCK_SIZE;
use harptimber_tests::cards::on_disk::{OnDisk, Shared};
use harptimber_tests::program::card::{ProgramCard, LONG, OUTSIDE, ROAD};
use harptimber_tests::program::held::{Hold, Holder};
use harptimber_tests::program::measured::Measurer;
use harptimber_tests::program::page::expect_head;
use harptimber_tests::program::special_build::{SpecialBuild, REPORTED};
use harptimber_tests::program::{
    command, run, run_by_shell, run_on_terminal_after, Ran, Word, Words,
};
use harptimber_tests::system::resize;
use harptimber_tests::tools::published::{self, contents, filled_on, filled_with, LARGEST};
use harptimber_tests::trial::Random;

use crate::compare::{self, Cards};
use crate::output::Loop;
use crate::{cat, ls, numbers, pull, segments, words};

const LAST_BLOCK: u32 = 4_194_303;

/// The card that the tests here share.
fn far() -> Arc<ProgramCard> {
    static CARD: Shared<ProgramCard> = Shared::empty();
    CARD.get(|| {
        let card = ProgramCard::far();
        assert_eq!(card.card.inode_block(ROOT), LAST_BLOCK);
        let blocks = card.files.iter().flat_map(|file| file.blocks.values());
        assert!(blocks.min().is_some_and(|&block| block > LAST_BLOCK - 1024));
        card
    })
}

/// All that the commands say of the same files on a small card.
#[test]
fn files() {
    let card = far();
    pull::expect_every_answer(&card);
    words::expect_pulls(&card);
    cat::expect_built_files(&card);
    ls::expect_every_answer(&card);
    numbers::expect_nodes(&card);
}

#[test]
fn compares() {
    compare::expect_same(&Cards::of(ProgramCard::far()));
    for expect in [
        compare::expect_data,
        compare::expect_behind_a_node,
        compare::expect_table,
        compare::expect_names,
        compare::expect_refused_by_kept,
    ] {
        expect(&mut Cards::of(ProgramCard::far()));
    }
}

/// Places that reasons name: an address behind the image, and a block at its end.
#[test]
fn reasons() {
    let card = far();
    let path = card.disk.path();
    let (malformed, ..) = card.refused.last().expect("a malformed entry").clone();
    let entries = card.card.directory[&4];
    let lines = [
        (
            (OUTSIDE, 2, 13),
            "block 2 of the file has address 4194304; the main area is blocks 21504 to 4194303"
                .to_string(),
        ),
        (
            (&malformed, 0, 14),
            format!(
                "slot 213 of the card's block {entries} (block 4 of the root directory) \
                 has a name of 9 bytes"
            ),
        ),
    ];
    for ((name, index, answer), reason) in lines {
        let json = run(&[&"pull", &"--json", &path, &name, &index])
            .expect(2)
            .json();
        expect_head(&json, "pull", answer);
        assert_eq!(json["reason"].text(), reason);
    }
}

#[test]
fn info() {
    let card = far();
    let path = card.disk.path();
    let words = format!(
        "{}: can be read (answer 0)
label: none
size: 16 GiB, 4,194,304 blocks of 4,096 bytes
features: none
checkpoint area: blocks 512 to 1535 (2 segments)
SIT area: blocks 1536 to 2559 (2 segments)
NAT area: blocks 2560 to 20991 (36 segments)
SSA area: blocks 20992 to 21503 (1 segment)
main area: blocks 21504 to 4194303 (8,150 segments)
superblock copy 1: in use
superblock copy 2: passes
checkpoint pack 1: in use; version 1 (0x1); flags: unmount compacted_summary
checkpoint pack 2: doesn't pass: its first block is all zeros
",
        path.display()
    );
    assert_eq!(run(&[&"info", &path]).expect(0).words(), words);
    let json = run(&[&"info", &"--json", &path]).expect(0).json();
    expect_head(&json, "info", 0);
    let numbers = ["offset", "bytes", "blocks"].map(|key| json[key].number());
    assert_eq!(numbers, [0, 17_179_869_184, 4_194_304]);
}

/// Two segments of many have valid blocks. Then the last one is off.
#[test]
fn segments_at_the_end() {
    let mut disk = OnDisk::new(far().card.image.clone());
    let line: Words = &[&"segments", &disk.path()];
    let fill = "600 of 4,172,800 blocks valid in 8,150 segments (0.0 %), 8,148 of them empty\n";
    let words = format!(
        "{}: can be read (answer 0): no segment is off\n{fill}",
        disk.path().display()
    );
    assert_eq!(run(line).expect(0).words(), words);
    let bars = format!(
        "a column is 105 segments, blank if empty, # if full\n[{}.]\n",
        " ".repeat(77)
    );
    let ran = run_on_terminal_after("stty cols 80; LC_ALL=C", line, None).expect(0);
    assert_eq!(ran.words(), format!("{words}{bars}"));
    disk.image
        .set_sit_entry(8149, 0, &SitEntry::counted(301, 300));
    disk.write_blocks(&[1684]);
    let off = "  segment 8149 counts 301 valid blocks, its map marks 300 (SIT table, block 1684)\n";
    let ran = run(line).expect(1);
    assert!(ran.words().contains(off), "no '{off}' in {ran:?}");
}

/// Each command that takes an image, and what it ends with if the card is at this path. Of one that is a part of a disk, the
/// words that say so come first.
fn each_command(
    card: &ProgramCard,
    part: Words,
    path: &PathBuf,
    expect: &mut dyn FnMut(Words, i32),
) {
    let ino = card.file(ROAD).ino;
    let lines: [(Words, i32); 10] = [
        (&[&"info", path], 0),
        (&[&"info", &"--json", path], 0),
        (&[&"ls", path], 2),
        (&[&"ls", &"--json", path], 2),
        (&[&"pull", &"--lists", path, &LONG, &"925"], 0),
        (&[&"pull", path, &OUTSIDE, &"2"], 2),
        (&[&"cat", path, &LONG], 0),
        (&[&"node", path, &ino], 0),
        (&[&"segments", path], 0),
        (&[&"segments", &"--json", path], 0),
    ];
    for (line, status) in lines {
        expect(&[part, line].concat(), status);
    }
}

/// Without the image's path, and without where in it the card starts.
fn without_place(ran: &Ran, path: &Path, first: u64) -> Vec<u8> {
    match std::str::from_utf8(&ran.out) {
        Ok(text) => text
            .replace(path.to_str().unwrap(), "PATH")
            .replace(&format!("\"offset\":{first},"), "")
            .into_bytes(),
        Err(_) => ran.out.clone(),
    }
}

/// What the commands say of the card as a part of a disk is what they say of it alone.
fn expect_part(card: &ProgramCard, disk: &Disk, part: &[&str], first: u64) {
    let (alone, path) = (card.disk.path(), disk.path());
    let mut expected = Vec::new();
    each_command(card, &[], &alone, &mut |line, status| {
        expected.push(without_place(&run(line).expect(status), &alone, 0));
    });
    let part: Vec<&dyn Word> = part.iter().map(|word| word as &dyn Word).collect();
    let mut expected = expected.into_iter();
    each_command(card, &part, &path, &mut |line, status| {
        let ran = run(line).expect(status);
        let said = without_place(&ran, &path, first);
        assert!(
            Some(said) == expected.next(),
            "otherwise than alone: {ran:?}"
        );
    });
}

/// Where the card is on a disk: behind 4 GiB, and between two pages.
const FIRST: u64 = (5 << 30) + 3 * SECTOR;
const SECTORS: u64 = (16 << 30) / SECTOR;

/// A disk of 40 GiB with the card as its first partition.
fn disk_with(card: &ProgramCard) -> Disk {
    let disk = Disk::new(40 << 30);
    disk.put_card(FIRST, &card.card.image);
    let first = (FIRST / SECTOR) as u32;
    disk.put_mbr(0, &[entry(LINUX, first, SECTORS as u32)]);
    disk
}

#[test]
fn parts_of_disks() {
    let card = far();
    let disk = disk_with(&card);
    expect_part(&card, &disk, &["--offset", &FIRST.to_string()], FIRST);
    expect_part(&card, &disk, &["--partition=1"], FIRST);
    let whole = GptEntry {
        number: 7,
        first: FIRST / SECTOR,
        last: FIRST / SECTOR + SECTORS - 1,
    };
    disk.put_gpt(GptForm::USUAL, &[whole]);
    expect_part(&card, &disk, &["--partition=7"], FIRST);
    // The disk ends with the card, which is a logical partition.
    disk.set_len(FIRST + (16 << 30));
    let chain = (FIRST / SECTOR) as u32 - 63;
    disk.put_mbr(0, &[entry(EXTENDED[0], chain, u32::MAX)]);
    disk.put_mbr(chain.into(), &[entry(LINUX, 63, SECTORS as u32)]);
    expect_part(&card, &disk, &["--partition=5"], FIRST);
}

#[test]
fn compares_of_parts() {
    let card = far();
    let [kept, new] = [(); 2].map(|()| disk_with(&card));
    for part in [format!("--offset={FIRST}"), "--partition=1".to_string()] {
        let part = part.as_str();
        let line: Words = &[&part, &"compare", &kept.path(), &new.path()];
        run(&[line, &[&ROAD, &LONG]].concat()).expect(0);
        let data = FIRST + u64::from(card.file(LONG).blocks[&925]) * BLOCK_SIZE as u64;
        new.spoil(data);
        let ran = run(&[line, &[&LONG]].concat()).expect(1);
        let byte = ": 1 of 926 blocks differs, first at byte 3788800 of the file (";
        assert!(ran.words().contains(byte), "no '{byte}' in {ran:?}");
        run(&[line, &[&ROAD]].concat()).expect(0);
        // Once more makes it what it was.
        new.spoil(data);
    }
}

/// More than any command needs on a card with small files.
const MUCH_MEMORY: u64 = 64 << 20;

/// No command touches more of a card than what is asked for.
#[test]
fn memory() {
    let measurer = Measurer::shared();
    let expect = |line: Words, status| {
        let (ran, bytes) = measurer.run(&command(line));
        let ran = ran.expect(status);
        assert!(bytes < MUCH_MEMORY, "{bytes} bytes of memory for {ran:?}");
    };
    let card = far();
    let (path, new) = (card.disk.path(), OnDisk::new(card.card.image.clone()));
    each_command(&card, &[], &path, &mut |line, status| expect(line, status));
    expect(&[&"compare", &path, &new.path(), &ROAD, &LONG], 0);
    // One block too many.
    resize(&new.path(), (16 << 30) + 4096);
    expect(&[&"info", &new.path()], 2);
    // What is planted is seen.
    let mut dd = Command::new("dd");
    dd.args(["if=/dev/zero", "of=/dev/null", "bs=80M", "count=1"]);
    assert!(measurer.run(&dd).1 > MUCH_MEMORY);
}

/// What grows with the segments isn't on the stack.
#[test]
fn small_stack() {
    let card = far();
    let on_small = "ulimit -s 128; exec \"$@\"";
    each_command(&card, &[], &card.disk.path(), &mut |line, status| {
        run_by_shell(on_small, line).expect(status);
    });
}

/// The card lies between pages that nobody may touch. What is planted is seen: one that ends before its last block.
#[test]
fn sanitized() {
    let card = far();
    let (path, new) = (card.disk.path(), OnDisk::new(card.card.image.clone()));
    let build = SpecialBuild::sanitized();
    each_command(&card, &[], &path, &mut |line, status| {
        build.run(line).expect(status);
    });
    let line: Words = &[&"compare", &path, &new.path(), &ROAD, &LONG];
    build.run(line).expect(0);
    for (less, seen) in [("0", false), ("4096", true)] {
        let ran = build.run_with(&[("IN_HEAP_LESS", less)], &[&"ls", &path]);
        assert_eq!(
            ran.status == REPORTED,
            seen,
            "with {less} bytes less: {ran:?}"
        );
    }
}

#[test]
fn block_device() {
    let card = far();
    let new = OnDisk::new(card.card.image.clone());
    let Some(attached) = Loop::attach(&card.disk.path()) else {
        return;
    };
    let device = attached.path.clone();
    each_command(&card, &[], &device, &mut |line, status| {
        run(line).expect(status);
    });
    cat::expect_built_file(&card, &device, LONG);
    run(&[&"compare", &new.path(), &device, &ROAD, &LONG]).expect(0);
}

/// A card that is cut to its half while a block of the other half is read.
#[test]
fn cut_while_it_is_read() {
    let card = far();
    let disk = OnDisk::new(card.card.image.clone());
    let block = card.file(ROAD).blocks[&5];
    let hold = Hold { image: 0, block };
    let line: Words = &[&"pull", &disk.path(), &ROAD, &"5"];
    let ran = Holder::shared().run(line, hold, || {
        resize(&disk.path(), 8 << 30);
    });
    ran.expect_message(2, &["card.img: can't be read any more: it was cut short"]);
}

/// What the published tools were given, with such a byte at one place.
fn published_files(byte: u8) -> [published::File; 2] {
    let mut random = Random::new(71);
    let road = contents(&mut random, 5_000_000);
    let mut table = contents(&mut random, 9000);
    table[8192] = byte;
    [(b"road".to_vec(), road), (b"table".to_vec(), table)]
}

/// A card with these files, as it came from the tools.
fn expect_published(card: &OnDisk, files: &[published::File]) {
    let path = card.path();
    let info = run(&[&"info", &path]).expect(0);
    let size = "\nsize: 16 GiB, 4,194,304 blocks of 4,096 bytes\nfeatures: none\n";
    assert!(info.words().contains(size), "of {info:?}");
    let ls = run(&[&"ls", &path]).expect(0);
    let names = "     5,000,000  road: data (answer 0)\n         9,000  table: data (answer 0)\n";
    assert!(ls.words().ends_with(names), "of {ls:?}");
    for (name, bytes) in files {
        let cat = run(&[&"cat", &path, name]).expect(0);
        assert!(cat.out == *bytes, "bytes by {cat:?}");
    }
    segments::expect_published(&card.image, &path);
}

/// Beside a new card with one byte changed.
#[test]
fn published_cards() {
    let [kept, new] = [7, 8].map(|byte| {
        let files = published_files(byte);
        let card = OnDisk::new(filled_on(LARGEST, 1_700_000_000, &files));
        expect_published(&card, &files);
        card
    });
    let cards: Words = &[&"compare", &kept.path(), &new.path()];
    run(&[cards, &[&"road"]].concat()).expect(0);
    let ran = run(&[cards, &[&"table"]].concat()).expect(1);
    let line =
        "table: 1 of 3 blocks differs, first at byte 8192 of the file (0x07 before, 0x08 now)";
    assert!(ran.words().starts_with(line), "of {ran:?}");
}

/// By -a 1 the root directory is put at the card's end.
#[test]
fn published_card_with_a_far_directory() {
    let files = published_files(7);
    let card = OnDisk::new(filled_with(LARGEST, "-a 1", &files));
    expect_published(&card, &files);
    let pull: Words = &[&"pull", &"--json", &card.path(), &"road", &"1000"];
    let blocks = run(pull).expect(0).json()["blocks"].numbers();
    assert!(blocks.last().is_some_and(|&block| block > 4_000_000));
}

//! `harptimber info`: what it says of sound and damaged cards, against what was put there and what the library answers.

use std::process::Command;

use harptimber_tests::cards::damage::Damage;
use harptimber_tests::cards::image::Image;
use harptimber_tests::cards::knobs::{Knobs, Pack};
use harptimber_tests::cards::layout::checkpoint::*;
use harptimber_tests::cards::layout::journal::N_NATS;
use harptimber_tests::cards::layout::superblock::*;
use harptimber_tests::cards::layout::Field;
use harptimber_tests::cards::on_disk::OnDisk;
use harptimber_tests::cards::random::sound_knobs;
use harptimber_tests::cards::versions::CHOSEN;
use harptimber_tests::node_lookup;
use harptimber_tests::program::json::Json;
use harptimber_tests::program::page::{
    expect_head, meaning, meaning_with_reason, shown, status_of,
};
use harptimber_tests::program::special_build::SpecialBuild;
use harptimber_tests::program::versions::words_on_choice;
use harptimber_tests::program::{run, Ran, Words};
use harptimber_tests::system::resize;
use harptimber_tests::tools::outside::CardFile;
use harptimber_tests::tools::published::{self, formatted};
use harptimber_tests::trial::Random;

use Which::{First, Journal, Last};

const ROOT: u32 = 3;

/// The checkpoint's flags from the lowest bit, as dump.f2fs names them.
const FLAGS: [&str; 15] = [
    "unmount",
    "orphan_inodes",
    "compacted_summary",
    "error",
    "fsck",
    "fastboot",
    "crc",
    "nat_bits",
    "trimmed",
    "allow_nocrc",
    "large_nat_bitmap",
    "quota_need_fsck",
    "disabled",
    "disabled_quick",
    "resizefs",
];

fn info(disk: &OnDisk) -> Json {
    let answer = node_lookup(disk.image.bytes(), ROOT).answer;
    let ran = run(&[&"info", &"--json", &disk.path()]).expect(status_of(answer));
    assert_eq!(ran.err, "", "of {ran:?}");
    let json = ran.json();
    expect_head(&json, "info", answer);
    json
}

fn texts(json: &Json) -> Vec<&str> {
    json.list().iter().map(Json::text).collect()
}

fn flag(json: &Json) -> bool {
    match json {
        Json::Bool(flag) => *flag,
        _ => panic!("no flag: {json:?}"),
    }
}

/// By the flag words, with a number for what has no name.
fn flag_names(flags: u32) -> Vec<String> {
    let bits = (0..32).filter(|bit| flags >> bit & 1 == 1);
    let name = |bit: u32| match FLAGS.get(bit as usize) {
        Some(name) => name.to_string(),
        None => format!("{:#x}", 1u32 << bit),
    };
    bits.map(name).collect()
}

fn expect_areas(json: &Json, knobs: &Knobs) {
    let areas = knobs.areas();
    let expected = [
        ("checkpoint", areas.cp, knobs.ckpt_segments),
        ("SIT", areas.sit, knobs.sit_segments),
        ("NAT", areas.nat, knobs.nat_segments),
        ("SSA", areas.ssa, knobs.ssa_segments),
        ("main", areas.main, knobs.main_segments),
    ];
    let list = json["areas"].list();
    assert_eq!(list.len(), expected.len());
    for (json, (area, first, segments)) in list.iter().zip(expected) {
        assert_eq!(json["area"].text(), area);
        assert_eq!(json["first"].number(), u64::from(first), "in {json:?}");
        assert_eq!(json["segments"].number(), u64::from(segments));
    }
    assert_eq!(json["blocks"].number(), u64::from(areas.block_count));
}

fn expect_pack(json: &Json, pack: Option<&Pack>, in_use: bool) {
    assert_eq!(flag(&json["passes"]), pack.is_some(), "in {json:?}");
    assert_eq!(flag(&json["in_use"]), in_use, "in {json:?}");
    assert_eq!(json.get("reason").is_some(), pack.is_none());
    if let Some(pack) = pack {
        assert_eq!(json["version"].number(), pack.version);
        let hex = format!("{:016x}", pack.version);
        assert_eq!(json["version_hex"].text(), hex);
        assert_eq!(texts(&json["flags"]), flag_names(pack.flags));
        assert_eq!(flag(&json["clean"]), pack.flags & CP_UMOUNT_FLAG != 0);
    }
}

/// All that was put on a card that opens.
#[test]
fn sound_cards() {
    let mut random = Random::new(21);
    for _ in 0..25 {
        let knobs = sound_knobs(&mut random);
        let disk = OnDisk::new(Image::new(&knobs));
        let json = info(&disk);
        assert_eq!(json["answer"].number(), 0, "of {knobs:?}");
        assert!(json.get("reason").is_none());
        assert_eq!(json["offset"].number(), 0);
        assert_eq!(json["bytes"].number(), disk.image.bytes().len() as u64);
        assert_eq!(texts(&json["features"]), [""; 0]);
        expect_areas(&json, &knobs);
        let copies = json["copies"].list();
        let first = knobs.copies.iter().position(|&there| there);
        for (copy, json) in copies.iter().enumerate() {
            assert_eq!(flag(&json["passes"]), knobs.copies[copy]);
            assert_eq!(flag(&json["in_use"]), first == Some(copy));
        }
        let (used, _) = knobs.pack_in_use();
        let packs = json["packs"].list();
        assert_eq!([copies.len(), packs.len()], [2, 2]);
        for (which, pack) in knobs.packs.iter().enumerate() {
            expect_pack(&packs[which], pack.as_ref(), which == used);
        }
    }
}

/// In words, line by line.
#[test]
fn words() {
    let dirty = Pack::plain(0x1_0000_0007, CP_FASTBOOT_FLAG);
    let knobs = Knobs {
        ssa_segments: 0,
        packs: [Some(dirty), None],
        ..Knobs::sound()
    };
    let mut image = Image::new(&knobs);
    put_label(&mut image, &"Bremse".encode_utf16().collect::<Vec<_>>());
    let disk = OnDisk::new(image);
    let path = disk.path();
    let path = path.to_str().unwrap();
    let first = format!("{path}: {} (answer 0)", meaning("info", 0));
    let lines = [
        first.as_str(),
        "label: Bremse",
        "size: 14 MiB, 3,586 blocks of 4,096 bytes",
        "features: none",
        "checkpoint area: blocks 2 to 1025 (2 segments)",
        "SIT area: blocks 1026 to 2049 (2 segments)",
        "NAT area: blocks 2050 to 3073 (2 segments)",
        "SSA area: none",
        "main area: blocks 3074 to 3585 (1 segment)",
        "superblock copy 1: in use",
        "superblock copy 2: passes",
        "checkpoint pack 1: in use; version 4294967303 (0x100000007); flags: fastboot; not unmounted cleanly",
        "checkpoint pack 2: doesn't pass: its first block is all zeros",
    ];
    let ran = run(&[&"info", &disk.path()]).expect(0);
    assert_eq!(ran.words().lines().collect::<Vec<_>>(), lines);
}

/// A second pack that is in use, of a clean card without a label.
#[test]
fn words_of_a_clean_card() {
    let clean = Pack::plain(0x1_0000_0007, CP_UMOUNT_FLAG);
    let knobs = Knobs::sound().with_pack(1, clean);
    let disk = OnDisk::new(Image::new(&knobs));
    let ran = run(&[&"info", &disk.path()]).expect(0);
    let last = "checkpoint pack 2: in use; version 4294967303 (0x100000007); flags: unmount";
    assert_eq!(ran.words().lines().last(), Some(last));
    assert!(ran.words().contains("\nlabel: none\n"), "of {ran:?}");
}

/// A card with two packs that pass.
fn with_versions(versions: [u64; 2]) -> Image {
    let pack = |version| Some(Pack::plain(version, CP_UMOUNT_FLAG));
    Image::new(&Knobs {
        packs: versions.map(pack),
        ..Knobs::sound()
    })
}

/// What is said of the packs, each by its state, its version, and words on the choice behind that.
fn expect_pack_lines(disk: &OnDisk, packs: [(&str, u64, String); 2]) {
    let lines = [0, 1].map(|which| {
        let (state, version, why) = &packs[which];
        let number = which + 1;
        format!("checkpoint pack {number}: {state}; version {version} ({version:#x}){why}; flags: unmount")
    });
    let ran = run(&[&"info", &disk.path()]).expect(0);
    let said = ran.words().lines();
    let said = said.filter(|line| line.starts_with("checkpoint pack "));
    assert_eq!(said.collect::<Vec<_>>(), lines);
}

/// The pack in use, as JSON and in words. JSON needs no words on the choice: it has the versions and a flag. The words stand
/// exactly where a version before 0.3.0 read the other pack, the one with the greater number.
#[test]
fn choices() {
    for (versions, used) in CHOSEN {
        let greater = usize::from(versions[1] > versions[0]);
        assert_eq!(words_on_choice(versions).is_empty(), used == greater);
        let disk = OnDisk::new(with_versions(versions));
        let json = info(&disk);
        let packs = [0, 1].map(|which| {
            let (version, in_use) = (versions[which], which == used);
            let pack = Pack::plain(version, CP_UMOUNT_FLAG);
            expect_pack(&json["packs"].list()[which], Some(&pack), in_use);
            match in_use {
                true => ("in use", version, words_on_choice(versions)),
                false => ("passes", version, String::new()),
            }
        });
        expect_pack_lines(&disk, packs);
    }
}

/// A pack that doesn't pass isn't in use, whatever its version is, and nothing of versions explains the other one.
#[test]
fn choices_of_one() {
    const FAILS: &str = "doesn't pass: its last block has checksum_offset 0, not 4092";
    for (versions, _) in CHOSEN {
        for used in 0..2 {
            let mut image = with_versions(versions);
            image.set_sealed(image.last_block(1 - used), CHECKSUM_OFFSET, 0);
            let state = |which| if which == used { "in use" } else { FAILS };
            let packs = [0, 1].map(|which| (state(which), versions[which], String::new()));
            expect_pack_lines(&OnDisk::new(image), packs);
        }
    }
}

/// The reason is that of the pack in use, whether the other one can be read or not.
#[test]
fn choices_of_unreadable_packs() {
    let size = |which: usize| 65 + which as u64;
    for (versions, used) in CHOSEN {
        for unreadable in [&[used][..], &[1 - used], &[0, 1]] {
            let mut image = with_versions(versions);
            for &which in unreadable {
                let first = image.first_block(which);
                image.set_sealed(first, SIT_VER_BITMAP_BYTESIZE, size(which));
            }
            if unreadable.contains(&used) {
                let reason = format!("sit_ver_bitmap_bytesize is {}, not 64", size(used));
                expect_reason(image, 8, &reason);
            } else {
                let json = info(&OnDisk::new(image));
                assert_eq!(json["answer"].number(), 0, "{versions:?}");
                assert!(flag(&json["packs"].list()[used]["in_use"]), "{json:?}");
            }
        }
    }
}

const LABEL_AT: usize = 1024 + 124;

fn put_label(image: &mut Image, units: &[u16]) {
    let bytes: Vec<u8> = units.iter().flat_map(|unit| unit.to_le_bytes()).collect();
    for copy in 0..2 {
        image.put("label", copy, LABEL_AT, &bytes);
    }
}

#[test]
fn labels() {
    let text = |text: &str| text.encode_utf16().collect::<Vec<u16>>();
    let long = vec![0x2603; 512];
    let labels = [
        text("plain"),
        text("Stra\u{DF}e \u{2603} \u{1D11E}\u{10FFFF}"),
        text("\u{7F}\u{80}\u{7FF}\u{800}\u{FFFF}\u{10000}"),
        text("a \"quote\" \\ and\ta\nline\x1B[2J"),
        vec![0xD834, 0x61, 0xDD1E, 0xD834],
        vec![0xDD1E, 0xD834, 0xD834, 0xDD1E, 0],
        [&long[..511], &[0xD834]].concat(),
        long,
        vec![],
        [text("ends"), vec![0], text("here")].concat(),
    ];
    let mut disk = OnDisk::new(Image::new(&Knobs::sound()));
    for units in labels {
        put_label(&mut disk.image, &[0; 512]);
        put_label(&mut disk.image, &units);
        disk.write_blocks(&[0, 1]);
        let end = units.iter().position(|&unit| unit == 0);
        let units = &units[..end.unwrap_or(units.len())];
        let expected = String::from_utf16_lossy(units);
        assert_eq!(info(&disk)["label"].text(), expected);
        let ran = run(&[&"info", &disk.path()]).expect(0);
        let control = |letter: char| letter.is_control() && letter != '\n';
        assert!(!ran.words().contains(control), "control bytes of {ran:?}");
        assert_eq!(ran.words().lines().count(), 13, "of {ran:?}");
    }
}

/// The words behind one of dump.f2fs's lines, sorted.
fn dumped<'a>(dump: &'a str, start: &str) -> Vec<&'a str> {
    let found = dump.lines().find_map(|line| line.strip_prefix(start));
    let found = found.unwrap_or_else(|| panic!("no '{start}' in {dump}"));
    let (_, names) = found.split_once(':').unwrap_or(("", found));
    let mut names: Vec<&str> = names.split_whitespace().collect();
    names.sort();
    names
}

/// A card with these options, in what dump.f2fs says of it too.
fn expect_dumped(options: &str) {
    let image = formatted(64, options);
    let card = CardFile::of(&image);
    let dump = published::run(Command::new("dump.f2fs").arg(card.path()));
    let dump = String::from_utf8(dump).unwrap();
    let features = dumped(&dump, "Info: superblock features = ");
    let answer = if features.is_empty() { 0 } else { 6 };
    let json = run(&[&"info", &"--json", &card.path()]).expect(status_of(answer));
    let json = json.json();
    expect_head(&json, "info", answer);
    let mut named = texts(&json["features"]);
    if answer == 6 {
        let reason = format!("features: {}", named.join(" "));
        assert_eq!(json["reason"].text(), reason);
        let pull: Words = &[&"pull", &"--json", &card.path(), &"name", &"0"];
        assert_eq!(run(pull).expect(2).json()["reason"].text(), reason);
    }
    named.sort();
    assert_eq!(named, features);
    let label = options.strip_prefix("-l ").unwrap_or_default();
    assert_eq!(json["label"].text(), label.split(' ').next().unwrap());
    let mut packs = json["packs"].list().iter();
    let used = packs.find(|pack| flag(&pack["in_use"])).unwrap();
    let version = format!("{:x}", used["version"].number());
    assert_eq!(dumped(&dump, "Info: CKPT version = "), [version]);
    let mut flags = texts(&used["flags"]);
    flags.sort();
    assert_eq!(dumped(&dump, "Info: checkpoint state = "), flags);
}

#[test]
fn published_cards() {
    for options in [
        "-l Bremse -O encrypt,extra_attr,project_quota,inode_checksum,quota,inode_crtime",
        "-O flexible_inline_xattr,extra_attr,lost_found,verity,sb_checksum",
        "-O casefold -C utf8",
        "-O extra_attr,compression,ro",
        "-l kept",
    ] {
        expect_dumped(options);
    }
}

/// The pack in use is the one that dump.f2fs takes: mkfs.f2fs writes two that pass.
#[test]
fn published_choices() {
    let mut image = formatted(64, "");
    for (versions, used) in CHOSEN {
        image.set_versions(versions);
        let card = CardFile::of(&image);
        let dump = published::run(Command::new("dump.f2fs").arg(card.path()));
        let dump = String::from_utf8(dump).unwrap();
        let version = format!("{:x}", versions[used]);
        assert_eq!(dumped(&dump, "Info: CKPT version = "), [version]);
        let json = run(&[&"info", &"--json", &card.path()]).expect(0).json();
        let packs = json["packs"].list().iter();
        let in_use = packs.map(|pack| flag(&pack["in_use"])).collect::<Vec<_>>();
        assert_eq!(in_use, [used == 0, used == 1], "{versions:?}");
    }
}

/// Changes to a copy of that card's superblock, and why it doesn't pass by them.
const COPY_RULES: [(Field, u64, &str); 24] = [
    (MAGIC, 1, "no F2FS mark"),
    (LOG_BLOCKSIZE, 13, "log_blocksize is 13, not 12"),
    (LOG_BLOCKS_PER_SEG, 8, "log_blocks_per_seg is 8, not 9"),
    (LOG_SECTORSIZE, 8, "log_sectorsize is 8, not 9 to 12"),
    (LOG_SECTORSIZE, 13, "log_sectorsize is 13, not 9 to 12"),
    (
        LOG_SECTORS_PER_BLOCK,
        4,
        "log_sectors_per_block is 4, not 3",
    ),
    (SEGS_PER_SEC, 0, "segs_per_sec is 0"),
    (SECS_PER_ZONE, 0, "secs_per_zone is 0"),
    (ROOT_INO, 4, "root_ino is 4, not 3"),
    (NODE_INO, 0, "node_ino is 0, not 1"),
    (META_INO, 3, "meta_ino is 3, not 2"),
    (SEGMENT_COUNT_CKPT, 3, "segment_count_ckpt is 3, not 2"),
    (
        SEGMENT_COUNT_SIT,
        0,
        "segment_count_sit is 0, not an even number from 2 on",
    ),
    (
        SEGMENT_COUNT_NAT,
        3,
        "segment_count_nat is 3, not an even number from 2 on",
    ),
    (
        SEGMENT_COUNT_SSA,
        2,
        "main_blkaddr is 3589, not 4101, where the SSA area ends",
    ),
    (
        SEGMENT0_BLKADDR,
        1,
        "segment0_blkaddr is 1, but blocks 0 and 1 have the superblock",
    ),
    (
        CP_BLKADDR,
        6,
        "cp_blkaddr is 6, not 5 as segment0_blkaddr is",
    ),
    (
        SIT_BLKADDR,
        1030,
        "sit_blkaddr is 1030, not 1029, where the checkpoint area ends",
    ),
    (
        NAT_BLKADDR,
        2054,
        "nat_blkaddr is 2054, not 2053, where the SIT area ends",
    ),
    (
        SSA_BLKADDR,
        3078,
        "ssa_blkaddr is 3078, not 3077, where the NAT area ends",
    ),
    (
        MAIN_BLKADDR,
        3590,
        "main_blkaddr is 3590, not 3589, where the SSA area ends",
    ),
    (
        SEGMENT_COUNT,
        7,
        "the main area ends at 4101, the segments of segment_count at 3589",
    ),
    (
        BLOCK_COUNT,
        5124,
        "block_count is 5124, but the segments of segment_count end at 5125",
    ),
    (
        BLOCK_COUNT,
        6326,
        "a volume of 6,326 blocks, but the image has only 6,325",
    ),
];

/// In one copy or in both.
#[test]
fn superblock_rules() {
    let mut disk = OnDisk::new(Image::new(&Knobs::roomy()));
    for (field, value, why) in COPY_RULES {
        for damaged in [&[0][..], &[1], &[0, 1]] {
            for &copy in damaged {
                disk.image.set(copy, field, value);
            }
            disk.write_blocks(&[0, 1]);
            let json = info(&disk);
            let both = damaged.len() == 2;
            assert_eq!(json["answer"].number(), if both { 5 } else { 0 });
            for (copy, json) in json["copies"].list().iter().enumerate() {
                let reason = json.get("reason").map(Json::text);
                let fails = damaged.contains(&(copy as u32));
                assert_eq!(reason, fails.then_some(why));
            }
            let reason = json.get("reason").map_or("", Json::text);
            let starts = reason.starts_with(&format!("each copy: {why}"));
            assert_eq!(starts, both, "{json:?}");
            disk.image.undo(0);
        }
    }
    disk.image.set(0, ROOT_INO, 4);
    disk.image.set(1, META_INO, 4);
    disk.write_blocks(&[0, 1]);
    let reason = "copy 1: root_ino is 4, not 3; copy 2: meta_ino is 4, not 2";
    assert_eq!(info(&disk)["reason"].text(), reason);
}

/// Which block of the first pack is changed.
#[derive(Clone, Copy, Debug)]
enum Which {
    First,
    Last,
    Journal,
}

/// A change to the pack of the sound card, and why it doesn't pass by it.
type PackRule = (Which, Field, u64, &'static str);

/// With the checksum made right.
const PACK_RULES: [PackRule; 6] = [
    (
        First,
        CHECKSUM_OFFSET,
        4088,
        "its first block has checksum_offset 4088, not 4092",
    ),
    (
        Last,
        CHECKSUM_OFFSET,
        0,
        "its last block has checksum_offset 0, not 4092",
    ),
    (
        First,
        CP_PACK_TOTAL_BLOCK_COUNT,
        1,
        "cp_pack_total_block_count is 1, not 2 to 512",
    ),
    (
        First,
        CP_PACK_TOTAL_BLOCK_COUNT,
        513,
        "cp_pack_total_block_count is 513, not 2 to 512",
    ),
    (
        First,
        CP_PACK_TOTAL_BLOCK_COUNT,
        7,
        "its last block is all zeros",
    ),
    (
        Last,
        CHECKPOINT_VER,
        9,
        "its first block has version 1, its last 9",
    ),
];

const NO_SUMMARIES: &str =
    "the journal block is out of place: the pack has 6 blocks, and it lies 7 before the end";

/// Why the pack in use can't be read.
const READ_RULES: [PackRule; 8] = [
    (
        First,
        CKPT_FLAGS,
        0x405,
        "large_nat_bitmap is set, which isn't read",
    ),
    (
        First,
        SIT_VER_BITMAP_BYTESIZE,
        65,
        "sit_ver_bitmap_bytesize is 65, not 64",
    ),
    (
        First,
        NAT_VER_BITMAP_BYTESIZE,
        0,
        "nat_ver_bitmap_bytesize is 0, not 64",
    ),
    (
        First,
        CP_PACK_START_SUM,
        0,
        "the journal block is out of place: cp_pack_start_sum is 0 in a pack of 6 blocks",
    ),
    (
        First,
        CP_PACK_START_SUM,
        5,
        "the journal block is out of place: cp_pack_start_sum is 5 in a pack of 6 blocks",
    ),
    (First, CKPT_FLAGS, 0x1, NO_SUMMARIES),
    (First, CKPT_FLAGS, 0x20, NO_SUMMARIES),
    (
        Journal,
        N_NATS,
        39,
        "the NAT journal counts 39 entries, at most 38 fit",
    ),
];

const NO_PACK: &str = "its first block is all zeros";

fn block_of(image: &Image, which: Which) -> u32 {
    match which {
        First => image.first_block(0),
        Last => image.last_block(0),
        Journal => image.first_block(0) + 1,
    }
}

/// Packs that don't pass, and one in use that can't be read.
#[test]
fn pack_rules() {
    let rules = PACK_RULES.iter().map(|rule| (7, rule));
    for (answer, &(which, field, value, why)) in
        rules.chain(READ_RULES.iter().map(|rule| (8, rule)))
    {
        let mut image = Image::new(&Knobs::sound());
        let block = block_of(&image, which);
        match which {
            Journal => image.set(block, field, value),
            _ => image.set_sealed(block, field, value),
        }
        let reason = match answer {
            7 => format!("pack 1: {why}; pack 2: {NO_PACK}"),
            _ => why.to_string(),
        };
        expect_reason(image, answer, &reason);
    }
}

/// Packs without compact summaries that have too few blocks for the others, by one.
#[test]
fn short_packs() {
    for (flags, total) in [(CP_UMOUNT_FLAG, 7), (CP_FASTBOOT_FLAG, 7), (0, 4)] {
        let pack = Pack {
            total,
            ..Pack::plain(1, flags)
        };
        let lies = format!("the pack has {total} blocks, and it lies {total} before the end");
        let reason = format!("the journal block is out of place: {lies}");
        let knobs = Knobs::sound().with_pack(0, pack);
        expect_reason(Image::new(&knobs), 8, &reason);
    }
}

#[test]
fn pack_checksums() {
    for (which, word) in [(First, "first"), (Last, "last")] {
        let mut image = Image::new(&Knobs::sound());
        let block = block_of(&image, which);
        let sum = image.get(block, CHECKSUM);
        image.set(block, CHECKSUM, sum ^ 1);
        let sums = format!("is {:08x}, its bytes make {sum:08x}", sum ^ 1);
        let reason = format!("pack 1: the checksum of its {word} block {sums}; pack 2: {NO_PACK}");
        expect_reason(image, 7, &reason);
    }
}

/// Maps that are as long as they should be, but too long for their block.
#[test]
fn long_maps() {
    let knobs = Knobs {
        sit_segments: 64,
        nat_segments: 58,
        ..Knobs::sound()
    };
    let reason = "the maps end at byte 4096 of their block, behind 4092";
    expect_reason(Image::new(&knobs), 8, reason);
}

/// The reason of info, in JSON and in words, and in those of other commands.
fn expect_reason(image: Image, answer: u32, reason: &str) {
    let disk = OnDisk::new(image);
    let json = info(&disk);
    assert_eq!(json["answer"].number(), u64::from(answer), "{reason}");
    assert_eq!(json["reason"].text(), reason);
    let pull: Words = &[&"pull", &"--json", &disk.path(), &"name", &"0"];
    assert_eq!(run(pull).expect(2).json()["reason"].text(), reason);
    let meaning = meaning_with_reason("pull", answer);
    let said = format!("{meaning} (answer {answer}): {reason}\n");
    let lines: [Words; 2] = [&[&"info", &disk.path()], &[&"node", &disk.path(), &"3"]];
    for line in lines {
        let ran = run(line).expect(2);
        assert!(ran.words().contains(&said), "no '{said}' in {ran:?}");
    }
}

/// A feature without a name, and a payload.
#[test]
fn features() {
    let mut disk = OnDisk::new(Image::new(&Knobs::sound()));
    for (feature, payload, reason) in [
        (1, 0, "features: encrypt"),
        (0x8000_0002, 0, "features: blkzoned 0x80000000"),
        (0, 3, "cp_payload is 3"),
        (4, 1, "features: atomic_write; cp_payload is 1"),
    ] {
        for copy in 0..2 {
            disk.image.set(copy, FEATURE, feature);
            disk.image.set(copy, CP_PAYLOAD, payload);
        }
        disk.write_blocks(&[0, 1]);
        let json = info(&disk);
        assert_eq!(json["answer"].number(), 6);
        assert_eq!(json["reason"].text(), reason);
    }
}

/// The words lead to the library's answer: a refusal has a reason, and what can be read has a pack in use.
fn expect_agreement(image: &Image, ran: &Ran) -> u32 {
    let answer = node_lookup(image.bytes(), ROOT).answer;
    assert_eq!(ran.status, status_of(answer), "of {ran:?} on {image:?}");
    let json = ran.json();
    expect_head(&json, "info", answer);
    let reason = json.get("reason").map_or("", Json::text);
    assert_eq!(reason.is_empty(), answer == 0, "{json:?} on {image:?}");
    let used = |key: &str| match json.get(key) {
        Some(list) => list
            .list()
            .iter()
            .filter(|one| flag(&one["in_use"]))
            .count(),
        None => 0,
    };
    assert_eq!(
        used("copies"),
        usize::from(answer != 5),
        "{json:?} on {image:?}"
    );
    assert!(
        used("packs") == 1 || answer != 0 && answer != 8,
        "{json:?} on {image:?}"
    );
    answer
}

/// The blocks that a card is opened by.
fn opening_blocks(image: &Image) -> Vec<u32> {
    let mut blocks = vec![0, 1];
    for which in 0..2 {
        let first = image.first_block(which);
        blocks.extend(first..first + 16);
    }
    blocks
}

/// Damages cards so many times, each in up to three numbers, and runs info on them.
fn damage(random: &mut Random, cards: u32, damages: u32, run: impl Fn(Words) -> Ran) {
    let mut answers = [0; 16];
    for _ in 0..cards {
        let mut knobs = sound_knobs(random);
        knobs.junk = None;
        for pack in knobs.packs.iter_mut().flatten() {
            pack.total = pack.total.clamp(8, 16);
            pack.start_sum = 1;
        }
        let mut disk = OnDisk::new(Image::new(&knobs));
        let strikes = Damage::of(&disk.image);
        let blocks = opening_blocks(&disk.image);
        for _ in 0..damages {
            for _ in 0..1 + random.below(3) {
                strikes.strike(&mut disk.image, random);
            }
            disk.write_blocks(&blocks);
            let ran = run(&[&"info", &"--json", &disk.path()]);
            answers[expect_agreement(&disk.image, &ran) as usize] += 1;
            disk.image.undo(0);
        }
    }
    let seen = [0, 5, 6, 7, 8].map(|answer| answers[answer]);
    println!(
        "info on damaged cards: {} inputs compared, answers {seen:?}",
        cards * damages
    );
    assert!(seen.iter().all(|&count| count > 0), "{seen:?}");
}

#[test]
fn damaged_cards() {
    damage(&mut Random::new(31), 12, 100, |words| run(words));
}

#[test]
fn damaged_cards_sanitized() {
    let build = SpecialBuild::sanitized();
    damage(&mut Random::new(32), 3, 50, |words| build.run(words));
}

/// Cards that are cut anywhere, some inside a superblock or a pack.
#[test]
fn cut_cards_sanitized() {
    let build = SpecialBuild::sanitized();
    let disk = OnDisk::new(Image::new(&Knobs::sound()));
    let pack = u64::from(disk.image.first_block(0)) * 4096;
    for len in [
        1,
        511,
        512,
        1024,
        1028,
        4096,
        5120,
        5124,
        8191,
        8192,
        8193,
        pack + 100,
        pack + 4096,
    ] {
        let file = std::fs::File::options().write(true).open(disk.path());
        file.unwrap().set_len(len).unwrap();
        let whole = len % 4096 == 0 && len >= 8192;
        let json = build
            .run(&[&"info", &"--json", &disk.path()])
            .expect(2)
            .json();
        expect_head(&json, "info", if whole { 5 } else { 4 });
        build.run(&[&"info", &disk.path()]).expect(2);
        build.run(&[&"info", &"--offset=1", &disk.path()]);
    }
}

/// Where the library says something else, it is the library's answer that is told, with no words against it.
#[test]
fn library_against_words() {
    let build = SpecialBuild::with_any_answer();
    let mut featured = Image::new(&Knobs::sound());
    featured.set(0, FEATURE, 1);
    for (own, image) in [(0, Image::new(&Knobs::sound())), (6, featured)] {
        let disk = OnDisk::new(image);
        for answer in [0, 4, 5, 6, 7, 8] {
            let any_answer = [("ANY_ANSWER", &*answer.to_string())];
            let run = |words: Words| {
                let ran = build.run_with(&any_answer, words);
                ran.expect(status_of(answer))
            };
            let json = run(&[&"info", &"--json", &disk.path()]).json();
            expect_head(&json, "info", answer);
            let agrees = answer == own;
            for key in ["label", "areas", "features", "copies", "packs"] {
                assert_eq!(json.get(key).is_some(), agrees, "'{key}' in {json:?}");
            }
            let pull: Words = &[&"pull", &"--json", &disk.path(), &"name", &"0"];
            for json in [&json, &run(pull).json()] {
                let reason = json.get("reason").is_some();
                assert_eq!(reason, agrees && own != 0, "in {json:?}");
            }
            let words = run(&[&"info", &disk.path()]);
            let lines = words.words().lines().count();
            assert_eq!(lines > 1, agrees, "of {words:?}");
            assert!(
                words.words().contains(&format!("(answer {answer})")),
                "of {words:?}"
            );
        }
    }
}

/// A card that is too long: what it is, is told all the same.
#[test]
fn long_card() {
    let disk = OnDisk::new(Image::new(&Knobs::sound()));
    resize(&disk.path(), (16 << 30) + 4096);
    let json = run(&[&"info", &"--json", &disk.path()]).expect(2).json();
    expect_head(&json, "info", 4);
    expect_areas(&json, &Knobs::sound());
    for copy in json["copies"].list() {
        let flags = ["passes", "in_use"].map(|key| flag(&copy[key]));
        assert_eq!(flags, [true, false]);
    }
    assert!(json.get("packs").is_none(), "in {json:?}");
    let ran = run(&[&"info", &disk.path()]).expect(2);
    assert!(
        ran.words().contains("\nsuperblock copy 1: passes\n"),
        "of {ran:?}"
    );
}

/// The path as it is, whatever bytes it has.
#[test]
fn path() {
    let disk = OnDisk::new(Image::new(&Knobs::sound()));
    let name = b"caf\xE9 \x1B.img";
    let path = disk
        .scratch
        .path(<std::ffi::OsStr as std::os::unix::ffi::OsStrExt>::from_bytes(name));
    std::fs::rename(disk.path(), &path).unwrap();
    let json = run(&[&"info", &"--json", &path]).expect(0).json();
    assert!(json["image"].text().ends_with(&shown(name)));
    let ran = run(&[&"info", &path]).expect(0);
    assert!(
        ran.words().contains("caf\\xE9 \\x1B.img: can be read"),
        "of {ran:?}"
    );
}

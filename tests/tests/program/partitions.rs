//! Cards that are a part of a disk's image, by --offset and --partition.

use std::fs;
use std::path::PathBuf;

use harptimber_tests::cards::disks::{
    crc32, entry, Disk, GptEntry, GptForm, MbrEntry, EMPTY, ENTRIES, ENTRY_SIZE, EXTENDED, LINUX,
    SECTOR,
};
use harptimber_tests::cards::image::Image;
use harptimber_tests::cards::layout::superblock::MAGIC;
use harptimber_tests::cards::layout::BLOCK_SIZE;
use harptimber_tests::cards::random::pick;
use harptimber_tests::program::card::{shared_card, LONG, ROAD};
use harptimber_tests::program::held::{Hold, Holder};
use harptimber_tests::program::json::Json;
use harptimber_tests::program::page::{expect_head, with_commas};
use harptimber_tests::program::special_build::SpecialBuild;
use harptimber_tests::program::{run, Ran, Word, Words};
use harptimber_tests::trial::Random;

const MIB: u64 = 1 << 20;

/// Where the disks here have their card: no multiple of a block, nor of a page.
const START: u32 = 2051;

fn start() -> u64 {
    u64::from(START) * SECTOR
}

fn card() -> Image {
    shared_card().card.image.clone()
}

/// As many sectors as the card has.
fn sectors() -> u32 {
    (card().bytes().len() as u64 / SECTOR) as u32
}

/// A partition as it is put on a disk: number, first byte, length, and whether a card is there.
type Put = (u32, u64, u64, bool);

fn puts_of(json: &Json) -> Vec<Put> {
    let put = |json: &Json| {
        let number = json["number"].number() as u32;
        let marked = json["marked"] == Json::Bool(true);
        (
            number,
            json["first"].number(),
            json["bytes"].number(),
            marked,
        )
    };
    json["partitions"].list().iter().map(put).collect()
}

/// What info says of a disk that is no card itself.
fn info_of(disk: &Disk, answer: u32) -> Json {
    let json = run(&[&"info", &"--json", &disk.path()]).expect(2).json();
    expect_head(&json, "info", answer);
    json
}

/// The table is told as it was put, by info and in the words of each command; only one partition is a card.
fn expect_table(disk: &Disk, kind: &str, answer: u32, puts: &[Put]) {
    let json = info_of(disk, answer);
    assert_eq!(json["table"].text(), kind);
    assert_eq!(puts_of(&json), puts);
    let each = |&(number, first, _, marked): &Put| {
        let mark = if marked { " with an F2FS mark" } else { "" };
        format!("{number} at byte {first}{mark}")
    };
    let list: Vec<String> = puts.iter().map(each).collect();
    let marked: Vec<u32> = puts.iter().filter(|put| put.3).map(|put| put.0).collect();
    let take = match marked[..] {
        [number] => format!("--partition {number} takes that one"),
        _ => "--partition N takes one".to_string(),
    };
    let hint = format!(
        "; the file is a disk with partitions ({kind}): {}; {take}",
        list.join(", ")
    );
    expect_hint(disk, answer, &hint);
}

/// A hint at the end of each command's words, and of the reason in its JSON.
fn expect_hint(disk: &Disk, answer: u32, hint: &str) {
    let path = disk.path();
    let lines: [Words; 5] = [
        &[&"info", &path],
        &[&"segments", &path],
        &[&"pull", &path, &ROAD, &"0"],
        &[&"node", &path, &"3"],
        &[&"cat", &path, &ROAD],
    ];
    for line in lines {
        let ran = run(line).expect(2);
        let text = format!("{}{}", ran.words(), ran.err);
        let ends = ["\n", "; nothing was written\n"].map(|end| format!("{hint}{end}"));
        assert!(
            ends.iter().any(|end| text.contains(end)),
            "no '{hint}' in {ran:?}"
        );
    }
    let output = disk.scratch.path("output");
    let lines: [Words; 5] = [
        &[&"info", &"--json", &path],
        &[&"segments", &"--json", &path],
        &[&"pull", &"--json", &path, &ROAD, &"0"],
        &[&"node", &"--json", &path, &"3"],
        &[&"cat", &"--json", &"-o", &output, &path, &ROAD],
    ];
    for line in lines {
        let json = run(line).expect(2).json();
        assert_eq!(json["answer"].number(), u64::from(answer));
        assert!(
            json["reason"].text().ends_with(hint),
            "no '{hint}' in {json:?}"
        );
    }
}

/// What a partition is must be what the card file is, by each command.
fn expect_card(disk: &Disk, part: &[&str], first: u64) {
    let card = shared_card();
    let (alone, path) = (card.disk.path(), disk.path());
    let words: Vec<&dyn Word> = part.iter().map(|word| word as &dyn Word).collect();
    for (name, index) in card.calls() {
        let [there, here] = [(&alone, &[][..]), (&path, &words[..])].map(|(path, part)| {
            let line: Words = &[&"pull", &"--json", &"--", path, &name, &index];
            run(&[part, line].concat())
        });
        let without_image = |ran: &Ran| {
            let json = ran.json();
            let keys = json.keys().into_iter().filter(|key| *key != "image");
            keys.map(|key| json[key].clone()).collect::<Vec<_>>()
        };
        assert_eq!(without_image(&here), without_image(&there));
        assert_eq!(here.status, there.status, "of {here:?}");
    }
    expect_card_at(disk, part, first);
}

/// The same by commands that need one run each.
fn expect_card_at(disk: &Disk, part: &[&str], first: u64) {
    let card = shared_card();
    let (alone, path) = (card.disk.path(), disk.path());
    let words: Vec<&dyn Word> = part.iter().map(|word| word as &dyn Word).collect();
    let bytes = card.file(LONG).bytes(&card.card.image);
    let cat = run(&[&words[..], &[&"cat", &path, &LONG]].concat()).expect(0);
    assert!(cat.out == bytes, "bytes of {part:?}");
    let ino = card.file(ROAD).ino;
    let nodes = [(&alone, &[][..]), (&path, &words[..])]
        .map(|(path, part)| run(&[part, &[&"node", path, &ino]].concat()).expect(0).out);
    assert_eq!(nodes[0], nodes[1]);
    let segments = run(&[&words[..], &[&"segments", &path]].concat()).expect(0);
    let line = "\n300 of 512 blocks valid in 1 segment (58.6 %), 0 of them empty\n";
    assert!(segments.words().ends_with(line), "of {segments:?}");
    let info = run(&[&words[..], &[&"info", &"--json", &path]].concat())
        .expect(0)
        .json();
    assert_eq!(info["offset"].number(), first);
}

/// One with partitions of each place: primary, logical, and none that is the first.
fn disk_with(extended: u8) -> (Disk, Vec<Put>) {
    let disk = Disk::new(96 * MIB);
    let size = sectors();
    let chain = START + size + 77;
    let primary = [
        EMPTY,
        entry(LINUX, START, size),
        entry(extended, chain, 60_000),
        entry(0x0C, 150_000, 10),
    ];
    disk.put_mbr(0, &primary);
    disk.put_mbr(
        u64::from(chain),
        &[entry(LINUX, 63, 1000), entry(extended, 2000, 9000)],
    );
    // One without a volume of its own leads on too.
    let next = u64::from(chain) + 2000;
    disk.put_mbr(next, &[EMPTY, entry(extended, 12_000, 9000)]);
    let last = u64::from(chain) + 12_000;
    disk.put_mbr(last, &[entry(LINUX, 1, 20)]);
    disk.put_card(start(), &card());
    let put = |number, first: u64, sectors: u64, marked| {
        (number, first * SECTOR, sectors * SECTOR, marked)
    };
    let puts = vec![
        put(2, START.into(), size.into(), true),
        put(4, 150_000, 10, false),
        put(5, u64::from(chain) + 63, 1000, false),
        put(6, last + 1, 20, false),
    ];
    (disk, puts)
}

#[test]
fn mbr() {
    for extended in EXTENDED {
        let (disk, puts) = disk_with(extended);
        expect_table(&disk, "MBR", 5, &puts);
    }
}

#[test]
fn cards_of_an_mbr() {
    let (disk, _) = disk_with(EXTENDED[0]);
    expect_card(&disk, &["--partition", "2"], start());
    let offset = start().to_string();
    expect_card(&disk, &["--offset", &offset], start());
    // A logical one.
    let chain = START - 63;
    disk.put_mbr(0, &[entry(EXTENDED[1], chain, 90_000), EMPTY, EMPTY, EMPTY]);
    disk.put_mbr(chain.into(), &[entry(LINUX, 63, sectors()), EMPTY]);
    expect_card(&disk, &["--partition=5"], start());
    for number in ["1", "2", "4", "6"] {
        let part = ["--partition", number];
        let hint =
            format!("no partition {number}; the file is a disk with partitions (MBR): 5 at byte ");
        refuse(&disk, &part, &hint);
    }
}

/// Where a card lies on a disk of 40 GiB: just before and just behind 4 GiB, and further behind.
const FAR_SECTORS: [u64; 3] = [(1 << 23) - 1, (1 << 23) + 1, (5 << 23) + 2051];

/// Bytes of which a number of 32 bits doesn't tell the place.
#[test]
fn far_cards_of_an_mbr() {
    for sector in FAR_SECTORS {
        let (disk, first) = (Disk::new(40 << 30), sector * SECTOR);
        disk.put_card(first, &card());
        disk.put_mbr(0, &[EMPTY, EMPTY, entry(LINUX, sector as u32, sectors())]);
        expect_table(
            &disk,
            "MBR",
            4,
            &[(3, first, u64::from(sectors()) * SECTOR, true)],
        );
        expect_card_at(&disk, &["--partition=3"], first);
        expect_card_at(&disk, &["--offset", &first.to_string()], first);
        // A logical one, by the second step of a chain.
        let chain = sector as u32 - 100;
        disk.put_mbr(0, &[EMPTY, EMPTY, entry(EXTENDED[1], chain, u32::MAX)]);
        disk.put_mbr(chain.into(), &[EMPTY, entry(EXTENDED[0], 37, 9)]);
        disk.put_mbr(u64::from(chain) + 37, &[entry(LINUX, 63, sectors())]);
        expect_card_at(&disk, &["--partition=5"], first);
    }
}

#[test]
fn far_cards_of_a_gpt() {
    for sector in FAR_SECTORS {
        let (disk, first) = (Disk::new(40 << 30), sector * SECTOR);
        disk.put_card(first, &card());
        let whole = gpt_entry(128, sector, sectors().into());
        disk.put_gpt(GptForm::USUAL, &[whole]);
        expect_card_at(&disk, &["--partition=128"], first);
        disk.spoil(SECTOR);
        let put = (128, first, u64::from(sectors()) * SECTOR, true);
        expect_table(&disk, "GPT, by its copy at the end", 4, &[put]);
        expect_card_at(&disk, &["--partition=128"], first);
    }
}

/// Why a part of a disk is refused, in JSON and in words.
fn expect_reason(disk: &Disk, part: &str, answer: u32, reason: &str) {
    let path = disk.path();
    let lines: [Words; 5] = [
        &[&"info", &path],
        &[&"ls", &path],
        &[&"segments", &path],
        &[&"pull", &path, &ROAD, &"0"],
        &[&"node", &path, &"3"],
    ];
    for line in lines {
        let json = run(&[&[&part as &dyn Word, &"--json"], line].concat());
        let json = json.expect(2).json();
        assert_eq!(json["answer"].number(), u64::from(answer), "in {json:?}");
        assert_eq!(json["reason"].text(), reason, "in {json:?}");
        let ran = run(&[&[&part as &dyn Word], line].concat()).expect(2);
        let end = format!(" (answer {answer}): {reason}\n");
        assert!(ran.words().contains(&end), "no '{reason}' in {ran:?}");
    }
}

/// Longer than a card may be. Nobody is told to take the partition that they took, or another where that has the mark.
#[test]
fn long_partitions() {
    let most = (16 << 30) / SECTOR;
    for sectors in [most, most + 7, most + 8, most + 16, (20 << 30) / SECTOR] {
        let disk = Disk::new(48 << 30);
        let card_at = entry(LINUX, START, sectors as u32);
        let other = entry(LINUX, START + sectors as u32, sectors as u32);
        disk.put_mbr(0, &[card_at, other]);
        disk.put_card(start(), &card());
        if sectors < most + 8 {
            expect_card_at(&disk, &["--partition=1"], start());
            continue;
        }
        let size = match sectors - most {
            8 => "16 GiB (17,179,873,280 bytes)",
            16 => "16 GiB (17,179,877,376 bytes)",
            _ => "20 GiB",
        };
        let reason = format!("the chosen part has {size}; at most 16 GiB is read");
        let shorter = "; --offset 1050112 takes the volume, which is shorter";
        expect_reason(&disk, "--partition=1", 4, &format!("{reason}{shorter}"));
        let behind = start() + sectors * SECTOR;
        let hint = format!(
            "; the file is a disk with partitions (MBR): 1 at byte {} with an F2FS mark, \
             2 at byte {behind}; --partition 1 takes that one",
            start()
        );
        expect_reason(&disk, "--partition=2", 4, &format!("{reason}{hint}"));
        expect_card_at(&disk, &["--offset=1050112"], start());
        // As a logical one.
        let chain = START - 63;
        disk.put_mbr(0, &[entry(EXTENDED[0], chain, u32::MAX), EMPTY]);
        disk.put_mbr(chain.into(), &[entry(LINUX, 63, sectors as u32)]);
        expect_reason(&disk, "--partition=5", 4, &format!("{reason}{shorter}"));
    }
}

/// A part that isn't there, for every command.
fn refuse(disk: &Disk, part: &[&str; 2], message: &str) {
    let (path, other) = (disk.path(), shared_card().disk.path());
    let lines: [Words; 6] = [
        &[&"info", &path],
        &[&"segments", &path],
        &[&"pull", &path, &ROAD, &"0"],
        &[&"cat", &path, &ROAD],
        &[&"node", &path, &"3"],
        &[&"compare", &path, &other, &ROAD],
    ];
    for line in lines {
        let line = [&[&part[0] as &dyn Word, &part[1]], line].concat();
        run(&line).expect_message(3, &["disk.img: ", message]);
    }
}

/// Both images of a compare are taken so.
#[test]
fn compare() {
    let card = shared_card();
    let disks = [0, 1].map(|_| disk_with(EXTENDED[0]).0);
    let [kept, new] = [disks[0].path(), disks[1].path()];
    let part: Words = &[&"compare", &"--partition", &"2"];
    run(&[part, &[&kept, &new, &LONG]].concat()).expect(0);
    let data = card.file(LONG).blocks[&925];
    disks[1].spoil(start() + u64::from(data) * BLOCK_SIZE as u64);
    run(&[part, &[&kept, &new, &LONG]].concat()).expect(1);
    run(&[part, &[&kept, &new, &ROAD]].concat()).expect(0);
    // One that hasn't the partition.
    let alone = card.disk.path();
    for line in [[&kept, &alone], [&alone, &kept]] {
        let line: Words = &[line[0], line[1], &ROAD];
        let message = "card.img: no partition 2; the file has no partition table\n";
        run(&[part, line].concat()).expect_message(3, &[message]);
    }
}

fn gpt_entry(number: u32, first: u64, sectors: u64) -> GptEntry {
    GptEntry {
        number,
        first,
        last: first + sectors - 1,
    }
}

#[test]
fn gpt() {
    let large = GptForm {
        sector: 4096,
        ..GptForm::USUAL
    };
    let other = GptForm {
        entry_size: 256,
        entries: 9,
        ..GptForm::USUAL
    };
    let road = shared_card().file(ROAD).bytes(&card());
    for form in [GptForm::USUAL, large, other] {
        let disk = Disk::new(96 * MIB);
        let puts = [
            (2, 40 * MIB, form.sector, false),
            (3, 3 * MIB, card().bytes().len() as u64, true),
            (9, 60 * MIB, 8 * form.sector, false),
        ];
        let entry =
            |(number, first, len, _)| gpt_entry(number, first / form.sector, len / form.sector);
        disk.put_gpt(form, &puts.map(entry));
        disk.put_card(3 * MIB, &card());
        expect_table(&disk, "GPT", 5, &puts);
        let cat: Words = &[&"cat", &"--partition", &"3", &disk.path(), &ROAD];
        assert!(run(cat).expect(0).out == road, "bytes of {form:?}");
        let message = "no partition 1; the file is a disk with partitions (GPT): 2 at byte ";
        refuse(&disk, &["--partition", "1"], message);
    }
}

#[test]
fn gpt_checksums() {
    assert_eq!(crc32(b"123456789"), 0xCBF4_3926);
    let whole = gpt_entry(1, START.into(), sectors().into());
    let put = (1, start(), card().bytes().len() as u64, true);
    // The mark, a reserved byte, where the table is, and the table's first and last byte.
    let header = [0, 7, 9, 12, 16, 20, 24, 72, 80, 84, 88, 91].map(|at| SECTOR + at);
    let table = [2 * SECTOR, 2 * SECTOR + 128 * 128 - 1];
    for at in header.into_iter().chain(table) {
        let disk = Disk::new(96 * MIB);
        disk.put_gpt(GptForm::USUAL, &[whole]);
        disk.put_card(start(), &card());
        disk.spoil(at);
        expect_table(&disk, "GPT, by its copy at the end", 5, &[put]);
        // The copy too, at its header.
        disk.spoil(disk.len - SECTOR + 16);
        let hint = "; the file is a disk with partitions (GPT), but the table is damaged";
        expect_hint(&disk, 5, hint);
        let json = info_of(&disk, 5);
        assert_eq!(puts_of(&json), []);
        refuse(
            &disk,
            &["--partition", "1"],
            &format!("no partition 1{hint}\n"),
        );
    }
}

/// Numbers that are too great for a file, or for what they count in; and an entry that ends before it begins.
#[test]
fn gpt_of_great_numbers() {
    let disk = Disk::new(4 * MIB);
    let gpt = |number, first, last| GptEntry {
        number,
        first,
        last,
    };
    let most = u64::MAX;
    let entries = [
        gpt(1, 100, most),
        gpt(2, most, most),
        gpt(3, 0, most),
        gpt(4, most / 512, most),
        gpt(5, 200, 100),
    ];
    disk.put_gpt(GptForm::USUAL, &entries);
    let puts = [
        (1, 100 * SECTOR, most, false),
        (2, most, SECTOR, false),
        (3, 0, most, false),
        (4, most / 512 * 512, most, false),
    ];
    expect_table(&disk, "GPT", 5, &puts);
    let behind = format!("partition 2 starts at byte {most}, behind the end of the file\n");
    refuse(&disk, &["--partition", "2"], &behind);
    refuse(&disk, &["--partition", "5"], "no partition 5; ");
    let info: Words = &[&"info", &"--json", &"--partition", &"1", &disk.path()];
    let json = run(info).expect(2).json();
    let rest = disk.len - 100 * SECTOR;
    assert_eq!(json["bytes"].number(), rest - rest % BLOCK_SIZE as u64);
}

/// An empty table, tables that are none, and a chain that goes round.
#[test]
fn odd_tables() {
    let disk = Disk::new(4 * MIB);
    disk.put_gpt(GptForm::USUAL, &[]);
    expect_hint(
        &disk,
        5,
        "; the file is a disk with partitions (GPT), but the table is empty",
    );
    let round = Disk::new(4 * MIB);
    round.put_mbr(0, &[entry(5, 10, 100)]);
    round.put_mbr(10, &[EMPTY, entry(5, 20, 100)]);
    round.put_mbr(30, &[EMPTY, entry(5, 20, 100)]);
    expect_hint(
        &round,
        5,
        "; the file is a disk with partitions (MBR), but the table is empty",
    );
    round.put_mbr(30, &[entry(LINUX, 1, 1), entry(5, 20, 100)]);
    let json = info_of(&round, 5);
    let numbers: Vec<u32> = puts_of(&json).iter().map(|put| put.0).collect();
    assert_eq!(numbers, (5..5 + numbers.len() as u32).collect::<Vec<_>>());
    assert!(!numbers.is_empty());
}

/// A volume of another kind whose first sector ends as an MBR does.
#[test]
fn no_tables() {
    let other: [(MbrEntry, &[(u64, u8)]); 4] = [
        (entry(LINUX, 1, 1), &[(0, 0x33)]),
        (entry(LINUX, 1, 1), &[(510, 0)]),
        (entry(LINUX, 1, 1), &[(511, 0)]),
        (EMPTY, &[]),
    ];
    for (entry, changes) in other {
        let disk = Disk::new(MIB);
        disk.put_mbr(0, &[entry]);
        for &(at, byte) in changes {
            let at = if at < ENTRY_SIZE { ENTRIES + at } else { at };
            disk.put(at, &[byte]);
        }
        expect_hint(
            &disk,
            5,
            "each copy: no F2FS mark; perhaps it is another file system",
        );
        let json = info_of(&disk, 5);
        assert!(json.get("table").is_none() && json.get("partitions").is_none());
        refuse(
            &disk,
            &["--partition", "1"],
            "no partition 1; the file has no partition table\n",
        );
    }
}

/// Partitions that begin or end behind the file's end, as on a copy that was cut short.
#[test]
fn cut_disks() {
    let (disk, _) = disk_with(EXTENDED[0]);
    let blocks = with_commas(card().bytes().len() / BLOCK_SIZE);
    disk.set_len(start() + 100 * BLOCK_SIZE as u64 + 5);
    let info: Words = &[&"info", &"--json", &"--partition", &"2", &disk.path()];
    let json = run(info).expect(2).json();
    expect_head(&json, "info", 5);
    let counts = format!("each copy: a volume of {blocks} blocks, but the image has only 100");
    assert_eq!(json["reason"].text(), counts, "in {json:?}");
    disk.set_len(start());
    let message = format!(
        "partition 2 starts at byte {}, behind the end of the file\n",
        start()
    );
    refuse(&disk, &["--partition", "2"], &message);
    refuse(&disk, &["--offset", &start().to_string()], "has no byte ");
    refuse(
        &disk,
        &["--offset", "9223372036854775807"],
        "has no byte 9223372036854775807: it has ",
    );
}

/// A card in a file that goes on behind it: odd bytes, or more than a card may have.
#[test]
fn offsets() {
    let card = shared_card();
    let road = card.file(ROAD).bytes(&card.card.image);
    for more in [1, 4095, 17 << 30] {
        let disk = Disk::new(7 + card.card.image.bytes().len() as u64 + more);
        disk.put_card(7, &card.card.image);
        let cat = run(&[&"cat", &"--offset", &"7", &disk.path(), &ROAD]).expect(0);
        assert!(cat.out == road, "with {more} bytes more");
        let info: Words = &[&"info", &"--json", &"--offset=7", &disk.path()];
        let json = run(info).expect(0).json();
        let rest = disk.len - 7;
        let whole = rest - rest % BLOCK_SIZE as u64;
        assert_eq!(json["bytes"].number(), whole.min(17_179_869_184));
    }
    let disk = Disk::new(3 * BLOCK_SIZE as u64);
    for (offset, blocks) in [(1, "2 blocks"), (4097, "1 block"), (12287, "0 blocks")] {
        let info: Words = &[&"info", &"--offset", &offset, &disk.path()];
        let ran = run(info).expect(2);
        let said = match blocks {
            "2 blocks" => "no F2FS mark".to_string(),
            _ => format!("the chosen part has {blocks} of 4,096 bytes; a card has at least 2"),
        };
        assert!(ran.words().contains(&said), "no '{said}' in {ran:?}");
    }
}

/// The second superblock alone has the mark.
#[test]
fn second_mark() {
    let (disk, mut puts) = disk_with(EXTENDED[0]);
    let mut image = card();
    image.set(0, MAGIC, 0);
    disk.put_card(start(), &image);
    expect_table(&disk, "MBR", 5, &puts);
    image.set(1, MAGIC, 0);
    disk.put_card(start(), &image);
    puts[0].3 = false;
    expect_table(&disk, "MBR", 5, &puts);
}

/// More than one partition with a mark: none of them is picked out.
#[test]
fn several_marks() {
    let (disk, mut puts) = disk_with(EXTENDED[0]);
    disk.put(puts[1].1 + 1024, &0xF2F5_2010_u32.to_le_bytes());
    puts[1].3 = true;
    expect_table(&disk, "MBR", 5, &puts);
}

/// An image that is too long for a card is told what it is too.
#[test]
fn long_disk() {
    let (disk, puts) = disk_with(EXTENDED[0]);
    disk.set_len(17 << 30);
    expect_table(&disk, "MBR", 4, &puts);
    disk.set_len(96 * MIB + 1);
    expect_table(&disk, "MBR", 4, &puts);
}

/// A disk that is changed or cut while its part is read.
#[test]
fn while_it_is_read() {
    let card = shared_card();
    let holder = Holder::shared();
    let first = 300 * BLOCK_SIZE as u64;
    let block = 300 + card.file(ROAD).blocks[&5];
    let hold = Hold { image: 0, block };
    let changes: [(&str, fn(&Disk)); 2] = [
        ("was changed while it was read\n", |disk| {
            disk.put(0, b"new")
        }),
        (
            "can't be read any more: it was cut short, or its medium fails\n",
            |disk| disk.set_len(0),
        ),
    ];
    for (message, change) in changes {
        let disk = Disk::new(96 * MIB);
        disk.put_mbr(0, &[entry(LINUX, 2400, sectors())]);
        disk.put_card(first, &card.card.image);
        std::thread::sleep(std::time::Duration::from_millis(20));
        let line: Words = &[&"pull", &"--partition", &"1", &disk.path(), &ROAD, &"5"];
        let ran = holder.run(line, hold, || change(&disk));
        ran.expect_message(2, &[&format!("disk.img: {message}")]);
    }
}

/// The bytes don't go over the disk that they are from.
#[test]
fn output_over_the_disk() {
    let (disk, _) = disk_with(EXTENDED[0]);
    let path: PathBuf = disk.path();
    let before = fs::metadata(&path).unwrap().modified().unwrap();
    let cat: Words = &[&"cat", &"--partition", &"2", &"-o", &path, &path, &ROAD];
    run(cat).expect_message(2, &["is the card image itself\n"]);
    assert_eq!(fs::metadata(&path).unwrap().modified().unwrap(), before);
}

/// A small disk with a random table, of which some bytes are changed.
fn random_disk(random: &mut Random) -> Disk {
    let disk = Disk::new(64 * 1024 + random.below(5000));
    let near = random.below(140) as u32;
    if random.below(3) == 0 {
        let form = GptForm {
            sector: pick(random, &[512, 4096]),
            ..GptForm::USUAL
        };
        let last = pick(random, &[7, 100, u64::MAX]);
        let entry = GptEntry {
            number: 1,
            first: near.into(),
            last,
        };
        disk.put_gpt(form, &[entry]);
    } else {
        let kind = pick(random, &[LINUX, 0x05, 0x0F, 0xEE]);
        let primary = [entry(kind, near, u32::MAX), entry(LINUX, u32::MAX, near)];
        disk.put_mbr(0, &primary);
        disk.put_mbr(near.into(), &[entry(LINUX, near, 1), entry(0x05, near, 1)]);
    }
    for _ in 0..random.below(3) {
        let at = pick(random, &[446, 510, 512, 1024]) + random.below(100);
        disk.put(at, &random.bytes(1));
    }
    disk
}

/// Under the compiler's sanitizers.
#[test]
fn sanitized() {
    let build = SpecialBuild::sanitized();
    let random = &mut Random::new(5);
    for _ in 0..40 {
        let disk = random_disk(random);
        let parts = [
            "--partition=1",
            "--partition=2",
            "--partition=5",
            "--offset=65000",
        ];
        let info = build.run(&[&"info", &disk.path()]);
        assert_eq!(info.status, 2, "of {info:?}");
        for part in parts {
            let info = build.run(&[&"info", &"--json", &part, &disk.path()]);
            assert!([2, 3].contains(&info.status), "of {info:?}");
        }
    }
}

/// What is planted is seen: a disk that ends before the program is told.
#[test]
fn sanitizers_see() {
    let build = SpecialBuild::sanitized();
    let disk = Disk::new(8192);
    disk.put_mbr(0, &[entry(LINUX, 1, 1)]);
    for less in [8192 - 511, 8192 - 1024 - 4096, 1] {
        let mut info = build.command(&[&"info", &disk.path()]);
        let info = info.env("IN_HEAP_LESS", less.to_string());
        let ran = harptimber_tests::program::ran(info, std::process::Stdio::piped());
        let seen = ran.err.contains("AddressSanitizer");
        assert_eq!(seen, less != 1, "with {less} bytes less: {ran:?}");
    }
}

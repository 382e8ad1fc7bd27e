//! `harptimber segments`: what it says of cards whose SIT entries are known, against what was put there.

use std::path::PathBuf;
use std::process::Command;

use harptimber_tests::calls::segments::reported;
use harptimber_tests::cards::damage::Damage;
use harptimber_tests::cards::image::Image;
use harptimber_tests::cards::knobs::{Knobs, Pack};
use harptimber_tests::cards::layout::checkpoint::VALID_BLOCK_COUNT;
use harptimber_tests::cards::layout::sit::{SitEntry, VER_BITMAP_BYTES};
use harptimber_tests::cards::layout::sit_journal::{SitJournalEntry, IN_COMPACT_BLOCK, N_SITS};
use harptimber_tests::cards::on_disk::OnDisk;
use harptimber_tests::cards::random::pick;
use harptimber_tests::cards::random_segments::{in_use, random_segments, RandomSegments};
use harptimber_tests::cards::segments::{SegmentCard, Sit};
use harptimber_tests::cards::versions::CHOSEN;
use harptimber_tests::program::json::Json;
use harptimber_tests::program::page::{expect_head, meaning_with_reason, status_of};
use harptimber_tests::program::segments::{hint, Segment, Segments};
use harptimber_tests::program::special_build::SpecialBuild;
use harptimber_tests::program::{
    self, on_terminal, run, run_on_terminal, run_on_terminal_after, Ran, Words,
};
use harptimber_tests::sizes::{CARD_BLOCKS_MOST, SEGMENTS_MOST};
use harptimber_tests::tools::outside::CardFile;
use harptimber_tests::tools::published::{self, contents, filled_with, formatted, Scratch};
use harptimber_tests::trial::Random;

/// A card with so many main segments and zeros in its SIT: each is empty, and counts nothing.
fn card_of(segments: u32) -> Knobs {
    Knobs::sound().with_segments(segments)
}

/// A card on which the entries are put as they should be told.
struct Put {
    disk: OnDisk,
    sit: Sit,
    segments: Segments,
}

impl Put {
    fn new(knobs: &Knobs) -> Put {
        let image = Image::new(knobs);
        let sit = Sit::of(&image);
        let place = |segno| image.sit_place(segno, sit.copy_of(segno));
        let empty = |segno| Segment::of(&SitEntry::filled(0), false, place(segno).0);
        let segments = Segments((0..knobs.main_segments).map(empty).collect());
        let disk = OnDisk::new(image);
        Put {
            disk,
            sit,
            segments,
        }
    }

    /// With random entries in the table and in the journal.
    fn random(random: &mut Random, knobs: Knobs) -> Put {
        let RandomSegments {
            card: SegmentCard { image, sit },
            table,
            journal,
        } = random_segments(random, knobs);
        let told = |(segno, (entry, journalled)): (u32, (SitEntry, bool))| {
            let (block, _) = match journalled {
                true => sit.journal,
                false => image.sit_place(segno, sit.copy_of(segno)),
            };
            Segment::of(&entry, journalled, block)
        };
        let segments = (0..).zip(in_use(&table, &journal)).map(told);
        Put {
            segments: Segments(segments.collect()),
            disk: OnDisk::new(image),
            sit,
        }
    }

    /// Puts the entry of a segment, in the copy that is in use.
    fn put(&mut self, segno: u32, entry: &SitEntry) {
        let image = &mut self.disk.image;
        let copy = self.sit.copy_of(segno);
        image.set_sit_entry(segno, copy, entry);
        let (block, _) = image.sit_place(segno, copy);
        self.segments.0[segno as usize] = Segment::of(entry, false, block);
    }

    /// Gives the journal a count, in the file too.
    fn set_journal_count(&mut self, count: u64) {
        let (block, field) = self.sit.journal_count();
        self.disk.image.set(block, field, count);
        self.disk.write_blocks(&[block]);
    }

    /// Writes it, and says that the program tells it so.
    fn expect(&self) -> Ran {
        self.disk.image.save(&self.disk.path());
        self.segments.expect(&self.disk.path())
    }
}

/// The words of a small card, in full.
#[test]
fn words() {
    let mut card = Put::new(&card_of(48));
    for segment in 0..20 {
        card.put(segment, &SitEntry::filled(512));
    }
    let path = card.disk.path().display().to_string();
    let fill = "10,240 of 24,576 blocks valid in 48 segments (41.7 %), 28 of them empty\n";
    let none = format!("{path}: can be read (answer 0): no segment is off\n{fill}");
    assert_eq!(card.expect().words(), none);
    card.put(7, &SitEntry::counted(1023, 512));
    card.put(19, &SitEntry::counted(1, 512));
    let two = format!(
        "{path}: can be read (answer 0): 2 segments are off
  segment 7 counts 1,023 valid blocks, its map marks 512 (SIT table, block 1026)
  segment 19 counts 1 valid block, its map marks 512 (SIT table, block 1026)
off: by its valid count F2FS knows how full a segment is, by its map which blocks are in use; they disagree
a count that is too high makes the card seem fuller than it is
a count that is too low can make blocks in use seem free: nothing should be written before it is put right
fsck.f2fs -f counts anew; it writes to the card, so keep a copy
{fill}"
    );
    assert_eq!(card.expect().words(), two);
}

/// Ten are told in words, and the eleventh isn't.
#[test]
fn many() {
    let mut card = Put::new(&card_of(30));
    for (n, lines) in (0..30).zip([1, 2, 3, 4, 5, 6, 7, 8, 9, 10, 11, 11, 11]) {
        let entry = SitEntry::counted(n, u32::from(n) + 1);
        card.put(29 - 2 * u32::from(n) % 29, &entry);
        let ran = card.expect();
        let told = ran.words().lines().filter(|line| line.starts_with("  "));
        assert_eq!(told.count(), lines, "of {ran:?}");
    }
}

/// Counts beside the ones of maps from none to all, whatever the type and the time are.
#[test]
fn counts() {
    let mut card = Put::new(&card_of(60));
    let ones = [0, 1, 255, 256, 257, 511, 512];
    let near = |ones: u16| [ones.saturating_sub(1), ones, ones + 1, 0, 512, 1023];
    let pairs = ones
        .into_iter()
        .flat_map(|ones| near(ones).map(|count| (count, ones)));
    for (n, (count, ones)) in (0u16..).zip(pairs) {
        let entry = SitEntry {
            seg_type: n % 64,
            mtime: n.into(),
            ..SitEntry::counted(count, ones.into())
        };
        card.put(n.into(), &entry);
    }
    card.expect();
    assert!(card.segments.off().len() > 20);
}

#[test]
fn random_cards() {
    let mut random = Random::new(51);
    let mut off = 0;
    for round in 0..24 {
        let pack = Pack::kinds()[round % 4].clone();
        let knobs = Knobs {
            sit_segments: 2 * (1 + round as u32 % 2),
            main_segments: pick(&mut random, &[3, 55, 56, 111]),
            segment0: pick(&mut random, &[2, 512]),
            ..Knobs::sound()
        };
        let knobs = knobs.with_pack(round / 4 % 2, pack);
        let card = Put::random(&mut random, knobs);
        card.expect();
        off += card.segments.off().len();
    }
    println!("segments of random cards: 24 inputs compared, {off} off");
    assert!(off > 150);
}

/// A card with two packs, each with copies of its own in its map and a segment of its own in its journal; and its
/// segments as the pack in use has them.
fn with_two_packs(versions: [u64; 2], used: usize) -> (Image, Segments) {
    let in_table = |segno, copy| SitEntry::counted(300, 10 * segno + copy);
    let in_journal = SitEntry::counted(100, 200);
    let pack = |which: usize| Pack {
        sit_map: vec![[0x00, 0xFF][which]],
        sit_journal: Some(vec![SitJournalEntry {
            segno: which as u32,
            entry: in_journal,
        }]),
        ..Pack::compact(versions[which])
    };
    let mut image = Image::new(&Knobs {
        packs: [0, 1].map(|which| Some(pack(which))),
        ..card_of(3)
    });
    for segno in 0..3 {
        for copy in 0..2 {
            image.set_sit_entry(segno, copy, &in_table(segno, copy));
        }
    }
    let told = |segno| {
        if segno as usize == used {
            return Segment::of(&in_journal, true, image.first_block(used) + 1);
        }
        let copy = used as u32;
        let (block, _) = image.sit_place(segno, copy);
        Segment::of(&in_table(segno, copy), false, block)
    };
    let segments = Segments((0..3).map(told).collect());
    (image, segments)
}

/// Segments are told as the pack in use has them, and so is a journal that counts more entries than are read.
#[test]
fn pack_in_use() {
    let count = |which: usize| 7 + which as u64;
    for (versions, used) in CHOSEN {
        let (image, segments) = with_two_packs(versions, used);
        let mut disk = OnDisk::new(image);
        let path = disk.path();
        for which in [1 - used, used] {
            segments.expect(&path);
            let journal = disk.image.first_block(which) + 1;
            let field = N_SITS.moved(IN_COMPACT_BLOCK);
            disk.image.set(journal, field, count(which));
            disk.write_blocks(&[journal]);
        }
        let json = run(&[&"segments", &"--json", &path]).expect(2).json();
        expect_head(&json, "segments", 8);
        let reason = format!(
            "the SIT journal counts {} entries, at most 6 fit",
            count(used)
        );
        assert_eq!(json["reason"].text(), reason, "{versions:?}");
    }
}

/// Nothing to show by bars.
#[test]
fn no_main_segments() {
    let card = Put::new(&card_of(0));
    let ran = card.expect();
    let last = "0 of 0 blocks valid in 0 segments (0.0 %), 0 of them empty";
    assert_eq!(ran.words().lines().last(), Some(last));
    let on_terminal = run_on_terminal(&[&"segments", &card.disk.path()], None).expect(0);
    assert_eq!(on_terminal.words(), ran.words());
}

/// The largest card: as many main segments as there can be, fuller and fuller and each of them off, in either copy of
/// 149 table blocks; and a journal that names one more.
fn largest() -> Put {
    let pack = Pack {
        sit_map: Random::new(9).bytes(VER_BITMAP_BYTES),
        ..Pack::compact(1)
    };
    let of = |segments| Knobs {
        ssa_segments: 0,
        ..card_of(segments).with_pack(0, pack.clone())
    };
    assert!(of(SEGMENTS_MOST + 1).image_blocks() > CARD_BLOCKS_MOST);
    let mut card = Put::new(&of(SEGMENTS_MOST));
    for segment in 0..SEGMENTS_MOST {
        let ones = 512 * segment / (SEGMENTS_MOST - 1);
        card.put(segment, &SitEntry::counted(ones as u16 + 1, ones));
    }
    let behind = SitJournalEntry {
        segno: SEGMENTS_MOST,
        entry: SitEntry::counted(1, 0),
    };
    let (block, at) = card.sit.journal;
    card.disk.image.put_sit_journal(block, at, &[behind; 6]);
    card
}

#[test]
fn largest_card() {
    let card = largest();
    let words = card.expect();
    let lines: Vec<&str> = words.words().lines().collect();
    assert!(lines[0].ends_with(": can be read (answer 0): 8,185 segments are off"));
    assert_eq!(lines[11], "  8,175 more segments; --json has all");
    let last = "2,091,272 of 4,190,720 blocks valid in 8,185 segments (49.9 %), 16 of them empty";
    assert_eq!(lines.last(), Some(&last), "of {words:?}");
    let build = SpecialBuild::sanitized();
    let path = card.disk.path();
    let json = build.run(&[&"segments", &"--json", &path]).expect(1).json();
    card.segments.expect_json(&json);
    let sanitized = build.run(&[&"segments", &path]).expect(1);
    assert_eq!(sanitized.words(), words.words());
    expect_bars(&card, words.words());
}

/// As many segments a column as it takes; also under the compiler's sanitizers.
fn expect_bars(card: &Put, words: &str) {
    let line: Words = &[&"segments", &card.disk.path()];
    let commands = [
        program::command(line),
        SpecialBuild::sanitized().command(line),
    ];
    let in_80_columns = "a column is 105 segments, blank if empty, # if full\n\
        [...........:::::::::::-----------============+++++++++++***********%%%%%%%%%%%]\n";
    assert_eq!(card.segments.bars(80, PLAIN), in_80_columns);
    for (columns, bars) in [(3, PLAIN), (80, PLAIN), (81, BLOCKS), (9000, BLOCKS)] {
        let locale = if bars == PLAIN { "C" } else { "C.UTF-8" };
        let setting = format!("stty cols {columns}; LC_ALL={locale}");
        for command in &commands {
            let ran = on_terminal(&setting, command, None).expect(1);
            let lines = card.segments.bars(columns, bars);
            assert_eq!(ran.words(), format!("{words}{lines}"));
        }
    }
}

/// What dump.f2fs says of each segment: how many valid blocks it counts.
fn dumped(path: &PathBuf) -> Vec<u32> {
    let folder = path.parent().unwrap();
    let mut dump = Command::new("dump.f2fs");
    published::run(dump.args(["-s", "0~-1"]).arg(path).current_dir(folder));
    let dump = std::fs::read_to_string(folder.join("dump_sit")).unwrap();
    let counts = dump.lines().filter_map(|line| {
        let (_, rest) = line.split_once("vblocks:")?;
        rest.split_whitespace().next()?.parse().ok()
    });
    counts.collect()
}

/// Cards as the tools wrote them: as they come out of mkfs.f2fs, most entries are in the journal.
fn published_cards() -> [Image; 2] {
    let mut random = Random::new(5);
    let files = [("a", 3_000_000), ("b", 500_000), ("c", 10)];
    let files = files.map(|(name, size)| (name.into(), contents(&mut random, size)));
    [formatted(64, ""), filled_with(100, "", &files)]
}

#[test]
fn published() {
    for image in published_cards() {
        expect_published(&image, &CardFile::of(&image).path());
    }
}

/// A card as it came from the tools, at this path.
pub(crate) fn expect_published(image: &Image, path: &PathBuf) {
    let json = run(&[&"segments", &"--json", path]).expect(0).json();
    expect_head(&json, "segments", 0);
    let valid = image.get(image.first_block(0), VALID_BLOCK_COUNT);
    let counts = dumped(path);
    assert_eq!(json["valid_blocks"].number(), valid);
    assert_eq!(u64::from(counts.iter().sum::<u32>()), valid);
    assert_eq!(json["segments"].number(), counts.len() as u64);
    let empty = counts.iter().filter(|&&count| count == 0).count();
    assert_eq!(json["empty"].number(), empty as u64);
    assert_eq!(json["off"].list().len(), 0);
}

/// Which way segments are off is told, and what the program advises helps.
fn expect_help(path: &PathBuf, high: bool, low: bool) {
    let advised = run(&[&"segments", path]).expect(1);
    assert!(advised.words().contains(&hint(high, low)), "of {advised:?}");
    let mut fsck = Command::new("fsck.f2fs");
    published::ran(fsck.arg("-f").arg(path));
    run(&[&"segments", path]).expect(0);
}

/// One that the table has; the last one is empty.
#[test]
fn published_and_damaged() {
    for mut image in published_cards() {
        let last = Sit::of(&image).main_segments - 1;
        let sound = image.sit_entry(last, 0);
        image.set_sit_entry(last, 0, &SitEntry { count: 13, ..sound });
        let card = CardFile::of(&image);
        let path = card.path();
        let json = run(&[&"segments", &"--json", &path]).expect(1).json();
        expect_head(&json, "segments", 0);
        assert_eq!(json["count"].number(), 1);
        let [off] = json["off"].list() else {
            panic!("{json:?}");
        };
        let keys = ["segment", "valid_count", "ones", "block"];
        let numbers = keys.map(|key| off[key].number() as u32);
        assert_eq!(numbers, [last, 13, 0, image.sit_place(last, 0).0]);
        assert_eq!(off["journal"], Json::Bool(false));
        expect_help(&path, true, false);
    }
}

/// One with files in it that counts nothing, and then one more that counts too much.
#[test]
fn published_and_too_low() {
    let [_, mut image] = published_cards();
    let last = Sit::of(&image).main_segments - 1;
    let full = (0..last).find(|&segno| image.sit_entry(segno, 0).ones() > 100);
    let full = full.expect("a segment with files in it");
    for (segno, count, high) in [(full, 0, false), (last, 1, true)] {
        let sound = image.sit_entry(segno, 0);
        image.set_sit_entry(segno, 0, &SitEntry { count, ..sound });
        expect_help(&CardFile::of(&image).path(), high, true);
    }
}

/// More entries than are read: only this command refuses the card, and says why.
#[test]
fn journal_counts() {
    for pack in Pack::kinds() {
        let mut card = Put::new(&card_of(3).with_pack(0, pack));
        let path = card.disk.path();
        for count in [0, 1, 6, 7, 8, 255, 256, 65535] {
            card.set_journal_count(count);
            let answer = if count <= 6 { 0 } else { 8 };
            let status = status_of(answer);
            let json = run(&[&"segments", &"--json", &path]).expect(status).json();
            expect_head(&json, "segments", answer);
            let reason = format!("the SIT journal counts {count} entries, at most 6 fit");
            let told = json.get("reason").map(Json::text);
            assert_eq!(told, (count > 6).then_some(reason.as_str()));
            let ran = run(&[&"segments", &path]).expect(status);
            let causes = json.get("causes").map(Json::list);
            let cause = Json::Text("sit_journal_count".to_string());
            assert_eq!(causes, (count > 6).then_some(&[cause][..]));
            let meaning = meaning_with_reason("segments", 8);
            let words = format!(": {meaning} (answer 8): {reason}\n");
            assert_eq!(ran.words().ends_with(&words), count > 6, "of {ran:?}");
            assert_eq!(ran.words().lines().count() == 1, count > 6, "of {ran:?}");
            let info = run(&[&"info", &"--json", &path]).expect(0).json();
            expect_head(&info, "info", 0);
        }
    }
}

const BLOCKS: [char; 9] = [' ', '▁', '▂', '▃', '▄', '▅', '▆', '▇', '█'];
const PLAIN: [char; 9] = [' ', '.', ':', '-', '=', '+', '*', '%', '#'];

/// A card with each height of a bar, and one block away from empty and full.
fn stepped(segments: u32) -> Put {
    let mut card = Put::new(&card_of(segments));
    let ones = [
        0, 1, 73, 74, 146, 147, 219, 220, 292, 293, 365, 366, 438, 439, 511, 512,
    ];
    for segment in 0..segments {
        let ones = ones[segment as usize % ones.len()];
        card.put(segment, &SitEntry::filled(ones));
    }
    card
}

/// The bars, segment by segment, as they look.
#[test]
fn bars() {
    let card = stepped(16);
    let words = card.expect();
    let path = card.disk.path();
    for (locale, full, line) in [
        ("C.UTF-8", "█", "[ ▁▁▂▂▃▃▄▄▅▅▆▆▇▇█]"),
        ("C", "#", "[ ..::--==++**%%#]"),
        ("no_SUCH.locale", "#", "[ ..::--==++**%%#]"),
    ] {
        let setting = format!("LC_ALL={locale}");
        let ran = run_on_terminal_after(&setting, &[&"segments", &path], None).expect(0);
        let legend = format!("a column is 1 segment, blank if empty, {full} if full");
        assert_eq!(ran.words(), format!("{}{legend}\n{line}\n", words.words()));
    }
}

/// As many segments a column as it takes, and 80 columns where the terminal doesn't say.
#[test]
fn widths() {
    for segments in [1, 8, 78, 79, 100] {
        let card = stepped(segments);
        let words = card.expect();
        let path = card.disk.path();
        for columns in [3, 4, 10, 80, 81, 102, 200] {
            for (locale, bars) in [("C.UTF-8", BLOCKS), ("C", PLAIN)] {
                let setting = format!("stty cols {columns}; LC_ALL={locale}");
                let ran = run_on_terminal_after(&setting, &[&"segments", &path], None).expect(0);
                let lines = card.segments.bars(columns, bars);
                assert_eq!(ran.words(), format!("{}{lines}", words.words()));
            }
        }
        for unknown in [0, 1, 2] {
            let setting = format!("stty cols {unknown}; LC_ALL=C");
            let ran = run_on_terminal_after(&setting, &[&"segments", &path], None).expect(0);
            let lines = card.segments.bars(80, PLAIN);
            assert_eq!(ran.words(), format!("{}{lines}", words.words()));
        }
    }
}

/// None where the words go to a file, in JSON, and of what is refused.
#[test]
fn no_bars() {
    let mut card = stepped(16);
    let words = card.expect();
    let path = card.disk.path();
    let output = card.disk.scratch.path("output");
    run_on_terminal(&[&"segments", &path], Some(&output)).expect(0);
    assert_eq!(std::fs::read(&output).unwrap(), words.out);
    let json = run_on_terminal(&[&"segments", &"--json", &path], None).expect(0);
    card.segments.expect_json(&json.json());
    card.set_journal_count(7);
    let refused = run_on_terminal(&[&"segments", &path], None).expect(2);
    assert_eq!(refused.words().lines().count(), 1, "of {refused:?}");
}

/// What the program finds has to lead to the library's answer: on a card that opens, all is told.
fn expect_agreement(image: &Image, ran: &Ran) -> u32 {
    let (there, answer) = reported(image);
    let json = ran.json();
    expect_head(&json, "segments", answer);
    let off = json["off"].list();
    assert_eq!(json["count"].number(), off.len() as u64, "{json:?}");
    let status = if off.is_empty() { status_of(answer) } else { 1 };
    assert_eq!(ran.status, status, "of {ran:?} on {image:?}");
    assert_eq!(json.get("reason").is_some(), answer != 0, "{json:?}");
    let segments = json.get("segments").map(Json::number);
    let there = (answer == 0).then_some(u64::from(there));
    assert_eq!(segments, there, "{json:?} on {image:?}");
    for off in off {
        assert!(
            off["valid_count"].number() != off["ones"].number(),
            "{json:?}"
        );
    }
    answer
}

/// Damages a card so many times, in what it is opened by and in its SIT. Returns each answer.
fn damage(card: Put, random: &mut Random, damages: u32, run: impl Fn(Words) -> Ran) -> Vec<u32> {
    let (sit, mut disk) = (card.sit, card.disk);
    let opening = Damage::of(&disk.image);
    let mut blocks = vec![0, 1, sit.journal.0];
    for which in 0..2 {
        blocks.extend((0..16).map(|block| disk.image.first_block(which) + block));
        blocks.extend([0, 57].map(|segno| disk.image.sit_place(segno, which as u32).0));
    }
    let each = (0..damages).map(|_| {
        for _ in 0..1 + random.below(3) {
            match random.below(2) {
                0 => opening.strike(&mut disk.image, random),
                _ => sit.strike(&mut disk.image, random),
            }
        }
        disk.write_blocks(&blocks);
        let ran = run(&[&"segments", &"--json", &disk.path()]);
        let answer = expect_agreement(&disk.image, &ran);
        run(&[&"segments", &disk.path()]).expect(ran.status);
        disk.image.undo(0);
        answer
    });
    each.collect()
}

/// Cards with each kind of pack, and with one of these numbers of main segments each.
fn damage_cards(random: &mut Random, segments: &[u32], damages: u32, run: impl Fn(Words) -> Ran) {
    let mut answers = Vec::new();
    for (kind, pack) in Pack::kinds().into_iter().enumerate() {
        for which in 0..2 {
            let segments = segments[(kind + which) % segments.len()];
            let knobs = card_of(segments).with_pack(which, pack.clone());
            let card = Put::random(random, knobs);
            answers.extend(damage(card, random, damages, &run));
        }
    }
    let seen = [0, 5, 6, 7, 8].map(|answer| answers.iter().filter(|&&seen| seen == answer).count());
    let all = answers.len();
    println!("segments of damaged cards: {all} inputs compared, answers {seen:?}");
    assert!(seen.iter().all(|&count| count > 0), "{seen:?}");
}

#[test]
fn damaged_cards() {
    let random = &mut Random::new(61);
    damage_cards(random, &[1, 3, 58], 80, |words| run(words));
}

/// The larger card only as it is: it takes its time to be read.
#[test]
fn damaged_cards_sanitized() {
    let build = SpecialBuild::sanitized();
    let random = &mut Random::new(62);
    damage_cards(random, &[1, 3], 20, |words| build.run(words));
    let mut card = Put::new(&card_of(57));
    card.put(56, &SitEntry::counted(1, 2));
    card.expect();
    build.run(&[&"segments", &card.disk.path()]).expect(1);
}

/// Images that are cut anywhere.
#[test]
fn cut_cards_sanitized() {
    let build = SpecialBuild::sanitized();
    let card = Put::new(&card_of(3));
    let path = card.disk.path();
    let sit = u64::from(card.disk.image.areas.sit) * 4096;
    for len in [sit + 4096, sit + 74, sit, 8193, 8192, 5120, 4096, 1] {
        let file = std::fs::File::options().write(true).open(&path);
        file.unwrap().set_len(len).unwrap();
        let answer = if len % 4096 == 0 && len >= 8192 { 5 } else { 4 };
        let json = build.run(&[&"segments", &"--json", &path]).expect(2).json();
        expect_head(&json, "segments", answer);
        build.run(&[&"segments", &path]).expect(2);
    }
}

/// Where the library says something else, its numbers are told and nothing beside them.
#[test]
fn library_against_words() {
    let build = SpecialBuild::with_any_answer();
    let mut card = Put::new(&card_of(3));
    card.put(1, &SitEntry::counted(9, 8));
    card.put(2, &SitEntry::filled(300));
    card.expect();
    let path = card.disk.path();
    for (list, valid, agrees) in [
        ("1", "308", true),
        ("", "308", false),
        ("1", "307", false),
        ("2", "308", false),
        ("0 1", "308", false),
        ("1 2", "308", false),
        ("4294967295", "308", false),
        ("0 1 2 3 4 5 6 7 8 9 10 11", "4294967295", false),
    ] {
        let told: Vec<u32> = list
            .split_whitespace()
            .map(|word| word.parse().unwrap())
            .collect();
        let variables = [
            ("ANY_ANSWER", "0"),
            ("ANY_LIST", list),
            ("ANY_VALID", valid),
        ];
        let run = |words: Words| {
            let ran = build.run_with(&variables, words);
            ran.expect(i32::from(!told.is_empty()))
        };
        let json = run(&[&"segments", &"--json", &path]).json();
        expect_bare_json(&json, &told, valid, agrees);
        expect_bare_words(&run(&[&"segments", &path]), &told, valid, agrees);
    }
}

fn expect_bare_json(json: &Json, told: &[u32], valid: &str, agrees: bool) {
    expect_head(json, "segments", 0);
    assert_eq!(json["valid_blocks"].number().to_string(), valid);
    let off = json["off"].list();
    let numbers = off.iter().map(|off| off["segment"].number() as u32);
    assert_eq!(numbers.collect::<Vec<_>>(), told);
    for key in ["valid_count", "ones", "journal", "block"] {
        let there = off.iter().all(|off| off.get(key).is_some() == agrees);
        assert!(there, "'{key}' in {json:?}");
    }
    for key in ["segments", "empty"] {
        assert_eq!(json.get(key).is_some(), agrees, "'{key}' in {json:?}");
    }
}

fn expect_bare_words(ran: &Ran, told: &[u32], valid: &str, agrees: bool) {
    let words = ran.words();
    for number in told.iter().take(10) {
        let bare = words.contains(&format!("\n  segment {number}\n"));
        assert_eq!(bare, !agrees, "of {ran:?}");
    }
    let last = words.lines().last().unwrap();
    let plain = last.replace(',', "");
    assert_eq!(
        plain == format!("{valid} valid blocks"),
        !agrees,
        "of {ran:?}"
    );
    assert_eq!(words.contains('%'), agrees, "of {ran:?}");
    let more = words.contains("  2 more segments; --json has all\n");
    assert_eq!(more, told.len() == 12, "of {ran:?}");
    // Which way they are off isn't known then.
    let both = words.contains(&hint(true, true));
    assert_eq!(both, !agrees && !told.is_empty(), "of {ran:?}");
}

/// Also where the program sees no card at all.
#[test]
fn library_against_no_card() {
    let build = SpecialBuild::with_any_answer();
    let scratch = Scratch::new();
    let path = scratch.path("zeros.img");
    for len in [1, 4096, 8192, 1 << 20] {
        std::fs::write(&path, vec![0; len]).unwrap();
        let variables = [("ANY_ANSWER", "0"), ("ANY_LIST", "7"), ("ANY_VALID", "2")];
        let ran = build.run_with(&variables, &[&"segments", &path]).expect(1);
        expect_bare_words(&ran, &[7], "2", false);
    }
}

/// A refusal that the program finds no reason for.
#[test]
fn refused_against_words() {
    let build = SpecialBuild::with_any_answer();
    let card = Put::new(&card_of(2));
    for answer in [4, 5, 6, 7, 8] {
        let any_answer = [("ANY_ANSWER", &*answer.to_string())];
        let run = |words: Words| build.run_with(&any_answer, words).expect(2);
        let path = card.disk.path();
        let json = run(&[&"segments", &"--json", &path]).json();
        expect_head(&json, "segments", answer);
        for key in ["reason", "segments", "empty"] {
            assert!(json.get(key).is_none(), "'{key}' in {json:?}");
        }
        let words = run(&[&"segments", &path]);
        let end = format!("(answer {answer})\n");
        assert!(words.words().ends_with(&end), "of {words:?}");
    }
}

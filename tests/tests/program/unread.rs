//! Cards whose checkpoint pack in use isn't read: what is behind answer 8, in words and in JSON, for every command that opens a
//! card.

use std::path::PathBuf;

use harptimber_tests::cards::image::Image;
use harptimber_tests::cards::knobs::{Knobs, Pack};
use harptimber_tests::cards::layout::checkpoint::*;
use harptimber_tests::cards::layout::journal::{self, names_one_twice, JournalEntry, MOST_ENTRIES};
use harptimber_tests::cards::layout::nat::NatEntry;
use harptimber_tests::cards::on_disk::OnDisk;
use harptimber_tests::cards::random::pick;
use harptimber_tests::node_lookup;
use harptimber_tests::program::json::Json;
use harptimber_tests::program::page::{
    expect_head, meaning, meaning_with_reason, status_of, CAUSES,
};
use harptimber_tests::program::special_build::SpecialBuild;
use harptimber_tests::program::{run, Ran, Words};
use harptimber_tests::trial::Random;

const NAME: &[u8] = b"road.bin";

const ERROR_WORDS: &str = "its error flag (0x8) is set";
const FSCK_WORDS: &str = "its fsck flag (0x10) is set: the card needs a check";
const LARGE_WORDS: &str = "large_nat_bitmap is set, which isn't read";

/// What fsck.f2fs does, of an error flag alone and where the card needs a check.
const HINT_OF_ERROR: &str =
    "; fsck.f2fs -f clears it only if it finds something to mend; it writes to the card then, so keep a copy";
const HINT_OF_CHECK: &str =
    "; fsck.f2fs -f checks it and clears the flag; it writes to the card, so keep a copy";
const HINT_OF_BOTH: &str =
    "; fsck.f2fs -f checks it and clears both flags; it writes to the card, so keep a copy";

fn hint(causes: &[&str]) -> &'static str {
    match causes {
        ["error_flag"] => HINT_OF_ERROR,
        ["needs_check_flag"] => HINT_OF_CHECK,
        ["error_flag", "needs_check_flag"] => HINT_OF_BOTH,
        _ => "",
    }
}

pub(crate) fn entry(nid: u32, version: u8, ino: u32, block_addr: u32) -> JournalEntry {
    let entry = NatEntry {
        version,
        ino,
        block_addr,
    };
    JournalEntry { nid, entry }
}

/// As many entries, each for a number of its own.
fn entries(count: usize) -> Vec<JournalEntry> {
    let entry = |i| entry(1000 - 7 * i, i as u8, 9, 4000 + i);
    (0..count as u32).map(entry).collect()
}

fn with_pack(which: usize, pack: Pack) -> Image {
    Image::new(&Knobs::sound().with_pack(which, pack))
}

pub(crate) fn causes(json: &Json) -> Vec<&str> {
    let causes = json.get("causes").map_or(&[][..], Json::list);
    causes.iter().map(Json::text).collect()
}

/// A refusal as JSON.
fn expect_json(json: &Json, command: &str, expected: &[&str], reason: &str) {
    expect_head(json, command, 8);
    assert_eq!(json["reason"].text(), reason, "in {json:?}");
    assert_eq!(causes(json), expected, "in {json:?}");
}

/// And in words, the first line of which has it all.
fn expect_words(ran: &Ran, reason: &str) {
    let text = format!("{}{}", ran.words(), ran.err);
    let first = text.lines().next().unwrap_or_default();
    let said = format!(": {} (answer 8): {reason}", meaning_with_reason("pull", 8));
    let behind = first.split_once(&said).map(|(_, behind)| behind);
    let ends = ["", "; nothing was written"].map(Some);
    assert!(ends.contains(&behind), "no '{said}' at the end of {ran:?}");
}

/// Every command refuses the card with these causes and this reason.
fn expect_unread(image: Image, expected: &[&str], reason: &str) {
    let [disk, sound] = [image, Image::new(&Knobs::sound())].map(OnDisk::new);
    let (path, good) = (disk.path(), sound.path());
    let output = disk.scratch.path("output");
    let lines: [(&str, Words); 8] = [
        ("info", &[&path]),
        ("ls", &[&path]),
        ("segments", &[&path]),
        ("node", &[&path, &"3"]),
        ("pull", &[&path, &NAME, &"0"]),
        ("cat", &[&"-o", &output, &path, &NAME]),
        ("compare", &[&path, &good, &NAME]),
        ("compare", &[&good, &path, &NAME]),
    ];
    for (number, (command, words)) in lines.into_iter().enumerate() {
        let json = run(&[&[&command as _, &"--json" as _], words].concat());
        let json = json.expect(2).json();
        expect_json(&json, command, expected, reason);
        let side = json.get("side").map(Json::number);
        assert_eq!(side, (command == "compare").then(|| number as u64 - 5));
        let ran = run(&[&[&command as _], words].concat()).expect(2);
        expect_words(&ran, reason);
        let named = path.to_str().unwrap();
        let by_name = ["node", "pull"].contains(&command);
        let said = format!("{}{}", ran.words(), ran.err);
        assert!(by_name || said.contains(named), "not named: {ran:?}");
        assert!(!output.exists(), "output of {ran:?}");
    }
    expect_several(&path, &good, expected, reason);
}

/// With several names, compare's reasons are those of the first.
fn expect_several(kept: &PathBuf, new: &PathBuf, expected: &[&str], reason: &str) {
    let line: Words = &[&"compare", &"--json", kept, new, &NAME, &"other"];
    let json = run(line).expect(2).json();
    expect_head(&json, "compare", 8);
    let [file] = json["files"].list() else {
        panic!("{json:?}");
    };
    assert_eq!(file["reason"].text(), reason, "in {json:?}");
    assert_eq!(causes(file), expected, "in {json:?}");
}

/// Each flag alone and both, in either pack and in each kind of pack.
#[test]
fn flags() {
    let both = [ERROR_WORDS, FSCK_WORDS].join("; ");
    let cases: [(u32, &[&str], &str); 4] = [
        (CP_ERROR_FLAG, &["error_flag"], ERROR_WORDS),
        (CP_FSCK_FLAG, &["needs_check_flag"], FSCK_WORDS),
        (
            CP_ERROR_FLAG | CP_FSCK_FLAG,
            &["error_flag", "needs_check_flag"],
            &both,
        ),
        (CP_LARGE_NAT_BITMAP_FLAG, &["large_nat_bitmap"], LARGE_WORDS),
    ];
    for pack in Pack::kinds() {
        for (which, (bits, causes, words)) in
            (0..2).flat_map(|which| cases.iter().map(move |case| (which, case)))
        {
            let mut pack = pack.clone();
            pack.flags |= bits;
            let reason = format!("{words}{}", hint(causes));
            expect_unread(with_pack(which, pack), causes, &reason);
        }
    }
}

/// No other flag keeps a card from being read, be they all set.
#[test]
fn other_flags() {
    let refused = CP_ERROR_FLAG | CP_FSCK_FLAG | CP_LARGE_NAT_BITMAP_FLAG;
    let alone = (0..32).map(|bit| 1 << bit).filter(|bit| bit & refused == 0);
    for flags in alone.chain([!refused]) {
        let pack = Pack {
            start_sum: 1,
            ..Pack::plain(1, flags)
        };
        expect_info(&OnDisk::new(with_pack(0, pack)), None);
    }
}

/// What is marked in the last block alone keeps nothing.
#[test]
fn flags_of_the_last_block() {
    for which in 0..2 {
        let mut image = with_pack(which, Pack::compact(1));
        let last = image.last_block(which);
        image.set_sealed(last, CKPT_FLAGS, u64::from(CP_ERROR_FLAG | CP_FSCK_FLAG));
        expect_info(&OnDisk::new(image), None);
    }
}

/// Sizes of the maps, the journal's place and its count.
#[test]
fn maps_and_journals() {
    for (kind, pack) in Pack::kinds().into_iter().enumerate() {
        let which = kind % 2;
        let sizes = [
            (SIT_VER_BITMAP_BYTESIZE, "sit_ver_bitmap_bytesize"),
            (NAT_VER_BITMAP_BYTESIZE, "nat_ver_bitmap_bytesize"),
        ];
        for (field, name) in sizes {
            let mut image = with_pack(which, pack.clone());
            image.set_sealed(image.first_block(which), field, 63);
            expect_unread(image, &["maps"], &format!("{name} is 63, not 64"));
        }
        for count in [39, 65535] {
            let mut image = with_pack(which, pack.clone());
            image.set_journal_count(which, count);
            let reason = format!("the NAT journal counts {count} entries, at most 38 fit");
            expect_unread(image, &["journal_count"], &reason);
        }
        let mut image = with_pack(which, pack.clone());
        let first = image.first_block(which);
        let reason = match pack.flags & CP_COMPACT_SUM_FLAG {
            0 => {
                let total = if pack.flags == 0 { 4 } else { 7 };
                let short = Pack { total, ..pack };
                image = with_pack(which, short);
                format!("the pack has {total} blocks, and it lies {total} before the end")
            }
            _ => {
                image.set_sealed(first, CP_PACK_START_SUM, 5);
                "cp_pack_start_sum is 5 in a pack of 6 blocks".to_string()
            }
        };
        let reason = format!("the journal block is out of place: {reason}");
        expect_unread(image, &["journal_place"], &reason);
    }
}

/// What is said of two entries for one number.
fn twice(journal: &[JournalEntry], one: usize, other: usize) -> String {
    let [first, second] = [journal[one], journal[other]];
    let nid = first.nid;
    let says = |entry: NatEntry| {
        let NatEntry {
            version,
            ino,
            block_addr,
        } = entry;
        format!("version {version}, inode {ino}, block {block_addr}")
    };
    let which = match first == second {
        true => "which are equal".to_string(),
        false => format!(
            "which differ: {} and {}",
            says(first.entry),
            says(second.entry)
        ),
    };
    format!("the NAT journal names node {nid} twice, in its entries {one} and {other}, {which}")
}

/// Equal or not, of any number, in either pack and in each kind of pack.
#[test]
fn number_twice() {
    for (kind, pack) in Pack::kinds().into_iter().enumerate() {
        let journal = vec![
            entry(7, 0, 7, 3600),
            entry(900, 1, 9, 3601),
            entry(900, 1, 9, 3601),
        ];
        let differing = vec![entry(0, 0, 7, 3600), entry(9, 1, 9, 0), entry(0, 0, 8, 5)];
        for (journal, one, other) in [(journal, 1, 2), (differing, 0, 2)] {
            let reason = twice(&journal, one, other);
            let pack = Pack {
                journal,
                ..pack.clone()
            };
            expect_unread(with_pack(kind % 2, pack), &["number_twice"], &reason);
        }
    }
}

/// By info alone: a refusal, or none.
fn expect_info(disk: &OnDisk, reason: Option<&str>) {
    let ran = run(&[&"info", &"--json", &disk.path()]);
    let answer = node_lookup(disk.image.bytes(), 3).answer;
    let json = ran.expect(status_of(answer)).json();
    expect_head(&json, "info", if reason.is_some() { 8 } else { 0 });
    assert_eq!(json.get("reason").map(Json::text), reason, "in {json:?}");
    // Else the program would see something else than the library.
    assert!(json.get("packs").is_some(), "no packs in {json:?}");
}

/// Wherever the two stand, with the most entries: equal, and with each part of them another. Behind the count nothing is an entry.
#[test]
fn places_of_two() {
    let node_numbers = Knobs::sound().node_numbers();
    for (one, other) in [(0, 1), (0, 37), (36, 37), (17, 20), (1, 36)] {
        for nid in [0, 1, 3, node_numbers - 1, node_numbers, u32::MAX] {
            for second in [
                entry(nid, 5, 6, 7),
                entry(nid, 4, 6, 7),
                entry(nid, 5, 6 + (1 << 8), 7),
                entry(nid, 5, 6, 7 + (1 << 24)),
            ] {
                let mut journal = entries(MOST_ENTRIES);
                journal[one] = entry(nid, 5, 6, 7);
                journal[other] = second;
                let reason = twice(&journal, one, other);
                let pack = Pack {
                    journal,
                    ..Pack::compact(1)
                };
                let mut disk = OnDisk::new(with_pack(0, pack));
                expect_info(&disk, Some(&reason));
                let (block, _) = disk.image.journal_place(0);
                for (count, reason) in [(other, None), (other + 1, Some(&*reason))] {
                    disk.image.set_journal_count(0, count);
                    disk.write_blocks(&[block]);
                    expect_info(&disk, reason);
                }
            }
        }
    }
}

/// A journal that is full, and one whose numbers differ in one byte each.
#[test]
fn numbers_once() {
    let close = [0, 1, 1 << 8, 1 << 16, 1 << 24].map(|nid| entry(nid, 1, 1, 1));
    for journal in [entries(MOST_ENTRIES), close.to_vec(), vec![]] {
        for pack in Pack::kinds() {
            let journal = journal.clone();
            let disk = OnDisk::new(with_pack(0, Pack { journal, ..pack }));
            expect_info(&disk, None);
        }
    }
}

/// Of several pairs the first is told, by its first entry and then by its second.
#[test]
fn first_of_pairs() {
    let of = |numbers: &[u32]| {
        let each = numbers.iter().zip(0u32..);
        each.map(|(&nid, i)| entry(nid, 0, 5, i))
            .collect::<Vec<_>>()
    };
    for (numbers, one, other) in [
        (&[1, 2, 2, 1][..], 0, 3),
        (&[8, 1, 1, 1], 1, 2),
        (&[1, 2, 1, 2], 0, 2),
        (&[9, 8, 7, 8, 7], 1, 3),
    ] {
        let journal = of(numbers);
        let reason = twice(&journal, one, other);
        let pack = Pack {
            journal,
            ..Pack::compact(1)
        };
        expect_info(&OnDisk::new(with_pack(0, pack)), Some(&reason));
    }
}

/// Causes that don't exclude each other, each with its words.
const TOGETHER: [(&str, &str); 5] = [
    ("error_flag", ERROR_WORDS),
    ("needs_check_flag", FSCK_WORDS),
    ("large_nat_bitmap", LARGE_WORDS),
    (
        "maps",
        "sit_ver_bitmap_bytesize is 63, not 64; nat_ver_bitmap_bytesize is 65, not 64",
    ),
    (
        "number_twice",
        "the NAT journal names node 7 twice, in its entries 0 and 1, which are equal",
    ),
];

/// A card with some of them.
fn with_causes(has: impl Fn(usize) -> bool) -> Image {
    let mut pack = Pack::compact(1);
    let flags = [CP_ERROR_FLAG, CP_FSCK_FLAG, CP_LARGE_NAT_BITMAP_FLAG];
    for (cause, flag) in flags.into_iter().enumerate() {
        pack.flags |= if has(cause) { flag } else { 0 };
    }
    pack.journal = vec![entry(7, 0, 7, 3600); if has(4) { 2 } else { 1 }];
    let mut image = with_pack(0, pack);
    if has(3) {
        let first = image.first_block(0);
        image.set_sealed(first, SIT_VER_BITMAP_BYTESIZE, 63);
        image.set_sealed(first, NAT_VER_BITMAP_BYTESIZE, 65);
    }
    image
}

/// Each adds its own words; fsck.f2fs is named only where no other one is in the way.
#[test]
fn several_causes() {
    expect_info(&OnDisk::new(with_causes(|_| false)), None);
    for chosen in 1..1 << TOGETHER.len() {
        let has = |cause: usize| chosen >> cause & 1 == 1;
        let causes = (0..TOGETHER.len()).filter(|&cause| has(cause));
        let (names, words): (Vec<&str>, Vec<&str>) = causes.map(|cause| TOGETHER[cause]).unzip();
        let reason = format!("{}{}", words.join("; "), hint(&names));
        expect_unread(with_causes(has), &names, &reason);
    }
}

/// A pack that isn't in use may be marked or damaged as it likes: the card is read, and info shows the flags.
#[test]
fn other_pack() {
    for used in 0..2 {
        for bits in [
            CP_ERROR_FLAG,
            CP_FSCK_FLAG,
            CP_ERROR_FLAG | CP_FSCK_FLAG,
            CP_LARGE_NAT_BITMAP_FLAG,
        ] {
            let other = Pack {
                journal: vec![entry(7, 0, 7, 3600); 2],
                flags: CP_COMPACT_SUM_FLAG | CP_UMOUNT_FLAG | bits,
                ..Pack::compact(1)
            };
            let mut packs = [Pack::compact(2).with_sit(), other].map(Some);
            packs.rotate_right(used);
            let disk = OnDisk::new(Image::new(&Knobs {
                packs,
                ..Knobs::sound()
            }));
            let path = disk.path();
            let lines: [Words; 2] = [&[&"segments", &path], &[&"node", &path, &"3"]];
            for line in lines {
                run(line).expect(0);
            }
            expect_flags(&path, [0, bits], used, 0);
        }
    }
}

/// Of two packs the newer one is marked, the older one isn't: that isn't read in its place.
#[test]
fn no_falling_back() {
    for used in 0..2 {
        for bits in [CP_ERROR_FLAG, CP_FSCK_FLAG, CP_ERROR_FLAG | CP_FSCK_FLAG] {
            let mut packs = [Pack::compact(2), Pack::compact(1)].map(Some);
            packs[0].as_mut().unwrap().flags |= bits;
            packs.rotate_right(used);
            let disk = OnDisk::new(Image::new(&Knobs {
                packs,
                ..Knobs::sound()
            }));
            expect_flags(&disk.path(), [bits, 0], used, 8);
        }
    }
}

/// The lines of info on the packs: the one in use has the first of these flags, the other one the second.
fn expect_flags(path: &PathBuf, bits: [u32; 2], used: usize, answer: u32) {
    let names = |bits: u32| {
        let named = [
            (CP_UMOUNT_FLAG, "unmount"),
            (CP_COMPACT_SUM_FLAG, "compacted_summary"),
            (CP_ERROR_FLAG, "error"),
            (CP_FSCK_FLAG, "fsck"),
            (CP_LARGE_NAT_BITMAP_FLAG, "large_nat_bitmap"),
        ];
        let flags = bits | CP_UMOUNT_FLAG | CP_COMPACT_SUM_FLAG;
        let set = named.iter().filter(|(bit, _)| flags & bit != 0);
        set.map(|(_, name)| *name).collect::<Vec<_>>()
    };
    let ran = run(&[&"info", path]).expect(status_of(answer));
    let json = run(&[&"info", &"--json", path]).expect(status_of(answer));
    let json = json.json();
    for which in 0..2 {
        let in_use = which == used;
        let names = names(bits[usize::from(!in_use)]);
        let [state, version] = if in_use {
            ["in use", "2 (0x2)"]
        } else {
            ["passes", "1 (0x1)"]
        };
        let line = format!(
            "checkpoint pack {}: {state}; version {version}; flags: {}\n",
            which + 1,
            names.join(" ")
        );
        assert!(ran.words().contains(&line), "no '{line}' in {ran:?}");
        let pack = &json["packs"].list()[which];
        assert_eq!(pack["in_use"], Json::Bool(in_use), "{json:?}");
        let flags = pack["flags"].list().iter().map(Json::text);
        assert_eq!(flags.collect::<Vec<_>>(), names);
    }
}

/// What card it is, is told of a refused one too.
#[test]
fn info_of_a_refused_card() {
    let mut image = with_pack(1, Pack::compact(1));
    let sound = OnDisk::new(image.clone());
    let first = image.first_block(1);
    let flags = CP_COMPACT_SUM_FLAG | CP_UMOUNT_FLAG | CP_FSCK_FLAG;
    image.set_sealed(first, CKPT_FLAGS, u64::from(flags));
    let disk = OnDisk::new(image);
    let [sound, marked] = [(&sound, 0), (&disk, 2)].map(|(disk, status)| {
        let ran = run(&[&"info", &disk.path()]).expect(status);
        let lines = ran.words().lines().skip(1);
        lines.map(str::to_string).collect::<Vec<_>>()
    });
    let mut expected = sound;
    let last = expected.last_mut().unwrap();
    *last += " fsck";
    assert_eq!(marked, expected);
    assert_eq!(marked.len(), 12);
}

/// The causes of a pack in use, by the sentences of the papers.
fn causes_of(pack: &Pack, count: usize) -> Vec<&'static str> {
    let place = pack.journal_place().is_some();
    let counted = place && count <= MOST_ENTRIES;
    let found = [
        pack.flags & CP_ERROR_FLAG != 0,
        pack.flags & CP_FSCK_FLAG != 0,
        pack.flags & CP_LARGE_NAT_BITMAP_FLAG != 0,
        false,
        !place,
        place && count > MOST_ENTRIES,
        counted && names_one_twice(&pack.journal[..count]),
        false,
    ];
    let each = CAUSES.iter().zip(found);
    each.filter_map(|(name, found)| found.then_some(*name))
        .collect()
}

/// Any flags that a rule speaks of, and a journal with few numbers or with many.
fn random_pack(random: &mut Random) -> Pack {
    let mut flags = 0;
    for bit in [
        CP_UMOUNT_FLAG,
        CP_COMPACT_SUM_FLAG,
        CP_COMPACT_SUM_FLAG,
        CP_FASTBOOT_FLAG,
    ] {
        flags ^= if random.below(2) == 0 { bit } else { 0 };
    }
    for bit in [CP_ERROR_FLAG, CP_FSCK_FLAG, CP_LARGE_NAT_BITMAP_FLAG] {
        flags |= if random.below(4) == 0 { bit } else { 0 };
    }
    let numbers = pick(random, &[20, 200, 2000, u64::from(u32::MAX)]);
    let of = |random: &mut Random| {
        let nid = random.below(numbers) as u32;
        let bytes = random.bytes(journal::ENTRY_SIZE - 4);
        let entry = NatEntry::read(&bytes);
        JournalEntry { nid, entry }
    };
    Pack {
        flags,
        total: pick(random, &[4, 5, 7, 8, 9, 20]),
        start_sum: pick(random, &[0, 1, 2, 3, 6]),
        journal: (0..MOST_ENTRIES).map(|_| of(random)).collect(),
        ..Pack::compact(1)
    }
}

/// Random packs by info: its causes, and the library's answer.
fn random_packs(seed: u64, packs: u32, run: impl Fn(Words) -> Ran) {
    let mut random = Random::new(seed);
    let mut seen = [0; CAUSES.len()];
    for turn in 0..packs {
        let pack = random_pack(&mut random);
        let count = pick(&mut random, &[0, 1, 2, 3, 5, 8, 20, 38, 39, 300]);
        let which = turn as usize % 2;
        let mut image = with_pack(which, pack.clone());
        if pack.journal_place().is_some() {
            image.set_journal_count(which, count);
        }
        let disk = OnDisk::new(image);
        let expected = causes_of(&pack, count);
        let answer = if expected.is_empty() { 0 } else { 8 };
        assert_eq!(node_lookup(disk.image.bytes(), 3).answer, answer);
        let ran = run(&[&"info", &"--json", &disk.path()]).expect(status_of(answer));
        let json = ran.json();
        expect_head(&json, "info", answer);
        assert_eq!(causes(&json), expected, "{json:?} of {:?}", disk.image);
        for (cause, seen) in CAUSES.iter().zip(&mut seen) {
            *seen += usize::from(expected.contains(cause));
        }
    }
    println!("info on packs that aren't read: {packs} inputs compared, causes {seen:?}");
    let there = CAUSES.iter().zip(seen).filter(|(_, seen)| *seen > 0);
    assert_eq!(there.count(), CAUSES.len() - 2, "{seen:?}");
}

#[test]
fn random_causes() {
    random_packs(91, 300, |words| run(words));
}

#[test]
fn random_causes_sanitized() {
    let build = SpecialBuild::sanitized();
    random_packs(92, 60, |words| build.run(words));
}

/// Where the library says something else, nothing is said of causes; of an 8 that they don't explain, all that it can be.
#[test]
fn library_against_causes() {
    let build = SpecialBuild::with_any_answer();
    let mut marked = Pack::compact(1);
    marked.flags |= CP_FSCK_FLAG;
    for pack in [Pack::compact(1), marked] {
        let own = if pack.flags & CP_FSCK_FLAG == 0 { 0 } else { 8 };
        let disk = OnDisk::new(with_pack(0, pack));
        for answer in [0, 5, 7, 8] {
            let told = own == 8 && answer == 8;
            let any_answer = [("ANY_ANSWER", &*answer.to_string())];
            for command in ["info", "segments", "ls"] {
                let run = |words: Words| build.run_with(&any_answer, words);
                if command == "ls" && answer == 0 {
                    continue;
                }
                let json = run(&[&command, &"--json", &disk.path()]).json();
                expect_head(&json, command, answer);
                assert_eq!(causes(&json).len(), usize::from(told), "{json:?}");
                let ran = run(&[&command, &disk.path()]);
                let whole = format!(": {} (answer {answer})", meaning(command, answer));
                assert_eq!(ran.words().contains(&whole), !told, "of {ran:?}");
                assert_eq!(ran.words().contains("fsck.f2fs"), told, "of {ran:?}");
            }
        }
    }
}

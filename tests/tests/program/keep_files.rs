//! Files that are no keep files: what is told of why; and keep files that nobody wrote as one.

use std::fs;

use harptimber_tests::calls::keep_files::{reference_compare, reference_read};
use harptimber_tests::calls::keep_parts::Parts;
use harptimber_tests::cards::layout::BLOCK_SIZE;
use harptimber_tests::cards::on_disk::OnDisk;
use harptimber_tests::cards::random::pick;
use harptimber_tests::program::card::{shared_card, ProgramCard, INLINE, LONG, OUTSIDE, ROAD};
use harptimber_tests::program::json::Json;
use harptimber_tests::program::keeps::{beside, kept, kept_beside, parts};
use harptimber_tests::program::page::{counted, expect_head, meaning, with_commas};
use harptimber_tests::program::special_build::SpecialBuild;
use harptimber_tests::program::{run, Ran, Words};
use harptimber_tests::trial::Random;

/// A card, with a sound keep file of it.
struct Sound {
    card: OnDisk,
    file: Vec<u8>,
    parts: Parts,
}

impl Sound {
    fn new() -> Sound {
        let card = OnDisk::new(shared_card().disk.image.clone());
        let file = kept(&card.image, ROAD, 0).unwrap();
        let parts = parts(&file);
        Sound { card, file, parts }
    }

    /// Both commands that read a keep file say this of what is none.
    fn expect(&self, bytes: &[u8], reason: &str) {
        assert_eq!(reference_read(bytes).answer, 18, "{reason}");
        let (file, new) = (beside(&self.card, "bad.keep", bytes), self.card.path());
        let line = format!(
            "{}: {} (answer 18): {reason}\n",
            file.display(),
            meaning("show", 18)
        );
        let lines: [(&str, Words); 2] = [
            ("show", &[&"show", &file]),
            ("check", &[&"check", &file, &new]),
        ];
        for (command, words) in lines {
            assert_eq!(run(words).expect(2).words(), line);
            let json = run(&[words, &[&"--json"]].concat()).expect(2).json();
            expect_head(&json, command, 18);
            assert_eq!(json["reason"].text(), reason);
            assert_eq!(json["file"].text(), file.to_str().unwrap());
        }
    }

    /// The file with one number changed.
    fn with(&self, at: usize, change: impl Fn(u32) -> u32) -> Vec<u8> {
        let mut bytes = self.file.clone();
        let number = &mut bytes[at..at + 4];
        let old = u32::from_le_bytes(number.try_into().unwrap());
        number.copy_from_slice(&change(old).to_le_bytes());
        bytes
    }

    fn changed(&self, change: impl FnOnce(&mut Parts)) -> Vec<u8> {
        self.parts.with(change).laid_out()
    }
}

#[test]
fn lengths() {
    let sound = Sound::new();
    let whole = sound.file.len();
    for len in [0, 1, 23] {
        let bytes = counted(len, "byte");
        sound.expect(
            &sound.file[..len],
            &format!("it has {bytes}, and a keep file's header alone has 24"),
        );
    }
    let longer = [&sound.file[..], &[0]].concat();
    for len in [24, 25, 4100, whole - 1, whole + 1] {
        let bytes = counted(len, "byte");
        let reason = format!("it has {bytes}, but by its header {}", with_commas(whole));
        sound.expect(&longer[..len], &reason);
    }
}

/// Each number of the header; the first three also so that the places are the same if sums wrap.
#[test]
fn headers() {
    let sound = Sound::new();
    let fields = reference_read(&sound.file);
    let places = [fields.nodes_at, fields.blocks_at, fields.length].map(u64::from);
    let said = |part: usize, stored: u64, counted: u64| {
        let part = ["nodes", "blocks", "end"][part];
        format!(
            "its header has the {part} at byte {stored}, but by its counts that is byte {counted}"
        )
    };
    for (nth, place) in places.into_iter().enumerate() {
        for (change, stored) in [(1, place + 1), (u32::MAX, place - 1)] {
            let bytes = sound.with(12 + 4 * nth, |number| number.wrapping_add(change));
            sound.expect(&bytes, &said(nth, stored, place));
        }
        let size = [1, 16, 4100][nth];
        for more in [1, 1 << 28, 1 << 30, 3 << 30] {
            let bytes = sound.with(4 * nth, |number| number + more);
            let counted = place + u64::from(more) * size;
            sound.expect(&bytes, &said(nth, place, counted));
        }
    }
}

#[test]
fn nodes() {
    let sound = Sound::new();
    let [first, second] = [0, 1].map(|nth| sound.parts.nodes[nth][0]);
    let none = sound.changed(|parts| parts.nodes.clear());
    sound.expect(&none, "it lists no node");
    let fall = format!("node {first} comes behind {second}, and they should rise");
    sound.expect(&sound.changed(|parts| parts.nodes.swap(0, 1)), &fall);
    let twice = format!("node {first} comes behind {first}, and they should rise");
    let twin = sound.changed(|parts| parts.nodes[1][0] = first);
    sound.expect(&twin, &twice);
    for [answer, inode, address] in [[1, 0, 0], [9, 1, 0], [9, 0, 1], [u32::MAX, 2, 3]] {
        let bytes = sound.changed(|parts| parts.nodes[1] = [second, answer, inode, address]);
        let numbers = format!("{answer}, {inode} and {address}");
        let reason = format!("of node {second} it has the numbers {numbers}, which no table says");
        sound.expect(&bytes, &reason);
    }
}

#[test]
fn blocks() {
    let sound = Sound::new();
    let blocks: Vec<u32> = sound
        .parts
        .blocks
        .iter()
        .map(|(number, _)| *number)
        .collect();
    let (first, last) = (blocks[0], *blocks.last().unwrap());
    let fall = format!(
        "block {first} comes behind {}, and they should rise",
        blocks[1]
    );
    sound.expect(&sound.changed(|parts| parts.blocks.swap(0, 1)), &fall);
    for (bounds, outside) in [
        ([first + 1, last + 1], first),
        ([first, last], last),
        ([9, 3], first),
    ] {
        let bytes = sound.changed(|parts| parts.bounds = bounds);
        let [start, end] = bounds;
        let area = format!("from block {start} to before {end}");
        let reason = format!("block {outside} lies outside its main area, which is {area}");
        sound.expect(&bytes, &reason);
    }
}

/// Whoever gives the card first is told that it is one.
#[test]
fn a_card() {
    let sound = Sound::new();
    let (image, file) = (
        sound.card.path(),
        kept_beside(&sound.card, "kept.keep", ROAD, 0),
    );
    let ran = run(&[&"check", &image, &file]).expect(2);
    let end = "; it has the F2FS mark of a card image\n";
    assert!(ran.words().ends_with(end), "{ran:?}");
}

/// Where the program finds nothing wrong, nothing is said of why.
#[test]
fn library_against_fault() {
    let (sound, build) = (Sound::new(), SpecialBuild::with_any_answer());
    let file = beside(&sound.card, "sound.keep", &sound.file);
    let ran = build.run_with(&[("ANY_ANSWER", "18")], &[&"show", &file]);
    let line = format!("{}: {} (answer 18)\n", file.display(), meaning("show", 18));
    assert_eq!(ran.expect(2).words(), line);
    let ran = build.run_with(&[("ANY_ANSWER", "18")], &[&"show", &"--json", &file]);
    let json = ran.expect(2).json();
    expect_head(&json, "show", 18);
    assert!(json.get("reason").is_none(), "{json:?}");
}

/// What is said of a keep file that the card's own pull contradicts, and of one that no pull on any card gives.
const CHANGED: &str =
    "what it keeps isn't what the card gives: the keep file was changed after it was written";
const NEVER_KEPT: &str =
    "no pull is kept with such a path or answer: the keep file was changed after it was written";

/// What the library's compare says of a keep file, which reading takes, that a check refuses for one of these reasons.
fn refused_by(json: &Json) -> Option<u32> {
    match json.get("reason").map(Json::text) {
        Some(CHANGED) => Some(15),
        Some(NEVER_KEPT) => Some(16),
        _ => None,
    }
}

/// The answer of a check, and that of the compare inside.
fn verdict(json: &Json) -> u64 {
    let runs = json.get("runs").map_or(&[][..], Json::list);
    let answered = runs.first().or(json.get("end"));
    answered.map_or(json["answer"].number(), |run| run["answer"].number())
}

/// Shows and checks a file, whatever it is. Returns what the library answers.
fn expect_any(run: impl Fn(Words) -> Ran, card: &OnDisk, bytes: &[u8]) -> u32 {
    let (file, new) = (beside(card, "any.keep", bytes), card.path());
    let fields = reference_read(bytes);
    let compared = reference_compare(bytes, card.image.bytes());
    let read = if fields.answer == 0 { 0 } else { 2 };
    let json = run(&[&"show", &"--json", &file]).expect(read).json();
    expect_head(&json, "show", fields.answer);
    assert_eq!(
        json.get("reason").is_some(),
        fields.answer == 18,
        "{json:?}"
    );
    let words = run(&[&"show", &"--lists", &file]).expect(read);
    assert_eq!(words.err, "", "{words:?}");
    let checked = run(&[&"check", &"--json", &file, &new]);
    let json = checked.json();
    if let Some(answer) = refused_by(&json) {
        assert_eq!(compared.answer, answer, "{json:?}");
        assert_eq!((fields.answer, verdict(&json)), (0, 18), "{json:?}");
        assert_eq!((checked.status, json["verdict"].text()), (2, "refused"));
    } else {
        assert_eq!(verdict(&json), u64::from(compared.answer), "{json:?}");
    }
    assert_eq!(json["status"].number(), checked.status as u64, "{json:?}");
    let words = run(&[&"check", &file, &new]).expect(checked.status);
    assert_eq!(words.err, "", "{words:?}");
    run(&[&"check", &"-q", &file, &new]).expect(checked.status);
    if checked.status == 0 {
        assert_eq!(compared.answer, 15, "{json:?}");
        assert!(fields.pull_answer < 2, "{fields:?}");
        assert_eq!(json["verdict"].text(), "same", "{json:?}");
        assert!(words.words().ends_with(": is the same\n"), "{words:?}");
    }
    let output = card.scratch.path("any.block");
    run(&[&"show", &"-o", &output, &file]);
    compared.answer
}

/// A byte of what the library's compare doesn't look at: the card, which gives something else, refuses it.
#[test]
fn changed_after_it_was_written() {
    let sound = Sound::new();
    let new = sound.card.path();
    let file = beside(&sound.card, "sound.keep", &sound.file);
    let same = run(&[&"check", &file, &new]).expect(0);
    assert!(same.words().ends_with(": is the same\n"), "{same:?}");
    let changes: [fn(&mut Parts); 16] = [
        |parts| parts.path[0] ^= 1,
        |parts| parts.path.clear(),
        |parts| parts.path = b"/".to_vec(),
        |parts| parts.path = [&b"x"[..]; 9].join(&b'/'),
        |parts| parts.pull[0] ^= 1,
        |parts| parts.pull[0] ^= 1 << 24,
        |parts| parts.pull[1] = 1,
        |parts| parts.pull[1] = 2,
        |parts| parts.pull[1] = 4,
        |parts| parts.pull[1] = 15,
        |parts| parts.pull[1] = 16,
        |parts| parts.pull[1] = 18,
        |parts| parts.pull[2] ^= 1,
        |parts| parts.pull[2] ^= 1 << 24,
        |parts| parts.block[0] ^= 1,
        |parts| parts.block[BLOCK_SIZE - 1] ^= 0x80,
    ];
    for (nth, change) in changes.into_iter().enumerate() {
        let bytes = sound.changed(change);
        let compared = reference_compare(&bytes, sound.card.image.bytes());
        assert_eq!(compared.answer, 15, "change {nth}");
        expect_refused(&sound.card, &bytes, CHANGED);
    }
}

/// What a check says of a keep file that `keep` can't have written so.
fn expect_refused(card: &OnDisk, bytes: &[u8], reason: &str) {
    let (file, new) = (beside(card, "changed.keep", bytes), card.path());
    let ran = run(&[&"check", &file, &new]).expect(2);
    let said = format!("{} (answer 18): {reason}\n", meaning("check", 18));
    assert_eq!(ran.words(), format!("{}: {said}", file.display()));
    let quiet = run(&[&"check", &"-q", &file, &new]).expect(2);
    assert_eq!((quiet.words(), quiet.err.as_str()), ("", ""));
    let json = run(&[&"check", &"--json", &file, &new]).expect(2).json();
    expect_head(&json, "check", 18);
    assert_eq!(json["reason"].text(), reason);
    assert_eq!(json["verdict"].text(), "refused");
    assert_eq!(json["status"].number(), 2);
}

/// Of a kept answer that is no block the 4,096 bytes are zeros, and the lists are all that it rests on.
#[test]
fn changed_without_data() {
    let sound = Sound::new();
    for (path, index, status) in [(ROAD, 6, 2), (b"missing".as_slice(), 0, 4)] {
        let file = kept(&sound.card.image, path, index).unwrap();
        let whole = beside(&sound.card, "none.keep", &file);
        run(&[&"check", &whole, &sound.card.path()]).expect(status);
        let parts = parts(&file);
        let changes: [fn(&mut Parts); 3] = [
            |parts| parts.block[7] = 1,
            |parts| parts.pull[2] = 1,
            |parts| drop(parts.blocks.pop()),
        ];
        for change in changes {
            expect_refused(&sound.card, &parts.with(change).laid_out(), CHANGED);
        }
    }
}

/// Where what is listed changed, a pull may give anything, but never has a keep file such an answer or path.
#[test]
fn never_kept() {
    let sound = Sound::new();
    let strike = |change: &dyn Fn(&mut Parts)| {
        sound.changed(|parts| {
            parts.blocks[0].1[BLOCK_SIZE - 1] ^= 1;
            change(parts);
        })
    };
    for answer in (0..20).chain([u32::MAX]) {
        let bytes = strike(&|parts| parts.pull[1] = answer);
        match answer {
            0..4 | 9..15 => {
                let file = beside(&sound.card, "other.keep", &bytes);
                run(&[&"check", &file, &sound.card.path()]).expect(1);
            }
            _ => expect_refused(&sound.card, &bytes, NEVER_KEPT),
        }
    }
    for path in [&b""[..], b"/", b"a/", &[&b"x"[..]; 9].join(&b'/')] {
        let bytes = strike(&|parts| parts.path = path.to_vec());
        expect_refused(&sound.card, &bytes, NEVER_KEPT);
    }
}

/// A byte count of more than a block: no more than the block is written, or compared.
#[test]
fn counts_too_high() {
    let sound = Sound::new();
    let block = sound.parts.block.clone();
    for count in [BLOCK_SIZE as u32 + 1, u32::MAX] {
        let bytes = sound.changed(|parts| {
            parts.pull[2] = count;
            let (_, inode) = &mut parts.blocks[0];
            inode[BLOCK_SIZE - 1] ^= 1;
        });
        let file = beside(&sound.card, "high.keep", &bytes);
        let json = run(&[&"check", &"--json", &file, &sound.card.path()]).expect(1);
        let json = json.json();
        assert_eq!(json["verdict"].text(), "same bytes", "{json:?}");
        let output = sound.card.scratch.path("high.block");
        let ran = run(&[&"show", &"--json", &"-o", &output, &file]).expect(0);
        assert_eq!(ran.json()["byte_count"].number(), u64::from(count));
        assert!(fs::read(&output).unwrap() == block, "{ran:?}");
    }
}

/// Bytes of a path, which may be none, or hold anything.
fn any_path(random: &mut Random, path: &[u8]) -> Vec<u8> {
    match random.below(4) {
        0 => Vec::new(),
        1 => random.bytes(300),
        2 => [path, b"/", path, b"/", path].concat(),
        _ => [path, b"\0\xE2\x98"].concat(),
    }
}

/// Changes something that reading doesn't look at, or only roughly.
fn strike(parts: &mut Parts, random: &mut Random) {
    let answers = [0, 1, 2, 3, 4, 5, 8, 12, 15, 16, 17, 18];
    let number = match random.below(5) {
        0 => pick(random, &[4097, 1 << 20, u32::MAX]),
        _ => pick(random, &answers),
    };
    let (node, block) = (
        random.below(parts.nodes.len() as u64) as usize,
        random.below(parts.blocks.len() as u64) as usize,
    );
    match random.below(8) {
        0 => parts.path = any_path(random, &parts.path.clone()),
        1 | 2 => parts.pull[random.below(3) as usize] = number,
        3 => parts.bounds[random.below(2) as usize] = number,
        4 => parts.nodes[node][2 + random.below(2) as usize] = number,
        5 => parts.nodes[node] = [parts.nodes[node][0], 9, 0, 0],
        6 => drop(parts.blocks.remove(block)),
        _ => {
            let bytes = &mut parts.blocks[block].1;
            for _ in 0..10 {
                let at = random.below(bytes.len() as u64) as usize;
                bytes[at] = random.number() as u8;
            }
        }
    }
}

/// Keep files of the card's pulls, with parts that nothing wrote so. Returns how often each answer of a compare came.
fn strike_files(run: impl Fn(Words) -> Ran, seed: u64, rounds: usize) -> [u32; 19] {
    let (card, mut random) = (ProgramCard::build(), Random::new(seed));
    let outside = card.outside.name.clone();
    assert_eq!(outside, OUTSIDE);
    let mut answers = [0; 19];
    for _ in 0..rounds {
        let calls = [
            (ROAD, 0),
            (ROAD, 6),
            (LONG, 924),
            (INLINE, 0),
            (OUTSIDE, 2),
            (b"folder", 0),
        ];
        let (path, index) = pick(&mut random, &calls);
        let mut parts = parts(&kept(&card.disk.image, path, index).unwrap());
        for _ in 0..1 + random.below(3) {
            if !parts.blocks.is_empty() {
                strike(&mut parts, &mut random);
            }
        }
        let answer = expect_any(&run, &card.disk, &parts.laid_out());
        answers[answer as usize] += 1;
    }
    answers
}

#[test]
fn unwritten() {
    let answers = strike_files(run, 95, 120);
    assert!(
        [15, 16, 18].iter().all(|&answer| answers[answer] > 5),
        "{answers:?}"
    );
}

/// It keeps to the file's bytes.
#[test]
fn unwritten_under_sanitizers() {
    let build = SpecialBuild::sanitized();
    let answers = strike_files(|words: Words| build.run(words), 96, 60);
    assert!(
        [15, 16, 18].iter().all(|&answer| answers[answer] > 2),
        "{answers:?}"
    );
}

/// Numbers anywhere in a sound file.
#[test]
fn damaged() {
    let (sound, mut random) = (Sound::new(), Random::new(97));
    for _ in 0..150 {
        let mut bytes = sound.file.clone();
        let ends = [24, 60, 4300, bytes.len() as u64 - 4];
        let end = pick(&mut random, &ends);
        let at = random.below(end) as usize;
        let number = pick(&mut random, &[0, 1, 255, 1 << 31, u32::MAX]);
        bytes[at..at + 4].copy_from_slice(&number.to_le_bytes());
        let cut = bytes.len() - if random.below(8) == 0 { 100 } else { 0 };
        expect_any(run, &sound.card, &bytes[..cut]);
    }
}

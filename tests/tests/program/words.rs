//! What `harptimber` says in words and shows on a terminal.

use std::fs;

use reference::hash::raw_hash;
use reference::lookup::node_lookup;
use reference::place::file_place;

use harptimber_tests::cards::on_disk::OnDisk;
use harptimber_tests::program::card::{shared_card, ProgramCard, Put, NAMES, REPEATING, ROAD};
use harptimber_tests::program::card::{FULL, FULL_BESIDE_XATTR, INLINE};
use harptimber_tests::program::page::{counted, meaning, status_of};
use harptimber_tests::program::{run, run_on_terminal, Ran, Words};

/// Runs for words, the first line of which has the answer. A name's control bytes mustn't get through.
fn words_of(command: &'static str, words: Words, answer: u32) -> Ran {
    let ran = run(&[&[&command as _], words].concat()).expect(status_of(answer));
    assert_eq!(ran.err, "", "of {ran:?}");
    let control = |letter: char| letter.is_control() && letter != '\n';
    assert!(!ran.words().contains(control), "control bytes of {ran:?}");
    let first = ran.words().lines().next().expect("a line");
    let said = format!(": {} (answer {answer})", meaning(command, answer));
    assert!(first.contains(&said), "no '{said}' in {ran:?}");
    ran
}

/// The numbers of a line that starts with these words, if there is one.
fn numbers_of(ran: &Ran, start: &str) -> Option<Vec<u32>> {
    let mut lines = ran.words().lines();
    let rest = lines.find_map(|line| line.strip_prefix(start))?;
    let numbers = rest.split_whitespace().map(str::parse);
    Some(numbers.map(|number| number.expect("a number")).collect())
}

#[test]
fn pulls() {
    expect_pulls(&shared_card());
}

pub(crate) fn expect_pulls(card: &ProgramCard) {
    let path = card.disk.path();
    for (name, index) in card.calls() {
        let outcome = card.pulled(&name, index);
        let answer = outcome.pulled.answer;
        let ran = words_of("pull", &[&"--", &path, &name, &index], answer);
        for list in ["nodes:", "blocks:"] {
            assert_eq!(numbers_of(&ran, list), None, "of {ran:?}");
        }
        let rests = [
            counted(outcome.nodes().len(), "node"),
            counted(outcome.blocks().len(), "block"),
        ];
        let rests = format!("\nrests on {}\n", rests.join(" and "));
        assert!(ran.words().ends_with(&rests), "no '{rests}' in {ran:?}");
        assert!(
            hex_view(&ran).is_none(),
            "bytes without a terminal: {ran:?}"
        );
        let count = match outcome.pulled.byte_count {
            0 => "\n".to_string(),
            count => format!(", {}\n", counted(count as usize, "byte")),
        };
        // Where a walk stopped, the reason follows.
        let behind = match answer {
            2 | 3 | 9..=14 => ": ",
            _ => &count,
        };
        let said = format!("(answer {answer}){behind}");
        assert!(ran.words().contains(&said), "no '{said}' in {ran:?}");
        let words: Words = &[&"--lists", &"--", &path, &name, &index];
        let ran = words_of("pull", words, answer);
        assert_eq!(numbers_of(&ran, "nodes:"), Some(outcome.nodes()));
        assert_eq!(numbers_of(&ran, "blocks:"), Some(outcome.blocks()));
    }
}

#[test]
fn lookups() {
    let card = shared_card();
    let path = card.disk.path();
    let end = card.card.node_numbers;
    for number in [0, 1, 3, card.file(ROAD).ino, end - 1, end] {
        let entry = node_lookup(card.card.image.bytes(), number);
        let ran = words_of("node", &[&path, &number], entry.err().unwrap_or(0));
        if let Ok((inode, address)) = entry {
            let numbers = format!("inode {inode}, block {address}\n");
            assert!(ran.words().ends_with(&numbers), "of {ran:?}");
        }
    }
    for number in card.unused {
        let (_, address) = node_lookup(card.card.image.bytes(), number).expect("an entry");
        assert_eq!(address, 0);
        let ran = run(&[&"node", &path, &number]).expect(0);
        assert_eq!(
            ran.words(),
            format!("node {number}: not in use (answer 0)\n")
        );
    }
}

/// A line for each node on the way, with its kind.
#[test]
fn places() {
    let [inode, direct] = ["inode", "direct node"];
    let [indirect, double] = ["indirect node", "double indirect node"];
    let indexes: [(u32, &[&str]); 9] = [
        (0, &[inode]),
        (922, &[inode]),
        (923, &[inode, direct]),
        (2958, &[inode, direct]),
        (2959, &[inode, indirect, direct]),
        (2_075_606, &[inode, indirect, direct]),
        (2_075_607, &[inode, double, indirect, direct]),
        (1_057_053_438, &[inode, double, indirect, direct]),
        (u32::MAX, &[]),
    ];
    for (index, kinds) in indexes {
        let place = file_place(923, index).numbers();
        let ran = words_of("place", &[&"923", &index], place.answer);
        let lines: Vec<&str> = ran.words().lines().skip(1).collect();
        let steps = place.way.iter().zip(kinds);
        let expected =
            steps.map(|((place, slot), kind)| format!("place {place}, slot {slot} ({kind})"));
        assert_eq!(lines, expected.collect::<Vec<_>>(), "of {ran:?}");
        assert_eq!(lines.len(), place.steps as usize, "of {ran:?}");
    }
}

#[test]
fn hashes() {
    for name in NAMES.into_iter().chain([ROAD, b".", b".."]) {
        let ran = run(&[&"hash", &"--", &name]).expect(0);
        let hash = format!(": hash {:08x} (answer 0)\n", raw_hash(name));
        assert!(ran.words().ends_with(&hash), "no {hash} in {ran:?}");
    }
}

/// What is out of shape, instead of all that could be.
#[test]
fn out_of_shape() {
    let card = shared_card();
    let path = card.disk.path();
    let other = OnDisk::new(card.disk.image.clone());
    let long = vec![b'x'; 300];
    let too_long = "the name has 300 bytes; at most 255 are possible";
    let slashes = "the path has two slashes side by side";
    let lines: [(Words, &str); 9] = [
        (&[&"hash", &"a/b"], "the name has a slash"),
        (&[&"hash", &""], "the name is empty"),
        (&[&"hash", &long], too_long),
        (&[&"pull", &path, &"a//b", &"0"], slashes),
        (&[&"pull", &path, &"", &"0"], "the path is empty"),
        (&[&"pull", &path, &long, &"0"], too_long),
        (&[&"compare", &path, &other.path(), &"a//b"], slashes),
        (&[&"place", &"5", &"0"], "A has to be 873 or 923"),
        (&[&"place", &"4294967295", &"0"], "A has to be 873 or 923"),
    ];
    for (line, why) in lines {
        let ran = run(line).expect(2);
        let end = format!(": out of shape (answer 4): {why}\n");
        assert!(ran.words().ends_with(&end), "no '{end}' in {ran:?}");
        assert_eq!(ran.words().lines().count(), 1, "lines of {ran:?}");
    }
}

/// The bytes that lines of hexadecimal show: a place, up to 16 bytes, then their characters. A star
/// stands for lines like the one before it.
fn hex_view(ran: &Ran) -> Option<Vec<u8>> {
    let (mut bytes, mut shown) = (Vec::new(), false);
    for line in ran.words().lines() {
        let mut words = line.split_whitespace();
        let first = words.next().filter(|first| first.len() == 8);
        let Some(place) = first.and_then(|first| usize::from_str_radix(first, 16).ok()) else {
            continue;
        };
        shown = true;
        while bytes.len() < place {
            bytes.extend_from_within(bytes.len() - 16..);
        }
        assert_eq!(bytes.len(), place, "place of '{line}'");
        let row = words.take_while(|word| !word.starts_with('|'));
        bytes.extend(row.map(|byte| u8::from_str_radix(byte, 16).expect(line)));
        let characters = line
            .split_once("  |")
            .map_or("", |(_, characters)| characters);
        assert_eq!(characters, in_characters(&bytes[place..]), "of '{line}'");
    }
    shown.then_some(bytes)
}

/// What a line of hexadecimal has behind its bytes: a full stop for each that isn't a plain character.
fn in_characters(bytes: &[u8]) -> String {
    let shown = |&byte: &u8| match byte {
        b' '..=b'~' => char::from(byte),
        _ => '.',
    };
    let characters: String = bytes.iter().map(shown).collect();
    match bytes {
        [] => characters,
        _ => characters + "|",
    }
}

fn expect_hexadecimal(card: &ProgramCard, file: &Put, index: u32) {
    let name = String::from_utf8_lossy(&file.name);
    let words: Words = &[&"pull", &card.disk.path(), &&*name, &index];
    let ran = run_on_terminal(words, None).expect(0);
    let expected = file.block(&card.card.image, index);
    assert_eq!(hex_view(&ran), Some(expected), "of {ran:?}");
}

#[test]
fn hexadecimal_on_a_terminal() {
    let card = shared_card();
    for name in ["road.bin", "repeating", "one byte", "4095", "4096", "4097"] {
        let file = card.file(name.as_bytes());
        for &index in file.blocks.keys() {
            expect_hexadecimal(&card, file, index);
        }
    }
    for name in [INLINE, FULL, FULL_BESIDE_XATTR] {
        expect_hexadecimal(&card, card.file(name), 0);
    }
    assert_eq!(card.file(REPEATING).blocks.len(), 2);
}

/// A hole, a refusal, an object, and bytes that go elsewhere.
#[test]
fn nothing_in_hexadecimal() {
    let card = shared_card();
    let path = card.disk.path();
    let output = card.disk.scratch.path("nothing_in_hexadecimal");
    let lines: [(Words, i32); 5] = [
        (&[&"pull", &path, &ROAD, &"2"], 0),
        (&[&"pull", &path, &ROAD, &"6"], 2),
        (&[&"pull", &path, &"folder", &"0"], 2),
        (&[&"pull", &"--json", &path, &ROAD, &"0"], 0),
        (&[&"pull", &"-o", &output, &path, &ROAD, &"0"], 0),
    ];
    for (line, status) in lines {
        let ran = run_on_terminal(line, None).expect(status);
        assert_eq!(hex_view(&ran), None, "bytes in {ran:?}");
    }
    let road = card.file(ROAD).block(&card.card.image, 0);
    assert_eq!(fs::read(&output).unwrap(), road);
}

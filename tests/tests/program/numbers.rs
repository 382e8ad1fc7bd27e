//! `harptimber node`, `place` and `hash`, against the reference.

use reference::hash::name_hash;
use reference::lookup::node_lookup;
use reference::place::file_place;

use harptimber_tests::cards::names::good_name;
use harptimber_tests::cards::tree::{last_index, sample_indexes};
use harptimber_tests::program::card::{shared_card, ProgramCard, NAMES};
use harptimber_tests::program::json::Json;
use harptimber_tests::program::page::{expect_head, expect_name, status_of};
use harptimber_tests::program::{run, Words};
use harptimber_tests::trial::Random;

/// Runs a command for its JSON, which has to have this answer.
fn json_of(command: &'static str, words: Words, answer: u32) -> Json {
    let ran = run(&[&[&command as _, &"--json" as _], words].concat());
    let ran = ran.expect(status_of(answer));
    assert_eq!(ran.err, "", "of {ran:?}");
    let json = ran.json();
    expect_head(&json, command, answer);
    json
}

/// A number that the answer doesn't name is 0.
fn expect_number(json: &Json, key: &str, number: Option<u32>) {
    let number = u64::from(number.unwrap_or(0));
    assert_eq!(json[key].number(), number, "{key} in {json:?}");
}

/// Names with a hash, and names that are none.
fn names() -> Vec<Vec<u8>> {
    let mut random = Random::new(3);
    let lens = (1..40).chain([63, 64, 65, 127, 128, 129, 254, 255]);
    let mut names: Vec<Vec<u8>> = lens.map(|len| good_name(&mut random, len)).collect();
    names.extend(NAMES.map(<[u8]>::to_vec));
    let others = [
        ".", "..", "...", "", "/", "a/b", "/a", "a/", "--json", "--", "-",
    ];
    names.extend(others.map(|name| name.as_bytes().to_vec()));
    names.extend([255, 256, 257, 512].map(|len| vec![b'x'; len]));
    names
}

#[test]
fn hashes() {
    let mut bad = 0;
    for name in names() {
        let hash = name_hash(&name);
        let answer = if hash.is_some() { 0 } else { 4 };
        let json = json_of("hash", &[&"--", &name], answer);
        expect_name(&json, &name);
        expect_number(&json, "hash", hash);
        let hex = format!("{:08x}", hash.unwrap_or(0));
        assert_eq!(json["hash_hex"].text(), hex, "in {json:?}");
        bad += u32::from(answer == 4);
    }
    assert_eq!(bad, 8, "names that are none");
}

#[test]
fn places() {
    let mut answers = [0; 5];
    for addresses in [873, 923, 0, 872, 874, 922, 924, u32::MAX] {
        let last = last_index(if addresses == 873 { 873 } else { 923 });
        let indexes = sample_indexes(923).into_iter();
        for index in indexes.chain([last - 1, last, last + 1, u32::MAX]) {
            let place = file_place(addresses, index).numbers();
            let json = json_of("place", &[&addresses, &index], place.answer);
            expect_number(&json, "addresses", Some(addresses));
            expect_number(&json, "index", Some(index));
            let way: Vec<(u32, u32)> = json["way"].list().iter().map(step).collect();
            assert_eq!(way, place.way[..place.steps as usize], "in {json:?}");
            answers[place.answer as usize] += 1;
        }
    }
    assert!([0, 3, 4].iter().all(|&answer: &usize| answers[answer] > 1));
}

fn step(json: &Json) -> (u32, u32) {
    assert_eq!(json.keys().len(), 2, "a step {json:?}");
    let number = |key| json[key].number() as u32;
    (number("place"), number("slot"))
}

/// Numbers at the ends of the table and of its blocks, those of nodes and some others.
fn node_numbers(card: &ProgramCard) -> Vec<u32> {
    let end = card.card.node_numbers;
    let mut numbers = vec![0, 1, 2, 3, 4, 454, 455, 456, 909, 910, 911];
    numbers.extend([end - 1, end, end + 1, 1 << 31, u32::MAX]);
    numbers.extend(card.files.iter().map(|file| file.ino));
    numbers.extend(card.unused);
    let mut random = Random::new(4);
    numbers.extend((0..20).map(|_| random.below(u64::from(end)) as u32));
    numbers
}

#[test]
fn nodes() {
    expect_nodes(&shared_card());
}

pub(crate) fn expect_nodes(card: &ProgramCard) {
    let path = card.disk.path();
    for number in node_numbers(card) {
        let entry = node_lookup(card.card.image.bytes(), number);
        let answer = entry.err().unwrap_or(0);
        let json = json_of("node", &[&path, &number], answer);
        assert_eq!(json["image"].text(), path.to_str().unwrap());
        expect_number(&json, "number", Some(number));
        expect_number(&json, "inode", entry.ok().map(|(inode, _)| inode));
        expect_number(&json, "address", entry.ok().map(|(_, address)| address));
    }
}

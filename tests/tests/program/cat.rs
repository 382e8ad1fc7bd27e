//! `harptimber cat`: whole files, against the bytes that were put on the card.

use std::fs;
use std::path::PathBuf;
use std::sync::Arc;

use harptimber_tests::cards::layout::BLOCK_SIZE;
use harptimber_tests::cards::on_disk::{OnDisk, Shared};
use harptimber_tests::program::card::{shared_card, ProgramCard, OUTSIDE};
use harptimber_tests::program::json::Json;
use harptimber_tests::program::page::{expect_head, expect_name, meaning, shown};
use harptimber_tests::program::run;
use harptimber_tests::tools::published::{filled_on, File, LONGEST_INLINE};
use harptimber_tests::trial::Random;

/// Sizes around those at which a file stops being inline, has one block more, or one node more.
const SIZES: [usize; 12] = [
    0,
    1,
    LONGEST_INLINE - 1,
    LONGEST_INLINE,
    LONGEST_INLINE + 1,
    4095,
    4096,
    4097,
    100_000,
    873 * 4096,
    873 * 4096 + 1,
    9_000_000,
];

struct Published {
    disk: OnDisk,
    files: Vec<File>,
}

static PUBLISHED: Shared<Published> = Shared::empty();

fn published() -> Arc<Published> {
    PUBLISHED.get(|| {
        let mut random = Random::new(5);
        let file = |size: usize| (format!("{size}").into_bytes(), random.bytes(size));
        let files: Vec<File> = SIZES.map(file).to_vec();
        let disk = OnDisk::new(filled_on(100, 1_700_000_000, &files));
        Published { disk, files }
    })
}

/// The bytes are many: a mismatch shows only how many.
fn expect_bytes(name: &[u8], bytes: &[u8], expected: &[u8]) {
    let name = shown(name);
    assert_eq!(bytes.len(), expected.len(), "length of '{name}'");
    assert!(bytes == expected, "bytes of '{name}'");
}

#[test]
fn published_files() {
    let card = published();
    for (name, bytes) in &card.files {
        let ran = run(&[&"cat", &card.disk.path(), name]).expect(0);
        assert_eq!(ran.err, "", "of {ran:?}");
        expect_bytes(name, &ran.out, bytes);
    }
}

/// Holes, odd names, inline files and empty ones.
#[test]
fn built_files() {
    expect_built_files(&shared_card());
}

pub(crate) fn expect_built_files(card: &ProgramCard) {
    for file in &card.files {
        expect_built_file(card, &card.disk.path(), &file.name);
    }
}

/// A file of the card, which is at this path.
pub(crate) fn expect_built_file(card: &ProgramCard, path: &PathBuf, name: &[u8]) {
    let ran = run(&[&"cat", &"--", path, &name]).expect(0);
    assert_eq!(ran.err, "", "of {ran:?}");
    let bytes = card.file(name).bytes(&card.card.image);
    expect_bytes(name, &ran.out, &bytes);
}

/// To a file that had more bytes before.
#[test]
fn json_with_output() {
    expect_json_with_output(&shared_card());
}

fn expect_json_with_output(card: &ProgramCard) {
    let (image, path) = (&card.card.image, card.disk.path());
    let output = card.disk.scratch.path("json_with_output");
    for file in &card.files {
        fs::write(&output, vec![0xAA; 4_000_000]).unwrap();
        let ran = run(&[&"cat", &"--json", &"-o", &output, &path, &"--", &file.name]);
        let ran = ran.expect(0);
        assert_eq!(ran.err, "", "of {ran:?}");
        expect_bytes(&file.name, &fs::read(&output).unwrap(), &file.bytes(image));
        let json = ran.json();
        expect_head(&json, "cat", 0);
        expect_name(&json, &file.name);
        assert_eq!(json["image"].text(), path.to_str().unwrap());
        assert_eq!(json["output"].text(), output.to_str().unwrap());
        let counts = ["bytes", "blocks", "holes"].map(|key| json[key].number());
        let [blocks, holes] = [file.block_count(), file.hole_count()].map(u64::from);
        assert_eq!(counts, [file.size, blocks, holes], "in {json:?}");
        assert!(json.get("index").is_none(), "an index in {json:?}");
    }
}

/// What comes before the block that is refused is on standard output, and the message names that block. A
/// file isn't made.
#[test]
fn refused_on_the_way() {
    let card = shared_card();
    let path = card.disk.path();
    let before = &card.outside.bytes(&card.card.image)[..2 * BLOCK_SIZE];
    let ran = run(&[&"cat", &path, &OUTSIDE]).expect(2);
    expect_bytes(OUTSIDE, &ran.out, before);
    for part in [
        "block 2:",
        "(answer 13)",
        &meaning("cat", 13),
        " 8,192 bytes",
    ] {
        assert!(ran.err.contains(part), "no '{part}' in {ran:?}");
    }
    let output = card.disk.scratch.path("refused_on_the_way");
    let ran = run(&[&"cat", &"--json", &"-o", &output, &path, &OUTSIDE]).expect(2);
    assert!(!output.exists(), "made by {ran:?}");
    let counts = |json: &Json| ["index", "bytes", "blocks", "holes"].map(|key| json[key].number());
    let json = ran.json();
    expect_head(&json, "cat", 13);
    assert_eq!(counts(&json), [2, 0, 0, 0], "in {json:?}");
    let ran = run(&[&"cat", &"--json", &"-o", &"-", &path, &OUTSIDE]).expect(2);
    expect_bytes(OUTSIDE, &ran.out, before);
    let json = Json::parse(&ran.err).expect("an object");
    assert_eq!(counts(&json), [2, before.len() as u64, 2, 0], "in {json:?}");
    let ran = run(&[&"cat", &"-o", &output, &path, &OUTSIDE]);
    ran.expect_message(2, &["block 2:", "; nothing was written\n"]);
    assert!(!output.exists(), "made by cat");
}

/// Refused behind many holes, and at the first block. A file stays as it was.
#[test]
fn refused() {
    expect_refused(&shared_card());
}

fn expect_refused(card: &ProgramCard) {
    let path = card.disk.path();
    let kept = card.disk.scratch.path("refused");
    for (name, index, answer) in &card.refused {
        let ran = run(&[&"cat", &path, name]).expect(2);
        assert_eq!(ran.out.len(), *index as usize * BLOCK_SIZE, "of {ran:?}");
        for part in [&format!("(answer {answer})"), &meaning("cat", *answer)] {
            assert!(ran.err.contains(part), "no '{part}' in {ran:?}");
        }
        fs::write(&kept, "kept").unwrap();
        let ran = run(&[&"cat", &"--json", &"-o", &kept, &path, name]).expect(2);
        let json = ran.json();
        expect_head(&json, "cat", *answer);
        assert_eq!(json["index"].number(), u64::from(*index), "in {json:?}");
        assert_eq!(fs::read(&kept).unwrap(), b"kept", "touched by {ran:?}");
        assert_eq!(json["bytes"].number(), 0, "in {json:?}");
    }
}

/// Files that end, or are refused, around where the program's runs of pulls do.
#[test]
fn around_runs() {
    let card = ProgramCard::around_runs();
    expect_built_files(&card);
    expect_json_with_output(&card);
    expect_refused(&card);
}

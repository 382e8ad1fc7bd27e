//! Cards by the published tools aren't marked as damaged. Once they are, or have a number twice in a journal, no call reads
//! them. dump.f2fs shows the marks under their names.

use std::process::Command;

use harptimber_tests::calls::compares::{Compares, Kept, SAME};
use harptimber_tests::calls::every_call::EveryCall;
use harptimber_tests::cards::damage::HARMS;
use harptimber_tests::cards::image::Image;
use harptimber_tests::cards::layout::checkpoint::{CKPT_FLAGS, CP_ERROR_FLAG, CP_FSCK_FLAG};
use harptimber_tests::tools::outside::CardFile;
use harptimber_tests::tools::published::{filled_with, formatted, run, File};

fn expect_unmarked(image: &Image) {
    for which in image.packs() {
        let flags = image.get(image.first_block(which), CKPT_FLAGS);
        let marks = u64::from(CP_ERROR_FLAG | CP_FSCK_FLAG);
        assert_eq!(flags & marks, 0, "flags of pack {which} of {image:?}");
    }
}

/// A name that is there on a filled card, and not on a fresh one.
const NAME: &[u8] = b"file 7";

fn cards() -> Vec<Image> {
    let formats = [
        (64, ""),
        (64, "-z 2"),
        (100, "-s 2"),
        (100, "-a 1"),
        (1024, "-t 0"),
    ];
    let mut cards = formats
        .map(|(megabytes, options)| formatted(megabytes, options))
        .to_vec();
    let file = |n: usize| (format!("file {n}").into_bytes(), vec![n as u8; 5000 + n]);
    for count in [1, 40, 300] {
        let files: Vec<File> = (7..7 + count).map(file).collect();
        cards.push(filled_with(100, "", &files));
    }
    cards
}

/// In the pack in use, and in the other one, which says nothing.
#[test]
fn with_each_harm() {
    let mut every = EveryCall::new("cards by the tools, damaged");
    let mut compares = Compares::new("compare of cards by the tools, with the other pack damaged");
    for sound in &cards() {
        expect_unmarked(sound);
        let kept = Kept::new(sound, NAME, 0);
        let mut image = sound.clone();
        for harm in HARMS {
            for which in sound.packs() {
                harm(&mut image, which);
                match which == sound.pack_in_use() {
                    true => every.expect_refused(&kept, &image, 8),
                    false => compares.expect(&kept, &image, SAME),
                }
                image.undo(0);
            }
        }
    }
    every.finish(8 * 5, &[8]);
    compares.finish(3 * 5, &[(15, 0, 0)]);
}

/// The words behind "checkpoint state", one for each flag.
fn state(image: &Image) -> Vec<String> {
    let card = CardFile::of(image);
    let dump = run(Command::new("dump.f2fs").arg(card.path()));
    let dump = String::from_utf8_lossy(&dump);
    let line = dump.lines().find(|line| line.contains("checkpoint state"));
    let (_, words) = line
        .and_then(|line| line.split_once(" : "))
        .expect("a state");
    words.split_whitespace().map(str::to_string).collect()
}

#[test]
fn words_of_dump() {
    let mut image = formatted(64, "");
    let first = image.first_block(image.pack_in_use());
    for (flags, named) in [
        (0, &[][..]),
        (CP_ERROR_FLAG, &["error"]),
        (CP_FSCK_FLAG, &["fsck"]),
        (CP_ERROR_FLAG | CP_FSCK_FLAG, &["fsck", "error"]),
    ] {
        image.add_flags(first, flags);
        let mut words = state(&image);
        words.retain(|word| ["error", "fsck"].contains(&word.as_str()));
        assert_eq!(words, named, "with {flags:#x}");
        image.undo(0);
    }
}

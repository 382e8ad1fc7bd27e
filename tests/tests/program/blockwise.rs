//! `harptimber pull --blockwise`: what it reads, and blocks that can't be read. That it says and writes what `pull` does is
//! looked at wherever pulls are run.

use harptimber_tests::calls::pulls::Call;
use harptimber_tests::calls::readers::Read;
use harptimber_tests::cards::layout::BLOCK_SIZE;
use harptimber_tests::program::blocks_read::{BlocksRead, Reads};
use harptimber_tests::program::card::{shared_card, ProgramCard, LONG, ROAD};
use harptimber_tests::program::{run, Ran, Words};
use harptimber_tests::tools::published::Scratch;

/// The blocks that the library's reader asks for.
fn asked(card: &ProgramCard, name: &[u8], index: u32) -> Vec<u32> {
    Read::whole(&Call::new(&card.card.image, name, index)).asked
}

fn said(ran: &Ran) -> (i32, &[u8], &str) {
    (ran.status, &ran.out, &ran.err)
}

/// Every block that the reader asks for is read whole when it asks, and nothing is mapped. No other is read, unless there is no
/// block and the reason is sought.
#[test]
fn reads_what_is_asked_for() {
    let (card, blocks_read) = (shared_card(), BlocksRead::shared());
    let image = card.disk.path();
    let mut blocks = 0;
    for (name, index) in card.calls() {
        let words: Words = &[&"pull", &"--blockwise", &image, &"--", &name, &index];
        let (ran, notes) = blocks_read.run(words, Reads::Whole);
        let read = |block: u32| format!("read {} {BLOCK_SIZE}", block as usize * BLOCK_SIZE);
        let asked: Vec<String> = asked(&card, &name, index).into_iter().map(read).collect();
        assert!(notes.iter().all(|note| note.starts_with("read")), "{ran:?}");
        assert_eq!(notes[..asked.len()], asked, "{ran:?}");
        if card.pulled(&name, index).pulled.answer <= 1 {
            assert_eq!(notes.len(), asked.len(), "more than asked for by {ran:?}");
            blocks += 1;
        }
    }
    assert!(blocks >= 10, "{blocks} pulls with a block");
    let (_, notes) = blocks_read.run(&[&"pull", &image, &ROAD, &"5"], Reads::Whole);
    assert!(notes.iter().any(|note| note.starts_with("mapped")));
}

/// Reads that come short or are interrupted are gone on with.
#[test]
fn short_reads() {
    let (card, blocks_read) = (shared_card(), BlocksRead::shared());
    let image = card.disk.path();
    for (name, index) in [(ROAD, 5), (LONG, 925), (b"missing", 0)] {
        let words: Words = &[&"pull", &"--blockwise", &"--json", &image, &name, &index];
        let whole = run(&[words[0], words[2], &image, &name, &index]);
        let blocks = asked(&card, name, index).len();
        for reads in [1000, 2048, 4095].map(Reads::Short) {
            let (ran, notes) = blocks_read.run(words, reads);
            assert_eq!(said(&ran), said(&whole), "{reads:?}");
            assert!(notes.len() >= 2 * blocks, "{reads:?} {notes:?}");
        }
        let (ran, notes) = blocks_read.run(words, Reads::Interrupted);
        assert_eq!(said(&ran), said(&whole), "{:?}", notes);
    }
}

/// Any block that is asked for, with words, JSON and a file to write: a message, and nothing is written.
#[test]
fn unreadable_blocks() {
    let (card, blocks_read) = (shared_card(), BlocksRead::shared());
    let (image, scratch) = (card.disk.path(), Scratch::new());
    let output = scratch.path("block");
    let lost = "can't be read any more: it was cut short, or its medium fails\n";
    let message = format!("{}: {lost}", image.display());
    let blocks = asked(&card, LONG, 925);
    assert!(blocks.len() > 10, "{blocks:?}");
    for block in blocks {
        let plain: Words = &[&"pull", &"--blockwise", &image, &LONG, &"925"];
        let json: Words = &[&"pull", &"--blockwise", &"--json", &image, &LONG, &"925"];
        let to_file: Words = &[
            &"pull",
            &"--blockwise",
            &"-o",
            &output,
            &image,
            &LONG,
            &"925",
        ];
        for words in [plain, json, to_file] {
            let (ran, _) = blocks_read.run(words, Reads::But(block));
            ran.expect_message(2, &[&message]);
            assert!(!output.exists(), "a file in spite of block {block}");
        }
    }
}

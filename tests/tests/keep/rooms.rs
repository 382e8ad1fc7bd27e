//! Keep: the lent room. "The lent room is refused as too small exactly if the file doesn't fit, with 17, and then nothing
//! is written; else it answers 0 with the length, and later bytes stay."

use harptimber_tests::calls::keeps::Keeps;
use harptimber_tests::calls::pulls::Call;
use harptimber_tests::cards::deep_folders::DeepFolders;
use harptimber_tests::cards::folders::Folders;
use harptimber_tests::cards::layout::BLOCK_SIZE;
use harptimber_tests::sizes::{keep_most, NAMES_MOST};

use crate::Source;

fn call(source: &Source) -> Call<'_> {
    let [index, ..] = source.parts.pull;
    Call::new(&source.image, &source.parts.path, index)
}

/// Each length up to that of the shortest file and beyond.
#[test]
fn every_length() {
    let mut keeps = Keeps::new("keep by every length of the room");
    let source = Source::no_blocks(&mut keeps.trial.random);
    let enough = source.parts.laid_out().len();
    for len in 0..enough + 40 {
        keeps.expect_in(&[len], &call(&source), 9);
    }
    keeps.finish(4_000, &[9]);
}

/// Around the end of each number, path and block of a file.
#[test]
fn around_every_part() {
    let mut keeps = Keeps::new("keep by rooms that end around each part");
    for source in Source::all(&mut keeps.trial.random) {
        let [_, answer, _] = source.parts.pull;
        for (place, _) in source.parts.places() {
            for len in [place.end - 1, place.end, place.end + 1] {
                keeps.expect_in(&[len], &call(&source), answer);
            }
        }
    }
    keeps.finish(3 * (3 * 6 + 1), &[0, 2, 9]);
}

/// Rooms that are much longer.
#[test]
fn later_bytes() {
    let mut keeps = Keeps::new("keep in long rooms");
    for source in Source::all(&mut keeps.trial.random) {
        let [_, answer, _] = source.parts.pull;
        let len = source.parts.laid_out().len();
        let longer = [1, 4, BLOCK_SIZE, 10 * BLOCK_SIZE + 1, 1 << 20];
        let lens = longer.map(|more| len + more);
        keeps.expect_in(&lens, &call(&source), answer);
    }
    keeps.finish(3, &[0, 2, 9]);
}

/// The most that the header says is enough for so many names, with as much to keep as there comes to be.
#[test]
fn most_by_names() {
    let mut keeps = Keeps::new("keep with the most to be kept");
    for names in 1..=NAMES_MOST {
        let most = keep_most(names) as usize;
        let deep = DeepFolders::new(&mut keeps.trial.random, names as usize, 0);
        let long = Folders::of_len(&mut keeps.trial.random, names as usize, 255);
        let deepest = Call::new(&deep.card.image, &deep.path, deep.index);
        let path = long.path();
        for call in [deepest, Call::new(&long.card.image, &path, 0)] {
            keeps.expect(&call, 0);
            keeps.expect_in(&[most], &call, 0);
        }
    }
    keeps.finish(8 * 4, &[0]);
}

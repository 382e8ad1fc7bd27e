//! The card's block count, and paths that are none: out of shape is answered at the start.

use harptimber_tests::calls::lent::Lens;
use harptimber_tests::calls::pulls::{Call, Outcome, Pulls};
use harptimber_tests::calls::readers::{block_in, outcome_of, Read};
use harptimber_tests::cards::folders::{Folders, Shape};
use harptimber_tests::cards::image::Image;
use harptimber_tests::reader_start;
use harptimber_tests::sizes::CARD_BLOCKS_MOST;
use harptimber_tests::trial::{Random, Trial};

use crate::questions::expect_refused;

const BAD_PATHS: [&[u8]; 6] = [b"", b"/", b"road/", b"a//b", b"a\0b", b"1/2/3/4/5/6/7/8/9"];

fn image(random: &mut Random) -> (Image, Vec<u8>) {
    let folders = Folders::new(random, &[Shape::PLAIN; 2], 0);
    let path = folders.path();
    (folders.card.image, path)
}

/// Of 2 to 4,194,304 blocks a card is one.
#[test]
fn in_shape() {
    let mut trial = Trial::new("readers by the card's blocks");
    let (image, path) = image(&mut trial.random);
    let good = [2, 3, 4096, CARD_BLOCKS_MOST - 1, CARD_BLOCKS_MOST];
    let bad = [0, 1, CARD_BLOCKS_MOST + 1, 1 << 30, u32::MAX - 1, u32::MAX];
    let counts = good.map(|count| (count, true)).into_iter();
    for (count, in_shape) in counts.chain(bad.map(|count| (count, false))) {
        for path in BAD_PATHS.into_iter().chain([path.as_slice()]) {
            let asks = in_shape && !BAD_PATHS.contains(&path);
            for index in [0, u32::MAX] {
                let reader = reader_start(count, path, index);
                trial.compare((count, path), reader.wanted(), asks.then_some(0));
                let call = Call::new(&image, path, index);
                expect_refused(&mut trial, &call, &reader, Lens::of(call.names()));
            }
        }
    }
    trial.finish(11 * 7 * 2 * 2);
}

/// The same card told to have more blocks than it needs answers the same; told to have too few it is 5, after its two
/// superblocks.
#[test]
fn more_and_fewer_than_needed() {
    let mut trial = Trial::new("readers by blocks that a card needs");
    let (image, path) = image(&mut trial.random);
    let needed = image.areas.block_count;
    let call = Call::new(&image, &path, 0);
    let pulled = Outcome::of(harptimber_tests::pull, &call, call.least());
    // A superblock, a pack's two blocks, the other's first one and the journal; then an entry, an inode and a block for each
    // name and for the file.
    let asked = 5 + 3 * 3;
    for count in [2, 3, 512, needed - 1, needed, needed + 1, CARD_BLOCKS_MOST] {
        let start = reader_start(count, &path, 0);
        let read = Read::fed(start, 2, |block| block_in(image.bytes(), block));
        let outcome = outcome_of(&read.reader, call.least());
        if count < needed {
            trial.compare(count, (outcome.pulled.answer, read.asked), (5, vec![0, 1]));
        } else {
            trial.compare(
                count,
                (outcome.result(), read.asked.len()),
                (pulled.result(), asked),
            );
        }
    }
    trial.finish(7);
}

/// Cards of the fewest blocks, which have no room for a volume.
#[test]
fn fewest_blocks() {
    let mut pulls = Pulls::new("pull from cards of the fewest blocks");
    let (image, path) = image(&mut pulls.trial.random);
    for blocks in 2..8 {
        let call = Call {
            bytes: &image.bytes()[..blocks * 4096],
            ..Call::new(&image, &path, 0)
        };
        pulls.expect_call(&call, 5);
    }
    pulls.finish(6, &[5]);
}

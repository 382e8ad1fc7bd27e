//! Node lookup: the image's length, and which of several answers comes first.

use harptimber_tests::calls::lookups::Lookups;
use harptimber_tests::cards::damage::all_faults;
use harptimber_tests::cards::image::Image;
use harptimber_tests::cards::knobs::Knobs;
use harptimber_tests::cards::layout::BLOCK_SIZE;
use harptimber_tests::cards::lengths::{lengths, LENGTHS};

const NUMBERS: [u32; 4] = [0, 1, 3, u32::MAX];

/// Looks up numbers in the first `len` bytes; `answer` is that of numbers in range.
fn expect_at_length(lookups: &mut Lookups, image: &Image, len: usize, answer: u32) {
    for number in NUMBERS {
        let answer = match (answer, number) {
            (0, 0 | u32::MAX) => 9,
            _ => answer,
        };
        let input = ("cut to bytes", len, image);
        lookups.expect_in(input, &image.bytes()[..len], number, answer);
    }
}

#[test]
fn lengths_of_a_sound_card() {
    let mut lookups = Lookups::new("node lookup by length");
    let image = Image::to_be_cut(Knobs::sound());
    let blocks = image.areas.block_count as usize;
    let by_blocks = [
        (0, 4),
        (1, 4),
        (2, 5),
        (3, 5),
        (blocks - 1, 5),
        (blocks, 0),
        (blocks + 1, 0),
    ];
    for (blocks, answer) in by_blocks {
        expect_at_length(&mut lookups, &image, blocks * BLOCK_SIZE, answer);
    }
    for blocks in [1, 2, blocks] {
        for less in [1, 2, 4, 512, 1024, BLOCK_SIZE / 2, BLOCK_SIZE - 1] {
            expect_at_length(&mut lookups, &image, blocks * BLOCK_SIZE - less, 4);
        }
    }
    for (len, in_shape) in lengths() {
        let answer = if in_shape { 0 } else { 4 };
        expect_at_length(&mut lookups, &image, len, answer);
    }
    lookups.finish(4 * (7 + 3 * 7 + LENGTHS), &[0, 4, 5, 9]);
}

/// The bench sheet has the empty image, one block and, since larger cards are read, 4,194,305.
#[test]
fn lengths_of_zeros() {
    let mut lookups = Lookups::new("node lookup in zeros");
    let image = Image::largest(Knobs {
        copies: [false, false],
        packs: [None, None],
        ..Knobs::sound()
    });
    let by_blocks = [
        (0, 4),
        (1, 4),
        (2, 5),
        (262_144, 5),
        (262_145, 5),
        (4_194_304, 5),
        (4_194_305, 4),
    ];
    for (blocks, answer) in by_blocks {
        expect_at_length(&mut lookups, &image, blocks * BLOCK_SIZE, answer);
    }
    lookups.finish(4 * 7, &[4, 5]);
}

/// An image with everything wrong at once, of which one fault after the other is taken away.
#[test]
fn first_answer_that_applies() {
    let mut lookups = Lookups::new("node lookup with several faults");
    let mut image = Image::new(&Knobs::sound());
    let faults = all_faults(&mut image);
    let odd_length = image.bytes().len() - 1;
    expect_at_length(&mut lookups, &image, odd_length, 4);
    // 0 is out of range in any table.
    lookups.expect(&image, 0, 5);
    for (mark, answer) in faults.into_iter().chain([(0, 9)]) {
        image.undo(mark);
        lookups.expect(&image, 0, answer);
    }
    lookups.expect(&image, 3, 0);
    lookups.finish(4 + 6, &[0, 4, 5, 6, 7, 8, 9]);
}

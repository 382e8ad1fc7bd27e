//! Readers that are fed other bytes than the card's: they still answer, within the bounds and in form.

use std::ops::Range;

use harptimber_tests::calls::answers::Answers;
use harptimber_tests::calls::lent::Lent;
use harptimber_tests::calls::pulls::Call;
use harptimber_tests::calls::readers::{block_in, card_blocks, started, Read};
use harptimber_tests::cards::damage::Damage;
use harptimber_tests::cards::folders::{Folders, Shape};
use harptimber_tests::cards::image::Image;
use harptimber_tests::cards::layout::superblock::{
    BLOCK_COUNT, MAIN_BLKADDR, SEGMENT_COUNT, SEGMENT_COUNT_MAIN,
};
use harptimber_tests::cards::layout::{Field, BLOCK_SIZE, SEGMENT_BLOCKS};
use harptimber_tests::cards::random::pick;
use harptimber_tests::cards::random_files::{any_target, random_files, RandomFiles};
use harptimber_tests::cards::random_trees::random_trees;
use harptimber_tests::cards::walk_damage::strike_either;
use harptimber_tests::trial::{Random, Trial};

use crate::questions::Readers;

/// Feeds a reader, and remembers the last superblock that it was fed.
struct Feed<'a> {
    call: &'a Call<'a>,
    superblock: Vec<u8>,
    answers: &'a mut Answers,
}

impl<'a> Feed<'a> {
    fn of(call: &'a Call<'a>, answers: &'a mut Answers) -> Feed<'a> {
        Feed {
            call,
            superblock: Vec::new(),
            answers,
        }
    }

    /// To its end, with the bytes that `bytes` gives for a block, and holds what it gave to the paper.
    fn expect_in_form(&mut self, trial: &mut Trial, mut bytes: impl FnMut(u32) -> Vec<u8>) {
        let (names, blocks) = (self.call.names(), card_blocks(self.call.bytes));
        let read = Read::fed(started(self.call), names, |block| {
            let bytes = bytes(block);
            if block < 2 {
                self.superblock.clone_from(&bytes);
            }
            bytes
        });
        let outcome = read.outcome(Lent::of(names));
        let main = main_area(&self.superblock);
        let inside = outcome.blocks().iter().all(|block| main.contains(block));
        let broken = [read.broken(names, blocks), outcome.broken(names)].concat();
        self.answers.note(outcome.pulled.answer);
        trial.compare(
            ("fed other bytes", self.call),
            (broken, inside),
            (vec![], true),
        );
    }
}

/// By the superblock in a block.
fn main_area(block: &[u8]) -> Range<u32> {
    let number = |field: Field| u32::from_le_bytes(block[field.at..][..4].try_into().unwrap());
    let start = number(MAIN_BLKADDR);
    let len = number(SEGMENT_COUNT_MAIN).saturating_mul(SEGMENT_BLOCKS);
    start..start.saturating_add(len)
}

/// Bytes instead of a card's block, by random numbers and another card.
type Instead = fn(&mut Random, &[u8], u32, &Image) -> Vec<u8>;

const INSTEAD: [Instead; 6] = [
    |random, _, _, _| random.bytes(BLOCK_SIZE),
    |_, _, _, _| vec![0; BLOCK_SIZE],
    |_, _, _, _| vec![0xFF; BLOCK_SIZE],
    |_, _, block, other| {
        let block = block % card_blocks(other.bytes());
        block_in(other.bytes(), block).to_vec()
    },
    |random, _, _, other| {
        let block = random.below(u64::from(card_blocks(other.bytes())));
        block_in(other.bytes(), block as u32).to_vec()
    },
    |random, right, _, _| {
        let mut bytes = right.to_vec();
        for _ in 0..=random.below(8) {
            bytes[random.below(BLOCK_SIZE as u64) as usize] ^= 1 << random.below(8);
        }
        bytes
    },
];

/// From each ask of a pull on: other bytes once, from there on, or now and then.
#[test]
fn from_every_ask_on() {
    let mut readers = Readers::new("readers fed other bytes");
    let mut answers = Answers::default();
    let other = Folders::any(&mut readers.trial.random, 5, 0).card.image;
    readers.each_question(|trial, call| {
        for first in 0..Read::whole(call).asked.len() {
            for instead in INSTEAD {
                let once_in = pick(&mut trial.random, &[u64::MAX, 1, 3]);
                let mut random = Random::new(trial.random.number());
                let mut asked = 0..;
                Feed::of(call, &mut answers).expect_in_form(trial, |block| {
                    let right = block_in(call.bytes, block);
                    let nth = asked.next().expect("a number");
                    match nth == first || nth > first && random.below(once_in) == 0 {
                        true => instead(&mut random, right, block, &other),
                        false => right.to_vec(),
                    }
                });
            }
        }
    });
    readers.finish(15_000);
    answers.finish(&[0, 1, 2, 5, 7, 8, 9, 10, 11, 12, 13, 14]);
}

/// Numbers on the way of the pull change from one ask to the next.
#[test]
fn cards_that_change() {
    const CARDS: u64 = 12;
    const PULLS: u64 = 150;
    let mut trial = Trial::new("readers of cards that change");
    let mut answers = Answers::default();
    for n in 0..trial.times(CARDS) {
        let files = [random_files, random_trees][n as usize % 2];
        let RandomFiles { mut card, targets } = files(&mut trial.random);
        let (sound, opening) = (card.image.clone(), Damage::of(&card.image));
        for _ in 0..PULLS {
            let target = any_target(&targets, &mut trial.random);
            let call = Call::new(&sound, &target.name, target.index);
            let mut random = Random::new(trial.random.number());
            Feed::of(&call, &mut answers).expect_in_form(&mut trial, |block| {
                if random.below(5) == 0 {
                    strike_either(&mut card, (&opening, 8), target, &mut random);
                }
                card.image.block(block).to_vec()
            });
            card.image.undo(0);
        }
    }
    trial.finish(CARDS * PULLS);
    answers.finish(&[0, 1, 2, 3, 5, 7, 8, 9, 10, 11, 12, 13, 14]);
}

/// Behind a cut there are zeros, and the reader isn't told; or it is, and the superblock has room in what is left.
#[test]
fn cards_cut_short() {
    let mut trial = Trial::new("readers of cards cut short");
    let mut answers = Answers::default();
    let folders = Folders::new(&mut trial.random, &[Shape::PLAIN; 3], 1000);
    let path = folders.path();
    let mut image = folders.card.image;
    let (areas, whole) = (image.areas, card_blocks(image.bytes()));
    for cut in (0..whole).step_by(7) {
        let call = Call::new(&image, &path, 1000);
        Feed::of(&call, &mut answers).expect_in_form(&mut trial, |block| match block < cut {
            true => block_in(call.bytes, block).to_vec(),
            false => vec![0; BLOCK_SIZE],
        });
    }
    for main_segments in 0..(areas.main_end - areas.main) / SEGMENT_BLOCKS {
        let end = areas.main + main_segments * SEGMENT_BLOCKS;
        let segments = (end - areas.cp) / SEGMENT_BLOCKS;
        for copy in [0, 1] {
            image.set(copy, BLOCK_COUNT, end.into());
            image.set(copy, SEGMENT_COUNT, segments.into());
            image.set(copy, SEGMENT_COUNT_MAIN, main_segments.into());
        }
        let call = Call {
            bytes: &image.bytes()[..end as usize * BLOCK_SIZE],
            ..Call::new(&image, &path, 1000)
        };
        Feed::of(&call, &mut answers)
            .expect_in_form(&mut trial, |block| block_in(call.bytes, block).to_vec());
        image.undo(0);
    }
    trial.finish(u64::from(whole / 7));
    answers.finish(&[0, 5, 7, 10]);
}

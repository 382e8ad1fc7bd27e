//! Node lookup in random cards, sound and damaged.

use std::ops::RangeInclusive;

use harptimber_tests::calls::answers::Answers;
use harptimber_tests::calls::lookups::Lookups;
use harptimber_tests::cards::damage::Damage;
use harptimber_tests::cards::image::Image;
use harptimber_tests::cards::knobs::Knobs;
use harptimber_tests::cards::layout::nat::{NatEntry, ENTRIES_PER_BLOCK};
use harptimber_tests::cards::layout::BLOCK_SIZE;
use harptimber_tests::cards::random::{large_knobs, pick, sound_knobs, within};
use harptimber_tests::cards::versions::Apart;
use harptimber_tests::trial::Random;

/// A number to look up: in the journal, at a border, or any.
fn number(knobs: &Knobs, random: &mut Random) -> u32 {
    let past = knobs.node_numbers();
    let block = random.below(u64::from(past / ENTRIES_PER_BLOCK)) as u32;
    let inside = random.below(u64::from(past)) as u32;
    let any = random.number() as u32;
    let mut numbers = vec![0, past - 1, past, inside, any, block * ENTRIES_PER_BLOCK];
    for pack in knobs.packs.iter().flatten() {
        numbers.extend(pack.journal.iter().map(|entry| entry.nid));
    }
    pick(random, &numbers)
}

/// The entry of a number by the pack in use.
fn entry_in_use(knobs: &Knobs, image: &Image, number: u32) -> NatEntry {
    let (_, pack) = knobs.pack_in_use();
    let journalled = pack.journal.iter().find(|entry| entry.nid == number);
    let copy = pack.nat_copy(number / ENTRIES_PER_BLOCK);
    journalled.map_or_else(|| image.nat_entry(number, copy), |found| found.entry)
}

/// Bytes that no rule consults are junk. Returns how the packs' versions lay to each other.
fn expect_sound(name: &'static str, cards: u64, knobs: fn(&mut Random) -> Knobs) -> Answers<Apart> {
    let mut lookups = Lookups::new(name);
    let mut met = Answers::default();
    for _ in 0..lookups.trial.times(cards) {
        let knobs = knobs(&mut lookups.trial.random);
        let image = Image::new(&knobs);
        met.note_versions(&image);
        for _ in 0..50 {
            let number = number(&knobs, &mut lookups.trial.random);
            if 0 < number && number < knobs.node_numbers() {
                lookups.expect_entry(&image, number, entry_in_use(&knobs, &image, number));
            } else {
                lookups.expect(&image, number, 9);
            }
        }
    }
    lookups.finish(cards * 50, &[0, 9]);
    met
}

#[test]
fn sound_cards() {
    let met = expect_sound("node lookup in random cards", 150, sound_knobs);
    met.finish(&Apart::ALL);
}

#[test]
fn large_sound_cards() {
    expect_sound("node lookup in large random cards", 40, large_knobs);
}

/// Damages random cards, each time with so many strikes. They are undone before the next ones, so
/// that a card serves for many.
fn damaged_cards(
    name: &'static str,
    cards: u64,
    knobs: fn(&mut Random) -> Knobs,
    strikes: RangeInclusive<u64>,
) {
    const DAMAGES: u64 = 200;
    let mut lookups = Lookups::new(name);
    for _ in 0..lookups.trial.times(cards) {
        let knobs = knobs(&mut lookups.trial.random);
        let mut image = Image::new(&knobs);
        let damage = Damage::of(&image);
        for _ in 0..DAMAGES {
            let random = &mut lookups.trial.random;
            for _ in 0..within(random, &strikes) {
                damage.strike(&mut image, random);
            }
            let number = number(&knobs, random);
            lookups.compare(&image, number);
            image.undo(0);
        }
    }
    lookups.finish(cards * DAMAGES, &[0, 5, 6, 7, 8, 9]);
}

#[test]
fn cards_damaged_once() {
    let name = "node lookup in cards damaged once";
    damaged_cards(name, 75, sound_knobs, 1..=1);
}

#[test]
fn cards_damaged_several_times() {
    let name = "node lookup in cards damaged several times";
    damaged_cards(name, 75, sound_knobs, 2..=4);
}

#[test]
fn large_cards_damaged() {
    let name = "node lookup in large cards, damaged";
    damaged_cards(name, 15, large_knobs, 1..=3);
}

/// Cuts a card anywhere: at a block's end it may be in shape, but never holds all its blocks.
#[test]
fn cut_cards() {
    let mut lookups = Lookups::new("node lookup in cut cards");
    for _ in 0..lookups.trial.times(10) {
        let knobs = sound_knobs(&mut lookups.trial.random);
        let image = Image::new(&knobs);
        let card_len = u64::from(image.areas.block_count) * BLOCK_SIZE as u64;
        for _ in 0..100 {
            let len = lookups.trial.random.below(card_len) as usize;
            let whole = len - len % BLOCK_SIZE;
            let at_block_end = if whole <= BLOCK_SIZE { 4 } else { 5 };
            for (len, answer) in [(len | 1, 4), (whole, at_block_end)] {
                let input = ("cut to bytes", len, &image);
                lookups.expect_in(input, &image.bytes()[..len], 3, answer);
            }
        }
    }
    lookups.finish(10 * 200, &[4, 5]);
}

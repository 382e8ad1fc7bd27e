//! Segment reports of random cards, sound and damaged.

use std::ops::RangeInclusive;

use harptimber_tests::calls::answers::Answers;
use harptimber_tests::calls::segments::{needed, Report, Reports};
use harptimber_tests::cards::damage::Damage;
use harptimber_tests::cards::image::Image;
use harptimber_tests::cards::knobs::Knobs;
use harptimber_tests::cards::layout::BLOCK_SIZE;
use harptimber_tests::cards::random::{between, large_knobs, pick, sound_knobs, within};
use harptimber_tests::cards::random_segments::{
    random_segments, sit_entry, sit_journal, RandomSegments,
};
use harptimber_tests::cards::segments::SegmentCard;
use harptimber_tests::cards::versions::Apart;
use harptimber_tests::trial::Random;

/// Of up to 120 main segments, in any sound layout.
fn card(random: &mut Random) -> RandomSegments {
    let knobs = Knobs {
        main_segments: between(random, 0, 120),
        junk: None,
        ..sound_knobs(random)
    };
    random_segments(random, knobs)
}

/// Of more than 1 GiB, with up to as many as fit.
fn large_card(random: &mut Random) -> RandomSegments {
    let knobs = Knobs {
        junk: None,
        ..large_knobs(random)
    };
    random_segments(random, knobs)
}

/// Makes a card.
type Segments = fn(&mut Random) -> RandomSegments;

/// Returns how the packs' versions lay to each other.
fn expect_sound(name: &'static str, cards: u64, segments: Segments) -> Answers<Apart> {
    let mut reports = Reports::new(name);
    let mut met = Answers::default();
    for _ in 0..reports.trial.times(cards) {
        let RandomSegments {
            card,
            table,
            journal,
        } = segments(&mut reports.trial.random);
        met.note_versions(&card.image);
        reports.expect(&card.image, &Report::by_entries(&table, &journal));
    }
    reports.finish(cards, &[0]);
    met
}

#[test]
fn sound_cards() {
    let met = expect_sound("segment report of random cards", 150, card);
    met.finish(&Apart::ALL);
}

#[test]
fn large_sound_cards() {
    expect_sound("segment report of large random cards", 20, large_card);
}

/// Whatever bytes stand in the table and in the map.
#[test]
fn junk_tables() {
    let mut reports = Reports::new("segment report of junk");
    for _ in 0..reports.trial.times(100) {
        let random = &mut reports.trial.random;
        let mut knobs = sound_knobs(random);
        for pack in knobs.packs.iter_mut().flatten() {
            pack.sit_journal = Some(sit_journal(random, knobs.main_segments));
        }
        let image = Image::new(&knobs);
        reports.compare(&image, needed(&image));
    }
    reports.finish(100, &[0]);
}

/// Sound cards whose journal and table change again and again.
#[test]
fn changing_cards() {
    let mut reports = Reports::new("segment report of changing cards");
    for _ in 0..reports.trial.times(20) {
        let RandomSegments {
            mut card,
            mut table,
            ..
        } = card(&mut reports.trial.random);
        let segments = card.sit.main_segments;
        for _ in 0..50 {
            let random = &mut reports.trial.random;
            let journal = sit_journal(random, segments);
            card.put_journal(&journal);
            for _ in 0..segments.min(20) {
                let segno = random.below(segments.into()) as u32;
                table[segno as usize] = sit_entry(random);
                card.set_entry(segno, &table[segno as usize]);
            }
            reports.expect(&card.image, &Report::by_entries(&table, &journal));
        }
    }
    reports.finish(20 * 50, &[0]);
}

/// A list that is mostly long enough.
fn list_len(random: &mut Random, needed: usize) -> usize {
    let any = random.below(needed as u64 + 8) as usize;
    pick(random, &[needed, needed, needed, needed, needed + 4, any])
}

/// Damages random cards, each time with so many strikes. They are undone before the next ones.
fn damaged_cards(name: &'static str, cards: u64, segments: Segments, strikes: RangeInclusive<u64>) {
    const DAMAGES: u64 = 200;
    let mut reports = Reports::new(name);
    for _ in 0..reports.trial.times(cards) {
        let SegmentCard { mut image, sit } = segments(&mut reports.trial.random).card;
        let damage = Damage::of(&image);
        for _ in 0..DAMAGES {
            let random = &mut reports.trial.random;
            for _ in 0..within(random, &strikes) {
                match random.below(4) {
                    0 => damage.strike(&mut image, random),
                    _ => sit.strike(&mut image, random),
                }
            }
            let len = list_len(random, needed(&image));
            reports.compare(&image, len);
            image.undo(0);
        }
    }
    reports.finish(cards * DAMAGES, &[0, 4, 5, 6, 7, 8]);
}

#[test]
fn cards_damaged_once() {
    let name = "segment report of cards damaged once";
    damaged_cards(name, 40, card, 1..=1);
}

#[test]
fn cards_damaged_several_times() {
    let name = "segment report of cards damaged several times";
    damaged_cards(name, 40, card, 2..=6);
}

#[test]
fn large_cards_damaged() {
    let name = "segment report of large cards, damaged";
    damaged_cards(name, 6, large_card, 1..=4);
}

/// Bytes anywhere before the main area, many at a time; the packs' first blocks get their checksums.
#[test]
fn bytes_anywhere() {
    let mut reports = Reports::new("segment report with bytes changed anywhere");
    for _ in 0..reports.trial.times(20) {
        let mut image = card(&mut reports.trial.random).card.image;
        let packs: Vec<usize> = image.packs().collect();
        let metadata = u64::from(image.areas.main) * BLOCK_SIZE as u64;
        for _ in 0..50 {
            let random = &mut reports.trial.random;
            for _ in 0..1 << random.below(12) {
                let place = random.below(metadata);
                let (block, at) = (place / BLOCK_SIZE as u64, place % BLOCK_SIZE as u64);
                let byte = random.number() as u8;
                image.put("byte", block as u32, at as usize, &[byte]);
            }
            for &which in &packs {
                image.seal(image.first_block(which));
            }
            reports.compare(&image, needed(&image));
            image.undo(0);
        }
    }
    reports.finish(20 * 50, &[0]);
}

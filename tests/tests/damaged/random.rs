//! Random cards, with journals of few numbers and damaged as volumes are.

use harptimber_tests::calls::compares::{Compares, Kept};
use harptimber_tests::calls::lookups::Lookups;
use harptimber_tests::calls::pulls::Pulls;
use harptimber_tests::calls::segments::{needed, Reports};
use harptimber_tests::cards::card::ROOT;
use harptimber_tests::cards::damage::{Damage, HARMS};
use harptimber_tests::cards::image::Image;
use harptimber_tests::cards::knobs::Knobs;
use harptimber_tests::cards::layout::journal::{names_one_twice, JournalEntry, MOST_ENTRIES};
use harptimber_tests::cards::layout::nat::ENTRIES_PER_BLOCK;
use harptimber_tests::cards::random::{nat_entry, pick, sound_knobs};
use harptimber_tests::cards::random_files::{any_target, random_files, RandomFiles};
use harptimber_tests::trial::Random;

use crate::PACKS;

/// Up to full, with numbers from so few that some stand there twice as often as none does.
fn few_numbers(random: &mut Random, past: u32) -> Vec<JournalEntry> {
    let entries = random.below(MOST_ENTRIES as u64 + 1);
    let range = entries * entries * 3 / 4 + 1;
    let any = random.number() as u32;
    let around = (range / 2) as u32;
    let start = pick(random, &[0, past - around, u32::MAX - around, any]);
    let entry = |_| JournalEntry {
        nid: start.wrapping_add(random.below(range) as u32),
        entry: nat_entry(random),
    };
    (0..entries).map(entry).collect()
}

/// Looks up a number of the journal, or another.
fn expect_number(lookups: &mut Lookups, knobs: &Knobs, image: &Image) {
    let (which, pack) = knobs.pack_in_use();
    let journal = image.journal(which);
    let random = &mut lookups.trial.random;
    let any = random.below(u64::from(knobs.node_numbers())) as u32;
    let journalled = journal.iter().map(|entry| entry.nid);
    let numbers: Vec<u32> = journalled.chain([0, 1, ROOT, any]).collect();
    let number = pick(random, &numbers);
    if names_one_twice(&journal) {
        return lookups.expect(image, number, 8);
    }
    if number == 0 || number >= knobs.node_numbers() {
        return lookups.expect(image, number, 9);
    }
    let in_table = image.nat_entry(number, pack.nat_copy(number / ENTRIES_PER_BLOCK));
    let journalled = journal.iter().find(|entry| entry.nid == number);
    lookups.expect_entry(
        image,
        number,
        journalled.map_or(in_table, |found| found.entry),
    );
}

/// The journal of the pack that isn't in use says nothing.
#[test]
fn journals_of_few_numbers() {
    const CARDS: u64 = 25;
    const JOURNALS: u64 = 100;
    const NUMBERS: u64 = 5;
    let mut lookups = Lookups::new("node lookup with journals of few numbers");
    let mut twice = 0;
    for _ in 0..lookups.trial.times(CARDS) {
        let knobs = sound_knobs(&mut lookups.trial.random);
        let mut image = Image::new(&knobs);
        for _ in 0..JOURNALS {
            for which in PACKS
                .into_iter()
                .filter(|&which| knobs.packs[which].is_some())
            {
                let journal = few_numbers(&mut lookups.trial.random, knobs.node_numbers());
                image.set_journal(which, &journal);
            }
            twice += u64::from(names_one_twice(&image.journal(knobs.pack_in_use().0)));
            for _ in 0..NUMBERS {
                expect_number(&mut lookups, &knobs, &image);
            }
            image.undo(0);
        }
    }
    let journals = lookups.trial.times(CARDS * JOURNALS);
    let as_often = journals / 3..journals * 2 / 3;
    assert!(
        as_often.contains(&twice),
        "{twice} of {journals} with twins"
    );
    lookups.finish(CARDS * JOURNALS * NUMBERS, &[0, 8, 9]);
}

/// Up to two harms to packs that are there, and up to two other damages to what a card is opened by.
fn damage(image: &mut Image, opening: &Damage, random: &mut Random) {
    let packs: Vec<usize> = image.packs().collect();
    for _ in 0..random.below(3) {
        let harm = pick(random, &HARMS);
        harm(image, pick(random, &packs));
    }
    for _ in 0..random.below(3) {
        opening.strike(image, random);
    }
}

/// Every call, against the reference.
#[test]
fn damaged_files() {
    const CARDS: u64 = 12;
    const DAMAGES: u64 = 150;
    let mut pulls = Pulls::new("pull from damaged volumes");
    let mut lookups = Lookups::new("node lookup in damaged volumes");
    let mut reports = Reports::new("segment report of damaged volumes");
    let mut compares = Compares::new("compare with damaged volumes");
    for _ in 0..pulls.trial.times(CARDS) {
        let RandomFiles { mut card, targets } = random_files(&mut pulls.trial.random);
        let sound = card.image.clone();
        let opening = Damage::of(&sound);
        for _ in 0..DAMAGES {
            let random = &mut pulls.trial.random;
            damage(&mut card.image, &opening, random);
            let target = any_target(&targets, random);
            let (name, index) = target.any_call(random);
            lookups.compare(&card.image, pick(random, &[0, ROOT, 9]));
            pulls.compare(&card.image, &name, index);
            reports.compare(&card.image, needed(&card.image));
            for [kept, fresh] in [[&sound, &card.image], [&card.image, &sound]] {
                compares.compare(&Kept::new(kept, &target.name, target.index), fresh);
            }
            card.image.undo(0);
        }
    }
    let refusals = [5, 6, 7, 8];
    pulls.finish(CARDS * DAMAGES, &[&[0, 1, 2], &refusals[..]].concat());
    lookups.finish(CARDS * DAMAGES, &[&[0, 9], &refusals[..]].concat());
    reports.finish(CARDS * DAMAGES, &refusals);
    let by_side = refusals.map(|answer| [(answer, 1, 0), (answer, 2, 0)]);
    compares.finish(2 * CARDS * DAMAGES, by_side.as_flattened());
}

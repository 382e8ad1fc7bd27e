//! The order of the NAT journal's entries says nothing, as no number stands there twice.

use harptimber_tests::calls::compares::{Compares, Kept, SAME};
use harptimber_tests::calls::lookups::Lookups;
use harptimber_tests::calls::segments::{Report, Reports};
use harptimber_tests::cards::card::Card;
use harptimber_tests::cards::layout::journal::{JournalEntry, MOST_ENTRIES};
use harptimber_tests::cards::random::{nat_entry, pick, shuffle};
use harptimber_tests::cards::random_files::{random_files, RandomFiles};
use harptimber_tests::trial::Random;

const ORDERS: u64 = 6;

/// The journal of a card, which has some of its nodes, and entries for other numbers: mostly as many as have room.
fn longer_journal(card: &mut Card, random: &mut Random) -> Vec<JournalEntry> {
    let mut journal = card.image.journal(card.which_pack);
    let some = 1 + random.below(MOST_ENTRIES as u64) as usize;
    let entries = pick(random, &[MOST_ENTRIES, MOST_ENTRIES, some]);
    while journal.len() < entries {
        let any = random.number() as u32;
        let nid = pick(random, &[card.free_number(), card.free_number(), any]);
        if journal.iter().all(|entry| entry.nid != nid) {
            let entry = nat_entry(random);
            journal.push(JournalEntry { nid, entry });
        }
    }
    shuffle(random, &mut journal);
    journal
}

/// Rising, falling, turned round, by one place on, and any others.
fn order(n: u64, journal: &[JournalEntry], random: &mut Random) -> Vec<JournalEntry> {
    let mut journal = journal.to_vec();
    match n {
        0 => journal.sort_by_key(|entry| entry.nid),
        1 => journal.sort_by_key(|entry| !entry.nid),
        2 => journal.reverse(),
        3 => journal.rotate_right(1),
        _ => shuffle(random, &mut journal),
    }
    journal
}

/// Every entry is found, or its number is out of range.
fn expect_entries(lookups: &mut Lookups, card: &Card, journal: &[JournalEntry]) {
    for &JournalEntry { nid, entry } in journal {
        match 0 < nid && nid < card.node_numbers {
            true => lookups.expect_entry(&card.image, nid, entry),
            false => lookups.expect(&card.image, nid, 9),
        }
    }
}

/// A card under one order after the other: all pulls and lookups say the same. Whenever two cards compare as the same,
/// the pull from the new one is made too.
#[test]
fn of_cards_that_open() {
    const CARDS: u64 = 25;
    let mut compares = Compares::new("compare with journals in other orders");
    let mut lookups = Lookups::new("node lookup with journals in other orders");
    for _ in 0..compares.trial.times(CARDS) {
        let random = &mut compares.trial.random;
        let RandomFiles { mut card, targets } = random_files(random);
        let journal = longer_journal(&mut card, random);
        card.image.set_journal(card.which_pack, &journal);
        card.image.settle("a longer journal");
        let kept = card.image.clone();
        expect_entries(&mut lookups, &card, &journal);
        for n in 0..ORDERS {
            let order = order(n, &journal, &mut compares.trial.random);
            card.image.set_journal(card.which_pack, &order);
            expect_entries(&mut lookups, &card, &journal);
            for target in &targets {
                let kept = Kept::new(&kept, &target.name, target.index);
                compares.expect(&kept, &card.image, SAME);
            }
            card.image.undo(0);
        }
    }
    compares.finish(CARDS * ORDERS * 16, &[(15, 0, 0)]);
    lookups.finish(CARDS * (1 + ORDERS) * 10, &[0, 9]);
}

/// Neither does it where a number stands twice: then no order is read.
#[test]
fn of_cards_that_do_not() {
    const CARDS: u64 = 12;
    let mut lookups = Lookups::new("node lookup with twins in any order");
    let mut reports = Reports::new("segment report with twins in any order");
    for _ in 0..lookups.trial.times(CARDS) {
        let random = &mut lookups.trial.random;
        let mut card = random_files(random).card;
        let mut journal = longer_journal(&mut card, random);
        journal.truncate(MOST_ENTRIES - 1);
        journal.push(pick(random, &journal));
        for n in 0..8 * ORDERS {
            let order = order(n, &journal, &mut lookups.trial.random);
            card.image.set_journal(card.which_pack, &order);
            lookups.expect(&card.image, journal[0].nid, 8);
            reports.expect(&card.image, &Report::refused(8));
            card.image.undo(0);
        }
    }
    lookups.finish(CARDS * 8 * ORDERS, &[8]);
    reports.finish(CARDS * 8 * ORDERS, &[8]);
}

//! Node lookup: the journal's count and entries.

use harptimber_tests::calls::lookups::{distinct_entry, journalled, Lookups};
use harptimber_tests::cards::image::Image;
use harptimber_tests::cards::knobs::{Knobs, Pack};
use harptimber_tests::cards::layout::checkpoint::CP_UMOUNT_FLAG;
use harptimber_tests::cards::layout::journal::{JournalEntry, MOST_ENTRIES, N_NATS};
use harptimber_tests::cards::layout::nat::NatEntry;
use harptimber_tests::cards::layout::Field;
use harptimber_tests::cards::random::nat_entry;

/// The first number that a full journal has here.
const FIRST: u32 = 10;

/// A card with this journal, compact or plain, its table full of junk; and the journal's count.
fn with_journal(compact: bool, journal: Vec<JournalEntry>) -> (Image, u32, Field) {
    let pack = Pack {
        journal,
        ..match compact {
            true => Pack::compact(1),
            false => Pack::plain(1, CP_UMOUNT_FLAG),
        }
    };
    let image = Image::new(&Knobs {
        junk: Some(1),
        ..Knobs::sound().with_pack(0, pack)
    });
    let (block, at) = image.journal_place(0);
    (image, block, N_NATS.moved(at))
}

/// As many entries as are read, for numbers from `FIRST` on.
fn full() -> Vec<JournalEntry> {
    let entry = |n| journalled(FIRST + n, distinct_entry(n));
    (0..MOST_ENTRIES as u32).map(entry).collect()
}

/// Whatever stands after the counted entries isn't read. The table's first copies are in use.
#[test]
fn entries_up_to_the_count() {
    let mut lookups = Lookups::new("node lookup by journal count");
    for compact in [true, false] {
        let (mut image, block, count) = with_journal(compact, full());
        for counted in 0..=MOST_ENTRIES as u32 {
            image.set(block, count, u64::from(counted));
            for n in 0..MOST_ENTRIES as u32 {
                let in_table = image.nat_entry(FIRST + n, 0);
                let entry = if n < counted {
                    distinct_entry(n)
                } else {
                    in_table
                };
                lookups.expect_entry(&image, FIRST + n, entry);
            }
        }
    }
    lookups.finish(2 * 39 * 38, &[0]);
}

/// By the bench sheet a count of 38 is read and 39 is 8; so are all greater ones.
#[test]
fn counts_past_the_most() {
    let mut lookups = Lookups::new("node lookup by too great journal counts");
    for compact in [true, false] {
        let (mut image, block, count) = with_journal(compact, full());
        lookups.expect(&image, FIRST, 0);
        let powers = (8..16).flat_map(|bit| [(1 << bit) - 1, 1 << bit, (1 << bit) + 38]);
        for counted in (39..=300).chain(powers).chain([65_535]) {
            image.set(block, count, counted);
            lookups.expect(&image, FIRST, 8);
        }
    }
    lookups.finish(2 * (1 + 262 + 24 + 1), &[0, 8]);
}

/// A number out of range is 9, also if the journal has it.
#[test]
fn numbers_out_of_range() {
    let mut lookups = Lookups::new("node lookup of journalled numbers out of range");
    let past = Knobs::sound().node_numbers();
    let outside = [0, past, past + 1, 2 * past, 1 << 31, u32::MAX];
    let inside = [1, past - 1];
    for compact in [true, false] {
        let numbers = outside.iter().chain(&inside);
        let journal = numbers
            .map(|&nid| journalled(nid, distinct_entry(1)))
            .collect();
        let (image, ..) = with_journal(compact, journal);
        for number in outside {
            lookups.expect(&image, number, 9);
        }
        for number in inside {
            lookups.expect_entry(&image, number, distinct_entry(1));
        }
    }
    lookups.finish(2 * 8, &[0, 9]);
}

/// Entries for numbers that differ in a bit from the one sought.
#[test]
fn numbers_beside_the_one_sought() {
    let mut lookups = Lookups::new("node lookup beside journalled numbers");
    for compact in [true, false] {
        for number in [1, 455, 0x1_2345] {
            let other = |bit| journalled(number ^ (1u32 << bit), distinct_entry(bit));
            let (image, ..) = with_journal(compact, (0..32).map(other).collect());
            lookups.expect_entry(&image, number, image.nat_entry(number, 0));
        }
    }
    lookups.finish(2 * 3, &[0]);
}

/// An entry counts as it is stored: also address 0, which the table would have otherwise.
#[test]
fn any_entry() {
    let mut lookups = Lookups::new("node lookup of any journal entry");
    let numbers = [0, 1, 0x80, 0xFF, 0x100, 1 << 31, u32::MAX];
    let entry = |version, ino, block_addr| NatEntry {
        version,
        ino,
        block_addr,
    };
    let pairs = numbers.iter().flat_map(|&a| numbers.map(|b| (a, b)));
    let mut entries: Vec<NatEntry> = pairs.map(|(a, b)| entry(0, a, b)).collect();
    entries.extend((0..=255).map(|version| entry(version, 7, 8)));
    for _ in 0..lookups.trial.times(200) {
        entries.push(nat_entry(&mut lookups.trial.random));
    }
    for compact in [true, false] {
        let (mut image, block, count) = with_journal(compact, Vec::new());
        for &entry in &entries {
            image.put_journal(block, count.at, &[journalled(FIRST, entry)]);
            lookups.expect_entry(&image, FIRST, entry);
            image.undo(0);
        }
    }
    lookups.finish(2 * (49 + 256 + 200), &[0]);
}

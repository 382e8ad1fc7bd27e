//! A number twice in the NAT journal of a pack that stands alone.

use harptimber_tests::calls::every_call::EveryCall;
use harptimber_tests::calls::lookups::{distinct_entry, journalled, Lookups};
use harptimber_tests::cards::card::ROOT;
use harptimber_tests::cards::knobs::Pack;
use harptimber_tests::cards::layout::checkpoint::CP_UMOUNT_FLAG;
use harptimber_tests::cards::layout::journal::{JournalEntry, ENTRY_SIZE, MOST_ENTRIES, N_NATS};
use harptimber_tests::cards::layout::nat;

use crate::{kinds, kinds_in_both, Volume};

/// The two places of each pair among so many.
fn pairs(entries: usize) -> impl Iterator<Item = [usize; 2]> {
    (0..entries).flat_map(move |second| (0..second).map(move |first| [first, second]))
}

/// So many there are of 2, 3 and 38 entries.
const PAIRS: u64 = 1 + 3 + 703;

/// The same journal with a twin of an entry, in all or only in its number.
fn with_twin(
    journal: &[JournalEntry],
    [first, second]: [usize; 2],
    equal: bool,
) -> Vec<JournalEntry> {
    let mut journal = journal.to_vec();
    let JournalEntry { nid, .. } = journal[first];
    journal[second] = match equal {
        true => journal[first],
        false => journalled(nid, journal[second].entry),
    };
    journal
}

/// Of 2, 3 and 38 entries, with equal and unequal twins, for every call.
fn expect_pairs(every: &mut EveryCall, which: usize, pack: Pack) {
    let mut volume = Volume::new(which, pack);
    let journals = [2, 3, MOST_ENTRIES].map(|entries| volume.journal(entries));
    volume.try_changes(|image, sound| {
        for journal in &journals {
            image.set_journal(which, journal);
            every.expect_read(sound, image);
            for (pair, equal) in pairs(journal.len()).flat_map(|p| [(p, true), (p, false)]) {
                image.undo(0);
                image.set_journal(which, &with_twin(journal, pair, equal));
                every.expect_refused(&sound.kept, image, 8);
            }
            image.undo(0);
        }
    });
}

#[test]
fn every_pair_of_a_compact_pack() {
    let mut every = EveryCall::new("twins of a compact pack");
    expect_pairs(&mut every, 0, Pack::compact(1));
    every.finish(3 + 2 * PAIRS, &[0, 8]);
}

#[test]
fn every_pair_of_a_plain_pack() {
    let mut every = EveryCall::new("twins of a plain pack");
    expect_pairs(&mut every, 1, Pack::plain(1, CP_UMOUNT_FLAG));
    every.finish(3 + 2 * PAIRS, &[0, 8]);
}

/// In either place and of each kind: with the second of the two counted last, and right behind the count.
#[test]
fn around_the_count() {
    let mut lookups = Lookups::new("twins around the journal's count");
    for (which, pack) in kinds_in_both() {
        let mut volume = Volume::new(which, pack);
        let journal = volume.journal(MOST_ENTRIES);
        volume.try_changes(|image, sound| {
            let (number, entry) = sound.content.entries[0];
            for (pair, equal) in pairs(MOST_ENTRIES).zip([true, false].into_iter().cycle()) {
                image.set_journal(which, &with_twin(&journal, pair, equal));
                lookups.expect(image, number, 8);
                image.set_journal_count(which, pair[1] + 1);
                lookups.expect(image, number, 8);
                image.set_journal_count(which, pair[1]);
                lookups.expect_entry(image, number, entry);
                image.undo(0);
            }
        });
    }
    lookups.finish(2 * 4 * 703 * 3, &[0, 8]);
}

/// As many entries as have room, all for one number, of which none, one, two and more are counted.
#[test]
fn counts_of_one_number() {
    let mut every = EveryCall::new("one number, by the journal's count");
    for (which, pack) in kinds() {
        let volume = Volume::new(which, pack);
        let journal = [volume.entry(ROOT); MOST_ENTRIES];
        volume.try_changes(|image, sound| {
            image.set_journal(which, &journal);
            for count in [0, 1] {
                image.set_journal_count(which, count);
                every.expect_read(sound, image);
            }
            // By the count alone it would be 8 from 39 on.
            for count in (2..=41).chain([255, 256, 65_535]) {
                image.set_journal_count(which, count);
                every.expect_refused(&sound.kept, image, 8);
            }
        });
    }
    every.finish(4 * 45, &[0, 8]);
}

/// Behind a full journal stands one more entry, as far as the SIT journal of a compact pack leaves room. Counted, it
/// makes the journal too long, whether it is a twin or not.
#[test]
fn thirty_ninth_entry() {
    let mut every = EveryCall::new("twins behind a full journal");
    for (which, pack) in kinds_in_both() {
        let mut volume = Volume::new(which, pack);
        let journal = volume.journal(MOST_ENTRIES);
        let (twins, other) = ([journal[0], journal[37]], journalled(8, distinct_entry(8)));
        volume.try_changes(|image, sound| {
            image.set_journal(which, &journal);
            let (block, at) = image.journal_place(which);
            for entry in twins.into_iter().chain([other]) {
                let behind = at + N_NATS.size + MOST_ENTRIES * ENTRY_SIZE;
                image.put("39th entry", block, behind, &entry.stored()[..11]);
                every.expect_read(sound, image);
                image.set_journal_count(which, MOST_ENTRIES + 1);
                every.expect_refused(&sound.kept, image, 8);
                image.set_journal_count(which, MOST_ENTRIES);
            }
        });
    }
    every.finish(2 * 4 * 3 * 2, &[0, 8]);
}

/// Numbers at borders, in range and out of it.
fn numbers(volume: &Volume) -> [u32; 12] {
    let past = volume.scene.card.node_numbers;
    let far = [1 << 24, 1 << 31, u32::MAX - 1, u32::MAX];
    let near = [0, 1, 2, ROOT, 255, 256, past - 1, past];
    [near.as_slice(), &far].concat().try_into().unwrap()
}

/// Each number once is read; each twice isn't, whether the volume has need of it or not.
#[test]
fn any_number() {
    const PLACES: [[usize; 2]; 5] = [[0, 1], [0, 37], [36, 37], [5, 6], [11, 30]];
    let mut every = EveryCall::new("twins of any number");
    for (which, pack) in kinds() {
        let mut volume = Volume::new(which, pack);
        let full = volume.journal(MOST_ENTRIES);
        let once = numbers(&volume).map(|nid| volume.entry(nid));
        volume.try_changes(|image, sound| {
            image.set_journal(which, &once);
            every.expect_read(sound, image);
            for entry in once {
                image.set_journal(which, &[entry]);
                every.expect_read(sound, image);
                image.set_journal(which, &[entry; 2]);
                every.expect_refused(&sound.kept, image, 8);
                for pair in PLACES {
                    let mut journal = full.clone();
                    journal[pair[0]] = entry;
                    journal[pair[1]] = entry;
                    image.set_journal(which, &journal);
                    every.expect_refused(&sound.kept, image, 8);
                }
                image.undo(0);
            }
        });
    }
    every.finish(4 * (1 + 12 * 7), &[0, 8]);
}

/// Three entries and more for one number, and several numbers with two.
#[test]
fn more_than_two() {
    let mut every = EveryCall::new("more than one twin");
    for (which, pack) in kinds() {
        let mut volume = Volume::new(which, pack);
        let full = volume.journal(MOST_ENTRIES);
        volume.try_changes(|image, sound| {
            for modulus in 1..MOST_ENTRIES {
                let journal = full.iter().enumerate();
                let journal: Vec<_> = journal
                    .map(|(place, entry)| journalled(full[place % modulus].nid, entry.entry))
                    .collect();
                image.set_journal(which, &journal);
                every.expect_refused(&sound.kept, image, 8);
                image.undo(0);
            }
        });
    }
    every.finish(4 * 37, &[8]);
}

/// Numbers of which any two differ in one byte alone, in each of the four, or in two bits; ROOT isn't among them.
fn numbers_alike(most: u32) -> Vec<Vec<u32>> {
    let bytes = (0..4).map(|byte| (1..=most).map(|n| 0x0102_0304 ^ n << (8 * byte)).collect());
    let bits =
        [0x0102_0304, 0, u32::MAX].map(|start| (0..32).map(|bit| start ^ 1 << bit).collect());
    bytes.chain(bits).collect()
}

/// Numbers that aren't quite the same are read, with the same entry each; the last of them twice isn't.
#[test]
fn numbers_that_differ_a_little() {
    let mut lookups = Lookups::new("numbers that differ a little");
    for (which, pack) in kinds() {
        Volume::new(which, pack).try_changes(|image, sound| {
            let (root, entry) = sound.content.entries[0];
            for numbers in numbers_alike(MOST_ENTRIES as u32) {
                let numbers = numbers.into_iter();
                let mut journal: Vec<_> = numbers
                    .map(|nid| journalled(nid, distinct_entry(1)))
                    .collect();
                image.set_journal(which, &journal);
                lookups.expect_entry(image, root, entry);
                journal[0] = *journal.last().unwrap();
                image.set_journal(which, &journal);
                lookups.expect(image, root, 8);
                image.undo(0);
            }
        });
    }
    lookups.finish(4 * 7 * 2, &[0, 8]);
}

/// Twins that differ in one byte of what follows the number, of each value.
#[test]
fn twins_that_differ_a_little() {
    let mut lookups = Lookups::new("twins that differ in a byte");
    for (which, pack) in kinds() {
        let volume = Volume::new(which, pack);
        let twins = [journalled(77, distinct_entry(7)); 2];
        volume.try_changes(|image, _| {
            image.set_journal(which, &twins);
            let (block, at) = image.journal_place(which);
            let second = at + N_NATS.size + 2 * ENTRY_SIZE - nat::ENTRY_SIZE;
            for (byte, value) in (0..nat::ENTRY_SIZE).flat_map(|b| (0..=255).map(move |v| (b, v))) {
                let mark = image.mark();
                image.put("byte of a twin", block, second + byte, &[value]);
                lookups.expect(image, ROOT, 8);
                image.undo(mark);
            }
        });
    }
    lookups.finish(4 * 9 * 256, &[8]);
}

/// Entries of zeros name the number 0: one of them is read, more aren't.
#[test]
fn entries_of_zeros() {
    let mut every = EveryCall::new("journal entries of zeros");
    for (which, pack) in kinds() {
        Volume::new(which, pack).try_changes(|image, sound| {
            let zeros = JournalEntry::read(&[0; ENTRY_SIZE]);
            for count in 0..=MOST_ENTRIES {
                image.set_journal(which, &vec![zeros; count]);
                match count {
                    0 | 1 => every.expect_read(sound, image),
                    _ => every.expect_refused(&sound.kept, image, 8),
                }
                image.undo(0);
            }
        });
    }
    every.finish(4 * 39, &[0, 8]);
}

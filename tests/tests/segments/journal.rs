//! Segment report: the SIT journal's place, count and entries.

use harptimber_tests::calls::segments::{Report, Reports};
use harptimber_tests::cards::knobs::{Knobs, Pack};
use harptimber_tests::cards::layout::checkpoint::{CP_COMPACT_SUM_FLAG, CP_UMOUNT_FLAG, PLACINGS};
use harptimber_tests::cards::layout::journal;
use harptimber_tests::cards::layout::nat::NatEntry;
use harptimber_tests::cards::layout::sit::SitEntry;
use harptimber_tests::cards::layout::sit_journal::{SitJournalEntry, MOST_ENTRIES};
use harptimber_tests::cards::random::shuffle;
use harptimber_tests::cards::segments::SegmentCard;
use harptimber_tests::sizes::SEGMENTS_MOST;

use crate::{journalled, knobs};

/// More than a table block has.
const SEGMENTS: u32 = 60;

const MOST: u32 = MOST_ENTRIES as u32;

/// The two kinds of journals, each on a clean card.
const KINDS: [u32; 2] = [CP_COMPACT_SUM_FLAG | CP_UMOUNT_FLAG, CP_UMOUNT_FLAG];

/// Empty segments by the table.
fn card(flags: u32) -> SegmentCard {
    SegmentCard::new(&knobs(SEGMENTS, Pack::flagged(flags)))
}

/// Segments of a full journal, in no order: entry n has 2^n valid blocks and a wrong count.
const SEGNOS: [u32; MOST_ENTRIES] = [55, 3, 59, 0, 54, 7];

fn full() -> Vec<SitJournalEntry> {
    let entry = |n: u32| journalled(SEGNOS[n as usize], wrong(n));
    (0..MOST).map(entry).collect()
}

fn wrong(n: u32) -> SitEntry {
    SitEntry::counted(0, 1 << n)
}

/// What is reported if entries with these numbers are read and nothing else is wrong.
fn report_of(entries: &[u32]) -> Report {
    let mut off: Vec<u32> = entries.iter().map(|&n| SEGNOS[n as usize]).collect();
    off.sort();
    Report::of(&off, entries.iter().map(|n| 1 << n).sum())
}

/// As many entries as the count says; what stands behind them isn't read.
#[test]
fn entries_up_to_the_count() {
    let mut reports = Reports::new("segment report by journal count");
    for flags in PLACINGS {
        let mut card = card(flags);
        card.put_journal(&full());
        for count in 0..=MOST {
            card.set_journal_count(count.into());
            let read: Vec<u32> = (0..count).collect();
            reports.expect(&card.image, &report_of(&read));
        }
    }
    reports.finish(8 * 7, &[0]);
}

/// More than 6 is 8, whatever stands behind the sixth entry.
#[test]
fn counts_past_the_most() {
    let mut reports = Reports::new("segment report by too great journal counts");
    for flags in PLACINGS {
        let mut card = card(flags);
        card.put_journal(&full());
        let powers = (3..16).flat_map(|bit| [1 << bit, (1 << bit) + 1, (1 << bit) + 6]);
        for count in (7..=300).chain(powers).chain([65_535]) {
            card.set_journal_count(count);
            reports.expect(&card.image, &Report::refused(8));
        }
        card.set_journal_count(6);
        reports.expect(&card.image, &report_of(&[0, 1, 2, 3, 4, 5]));
    }
    reports.finish(8 * (294 + 39 + 1 + 1), &[0, 8]);
}

/// An entry decides over the table, whichever of them is wrong.
#[test]
fn journal_over_table() {
    let mut reports = Reports::new("segment report by journal and table");
    let entries = [(0, SitEntry::counted(2, 2)), (1, SitEntry::counted(2, 1))];
    for flags in KINDS {
        let mut card = card(flags);
        for segno in 0..SEGMENTS {
            for (table_wrong, in_table) in entries {
                for (journal_wrong, in_journal) in entries {
                    card.set_entry(segno, &in_table);
                    let alone = Report::of(&vec![segno; table_wrong], 2 - table_wrong as u32);
                    reports.expect(&card.image, &alone);
                    card.put_journal(&[journalled(segno, in_journal)]);
                    let over = Report::of(&vec![segno; journal_wrong], 2 - journal_wrong as u32);
                    reports.expect(&card.image, &over);
                    card.image.undo(0);
                }
            }
        }
    }
    reports.finish(2 * 60 * 4 * 2, &[0]);
}

/// The first of two entries for a segment decides; the other one is for nothing.
#[test]
fn first_of_two_entries() {
    let mut reports = Reports::new("segment report with two journal entries");
    for flags in KINDS {
        let mut card = card(flags);
        for first in 0..MOST {
            for second in first + 1..MOST {
                let mut journal = full();
                journal[second as usize].segno = SEGNOS[first as usize];
                card.put_journal(&journal);
                let read: Vec<u32> = (0..MOST).filter(|&n| n != second).collect();
                reports.expect(&card.image, &report_of(&read));
                card.image.undo(0);
            }
        }
    }
    reports.finish(2 * 15, &[0]);
}

/// All for one segment: the first decides alone.
#[test]
fn first_of_all_entries() {
    let mut reports = Reports::new("segment report with equal journal entries");
    for flags in KINDS {
        let mut card = card(flags);
        for first in 0..MOST {
            let others = (0..MOST).filter(|&n| n != first);
            let order = [first].into_iter().chain(others);
            let segno = SEGNOS[first as usize];
            let journal: Vec<_> = order.map(|n| journalled(segno, wrong(n))).collect();
            card.put_journal(&journal);
            reports.expect(&card.image, &report_of(&[first]));
            card.image.undo(0);
        }
    }
    reports.finish(2 * 6, &[0]);
}

/// Segments that the card hasn't are passed over; the entries behind them are read.
#[test]
fn segments_out_of_range() {
    let mut reports = Reports::new("segment report with journal entries out of range");
    let outside = [
        SEGMENTS,
        SEGMENTS + 1,
        2 * SEGMENTS,
        256,
        1 << 16,
        1 << 31,
        u32::MAX,
    ];
    for flags in KINDS {
        let mut card = card(flags);
        for segno in outside {
            for place in 0..MOST {
                let mut journal = full();
                journal[place as usize].segno = segno;
                card.put_journal(&journal);
                let read: Vec<u32> = (0..MOST).filter(|&n| n != place).collect();
                reports.expect(&card.image, &report_of(&read));
                card.image.undo(0);
            }
        }
    }
    reports.finish(2 * 7 * 6, &[0]);
}

/// Numbers that differ in a bit from that of a segment.
#[test]
fn segments_beside_one() {
    let mut reports = Reports::new("segment report beside journalled segments");
    for flags in KINDS {
        let mut card = card(flags);
        for segno in [0, 1, 54, 55, 59] {
            for bit in 0..32 {
                let other = segno ^ (1u32 << bit);
                card.put_journal(&[journalled(other, SitEntry::counted(1, 4))]);
                let paper = match other < SEGMENTS {
                    true => Report::of(&[other], 4),
                    false => Report::of(&[], 0),
                };
                reports.expect(&card.image, &paper);
                card.image.undo(0);
            }
        }
    }
    reports.finish(2 * 5 * 32, &[0]);
}

/// The order of entries for different segments says nothing.
#[test]
fn orders() {
    let mut reports = Reports::new("segment report by order of journal entries");
    for flags in KINDS {
        let mut card = card(flags);
        for _ in 0..200 {
            let mut journal = full();
            shuffle(&mut reports.trial.random, &mut journal);
            card.put_journal(&journal);
            reports.expect(&card.image, &report_of(&[0, 1, 2, 3, 4, 5]));
            card.image.undo(0);
        }
    }
    reports.finish(2 * 200, &[0]);
}

/// In the first and in the last entry that a table block has, and at the map's second byte.
#[test]
fn segments_at_borders() {
    let mut reports = Reports::new("segment report of journalled segments at borders");
    let journal =
        [440, 54, 110, 439, 55, 109].map(|segno| journalled(segno, SitEntry::counted(512, 511)));
    for flags in KINDS {
        let mut card = SegmentCard::new(&knobs(441, Pack::flagged(flags)));
        card.put_journal(&journal);
        let off = [54, 55, 109, 110, 439, 440];
        reports.expect(&card.image, &Report::of(&off, 6 * 511));
    }
    reports.finish(2, &[0]);
}

/// The last segments of the largest card; 8,185 would be one more.
#[test]
fn segments_of_the_largest_card() {
    let mut reports = Reports::new("segment report of journalled segments of the largest card");
    let journal = [8_184, 505, 8_185, 8_139, 8_140, 504];
    let journal = journal.map(|segno| journalled(segno, SitEntry::counted(512, 511)));
    for flags in KINDS {
        let mut card = SegmentCard::new(&Knobs {
            ssa_segments: 0,
            ..knobs(SEGMENTS_MOST, Pack::flagged(flags))
        });
        card.put_journal(&journal);
        let off = [504, 505, 8_139, 8_140, 8_184];
        reports.expect(&card.image, &Report::of(&off, 5 * 511));
    }
    reports.finish(2, &[0]);
}

/// A full NAT journal ends before the SIT journal, or is in another block.
#[test]
fn beside_a_full_nat_journal() {
    let mut reports = Reports::new("segment report beside a full NAT journal");
    let entry = NatEntry {
        version: 0xFF,
        ino: u32::MAX,
        block_addr: u32::MAX,
    };
    let numbers = 1..=journal::MOST_ENTRIES as u32;
    let nat_journal: Vec<_> = numbers
        .map(|nid| journal::JournalEntry { nid, entry })
        .collect();
    for flags in PLACINGS {
        let pack = Pack {
            journal: nat_journal.clone(),
            sit_journal: Some(full()),
            ..Pack::flagged(flags)
        };
        let mut card = SegmentCard::new(&knobs(SEGMENTS, pack));
        reports.expect(&card.image, &report_of(&[0, 1, 2, 3, 4, 5]));
        card.set_journal_count(0);
        reports.expect(&card.image, &Report::of(&[], 0));
    }
    reports.finish(8 * 2, &[0]);
}

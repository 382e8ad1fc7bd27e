//! Segment report: what an entry says, and which segments are named.

use harptimber_tests::calls::segments::{Report, Reports};
use harptimber_tests::cards::knobs::Pack;
use harptimber_tests::cards::layout::sit::{SitEntry, MAP_SIZE, VBLOCKS_SHIFT};
use harptimber_tests::cards::segments::SegmentCard;

use crate::{journalled, knobs};

/// The segment whose entry is looked at, among others without a valid block.
const SEGMENT: u32 = 2;
const TYPES: u16 = 1 << (16 - VBLOCKS_SHIFT);

/// A card of four segments. The entry stands in the table or in the journal.
struct OneEntry {
    card: SegmentCard,
    journalled: bool,
}

impl OneEntry {
    const BOTH: [bool; 2] = [false, true];

    fn new(journalled: bool) -> OneEntry {
        OneEntry {
            card: SegmentCard::new(&knobs(4, Pack::compact(1))),
            journalled,
        }
    }

    /// Reports with this entry; `ones` is how many valid blocks its map has.
    fn expect(&mut self, reports: &mut Reports, entry: &SitEntry, ones: u32) {
        if self.journalled {
            self.card.put_journal(&[journalled(SEGMENT, *entry)]);
        } else {
            self.card.set_entry(SEGMENT, entry);
        }
        let off: &[u32] = if u32::from(entry.count) == ones {
            &[]
        } else {
            &[SEGMENT]
        };
        reports.expect(&self.card.image, &Report::of(off, ones));
        self.card.image.undo(0);
    }
}

/// Each count that ten bits hold, beside maps with as many ones, one fewer and one more, and the fullest.
#[test]
fn every_count() {
    let mut reports = Reports::new("segment report by count");
    for journalled in OneEntry::BOTH {
        let mut card = OneEntry::new(journalled);
        for count in 0..1024 {
            let near = [count.max(1) - 1, count, count + 1];
            for ones in near.into_iter().filter(|&ones| ones <= 512).chain([0, 512]) {
                card.expect(&mut reports, &SitEntry::counted(count as u16, ones), ones);
            }
        }
    }
    reports.finish(2 * (1024 * 2 + 513 * 3), &[0]);
}

/// The type stands above the count and says nothing of it.
#[test]
fn every_type() {
    let mut reports = Reports::new("segment report by type");
    let cases = [
        (0, 0),
        (0, 1),
        (1, 1),
        (255, 255),
        (256, 0),
        (511, 511),
        (511, 512),
        (512, 512),
        (512, 0),
        (513, 512),
        (513, 1),
        (1023, 511),
        (1023, 512),
    ];
    for journalled in OneEntry::BOTH {
        let mut card = OneEntry::new(journalled);
        for seg_type in 0..TYPES {
            for (count, ones) in cases {
                let entry = SitEntry {
                    seg_type,
                    ..SitEntry::counted(count, ones)
                };
                card.expect(&mut reports, &entry, ones);
            }
        }
    }
    reports.finish(2 * 64 * 13, &[0]);
}

fn counted_in(map: [u8; MAP_SIZE], count: u16) -> SitEntry {
    SitEntry {
        count,
        ..SitEntry::of(map)
    }
}

/// One block valid, and all but one, at each place of the segment.
#[test]
fn every_bit_of_the_map() {
    let mut reports = Reports::new("segment report by map bit");
    for journalled in OneEntry::BOTH {
        let mut card = OneEntry::new(journalled);
        for block in 0..8 * MAP_SIZE {
            for (others, ones) in [(0x00, 1), (0xFF, 511)] {
                let mut map = [others; MAP_SIZE];
                map[block / 8] ^= 0x80 >> (block % 8);
                for count in [ones - 1, ones, ones + 1] {
                    card.expect(&mut reports, &counted_in(map, count as u16), ones);
                }
            }
        }
    }
    reports.finish(2 * 512 * 6, &[0]);
}

/// Each byte in some places, and the same byte in all.
#[test]
fn every_byte_of_the_map() {
    let mut reports = Reports::new("segment report by map byte");
    let mut card = OneEntry::new(false);
    for byte in 0..=255u8 {
        let ones = (0..8).filter(|bit| byte >> bit & 1 == 1).count() as u32;
        for place in [0, 1, 7, 8, 31, 62, 63] {
            let mut map = [0; MAP_SIZE];
            map[place] = byte;
            card.expect(&mut reports, &SitEntry::of(map), ones);
        }
        card.expect(&mut reports, &SitEntry::of([byte; MAP_SIZE]), 64 * ones);
    }
    reports.finish(256 * 8, &[0]);
}

/// One bit in each byte, the same one in all or another in each.
#[test]
fn a_bit_in_each_byte() {
    let mut reports = Reports::new("segment report by a bit in each map byte");
    for journalled in OneEntry::BOTH {
        let mut card = OneEntry::new(journalled);
        for bit in 0..8 {
            let same = [1 << bit; MAP_SIZE];
            let moving = std::array::from_fn(|place| 1 << ((place + bit) % 8));
            for map in [same, moving] {
                card.expect(&mut reports, &SitEntry::of(map), 64);
                card.expect(&mut reports, &counted_in(map, 63), 64);
            }
        }
    }
    reports.finish(2 * 8 * 4, &[0]);
}

/// Nothing depends on the time of a segment.
#[test]
fn every_time() {
    let mut reports = Reports::new("segment report by time");
    for journalled in OneEntry::BOTH {
        let mut card = OneEntry::new(journalled);
        let bits = (0..64).map(|bit| 1 << bit);
        for mtime in bits.chain([0, u64::MAX]) {
            for (count, ones) in [(0, 0), (3, 3), (512, 512), (4, 3), (512, 0)] {
                let entry = SitEntry {
                    mtime,
                    ..SitEntry::counted(count, ones)
                };
                card.expect(&mut reports, &entry, ones);
            }
        }
    }
    reports.finish(2 * 66 * 5, &[0]);
}

/// Ones beside the entry: the neighbours' times and words, and what lies behind the last entry of a block.
#[test]
fn bytes_beside_an_entry() {
    let mut reports = Reports::new("segment report by bytes beside an entry");
    let mut card = SegmentCard::new(&knobs(56, Pack::compact(1)));
    let late = SitEntry {
        mtime: u64::MAX,
        ..SitEntry::filled(0)
    };
    for segno in 0..56 {
        card.set_entry(segno, &late);
    }
    reports.expect(&card.image, &Report::of(&[], 0));
    // A block's last 26 bytes, and the entry that a segment 56 would have.
    let [last, next] = [0, 1].map(|table_block| card.image.sit_block(table_block, 0));
    card.image.put("rest of a block", last, 4070, &[0xFF; 26]);
    card.image.put("a segment more", next, 74, &[0xFF; 74]);
    reports.expect(&card.image, &Report::of(&[], 0));
    reports.finish(2, &[0]);
}

/// Which segments of 57, in two table blocks, have a wrong count: each one, all but one, runs.
#[test]
fn segments_named() {
    let mut reports = Reports::new("segment report by segments named");
    const SEGMENTS: u32 = 57;
    let mut card = SegmentCard::new(&knobs(SEGMENTS, Pack::compact(1)));
    let mut expect = |is_off: &dyn Fn(u32) -> bool| {
        let off: Vec<u32> = (0..SEGMENTS).filter(|&segno| is_off(segno)).collect();
        for segno in 0..SEGMENTS {
            let entry = SitEntry::counted(1 + u16::from(is_off(segno)), 1);
            card.set_entry(segno, &entry);
        }
        reports.expect(&card.image, &Report::of(&off, SEGMENTS));
        card.image.undo(0);
    };
    for one in 0..SEGMENTS {
        expect(&|segno| segno == one);
        expect(&|segno| segno != one);
        expect(&|segno| segno < one);
        expect(&|segno| segno >= one);
    }
    for step in 2..8 {
        expect(&|segno| segno % step == 0);
        expect(&|segno| segno % step != 0);
    }
    reports.finish(57 * 4 + 12, &[0]);
}

/// A count that is too great in one segment and too small by as much in another: the sum is right.
#[test]
fn errors_that_cancel() {
    let mut reports = Reports::new("segment report by errors that cancel");
    let mut card = SegmentCard::new(&knobs(4, Pack::compact(1)));
    card.set_entry(1, &SitEntry::counted(5, 7));
    card.set_entry(3, &SitEntry::counted(7, 5));
    reports.expect(&card.image, &Report::of(&[1, 3], 12));
    reports.finish(1, &[0]);
}

/// The ones count of every segment, also of those that are named.
#[test]
fn ones_of_each_segment() {
    let mut reports = Reports::new("segment report by ones of each segment");
    let mut card = SegmentCard::new(&knobs(9, Pack::compact(1)));
    for named in [false, true] {
        let mark = card.image.mark();
        for segno in 0..9 {
            let ones = 1 << segno;
            card.set_entry(
                segno,
                &SitEntry::counted(ones + u16::from(named), ones.into()),
            );
        }
        let all: Vec<u32> = (0..9).collect();
        let off: &[u32] = if named { &all } else { &[] };
        reports.expect(&card.image, &Report::of(off, 511));
        // Each segment emptied in turn.
        for segno in 0..9 {
            let emptied = card.image.mark();
            card.set_entry(segno, &SitEntry::counted(0, 0));
            let others = off.iter().filter(|&&other| other != segno);
            let off: Vec<u32> = others.copied().collect();
            let left = 511 - (1 << segno);
            reports.expect(&card.image, &Report::of(&off, left));
            card.image.undo(emptied);
        }
        card.image.undo(mark);
    }
    reports.finish(2 * 10, &[0]);
}

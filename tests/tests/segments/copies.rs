//! Segment report: the table's blocks, their two copies and the map between them.

use std::ops::Range;

use harptimber_tests::calls::segments::{Report, Reports};
use harptimber_tests::cards::knobs::{Knobs, Pack};
use harptimber_tests::cards::layout::sit::{SitEntry, ENTRIES_PER_BLOCK, VER_BITMAP_BYTES};
use harptimber_tests::cards::segments::SegmentCard;
use harptimber_tests::sizes::{CARD_BLOCKS_MOST, SEGMENTS_MOST};

use crate::knobs;

/// A card with a SIT area of this length and a map of one byte again and again. The NAT map is its opposite, so that
/// neither is taken for the other.
fn card(main_segments: u32, sit_segments: u32, map_byte: u8) -> SegmentCard {
    let pack = Pack {
        sit_map: vec![map_byte; VER_BITMAP_BYTES],
        nat_map: vec![!map_byte; VER_BITMAP_BYTES],
        ..Pack::compact(1)
    };
    SegmentCard::new(&Knobs {
        sit_segments,
        ssa_segments: 0,
        ..knobs(main_segments, pack)
    })
}

/// A card with as many main segments as fit.
fn largest(map_byte: u8) -> SegmentCard {
    card(SEGMENTS_MOST, 2, map_byte)
}

/// A segment more would be too much.
#[test]
fn most_main_segments() {
    let mut reports = Reports::new("segment report of the most segments");
    let mut card = largest(0x00);
    assert_eq!(card.sit.main_segments, 8_185);
    let blocks = card.image.areas.block_count;
    assert!(blocks <= CARD_BLOCKS_MOST && CARD_BLOCKS_MOST < blocks + 512);
    let all: Vec<u32> = (0..SEGMENTS_MOST).collect();
    reports.expect(&card.image, &Report::of(&[], 0));
    let none: &[u32] = &[];
    for (count, ones, off) in [
        (512, 512, none),
        (511, 512, &all),
        (0, 512, &all),
        (1, 0, &all),
    ] {
        for segno in 0..SEGMENTS_MOST {
            card.set_entry(segno, &SitEntry::counted(count, ones));
        }
        reports.expect(&card.image, &Report::of(off, SEGMENTS_MOST * ones));
        card.image.undo(0);
    }
    reports.finish(5, &[0]);
}

/// Segments at the borders of table blocks; 440 and 7,920 have the first bits of the map's second byte and of its last,
/// 504 was the last that a card had room for, and 8,140 starts the last table block.
const AT_BORDERS: [u32; 25] = [
    0, 1, 53, 54, 55, 56, 109, 110, 164, 165, 384, 385, 438, 439, 440, 494, 495, 504, 505, 7_919,
    7_920, 8_139, 8_140, 8_183, 8_184,
];

/// One wrong count, in the first copies and in the second ones.
#[test]
fn segments_at_borders() {
    let mut reports = Reports::new("segment report at borders of table blocks");
    for map_byte in [0x00, 0xFF] {
        let mut card = largest(map_byte);
        for segno in AT_BORDERS {
            card.set_entry(segno, &SitEntry::counted(513, 512));
            reports.expect(&card.image, &Report::of(&[segno], 512));
            card.image.undo(0);
        }
        for segno in 8_130..8_185 {
            card.set_entry(segno, &SitEntry::counted(0, 1));
        }
        let last: Vec<u32> = (8_130..8_185).collect();
        reports.expect(&card.image, &Report::of(&last, 55));
    }
    reports.finish(2 * (25 + 1), &[0]);
}

/// The segments in a table block, of so many in all.
fn in_block(table_block: u32, segments: u32) -> Range<u32> {
    let first = table_block * ENTRIES_PER_BLOCK;
    first..segments.min(first + ENTRIES_PER_BLOCK)
}

/// Writes both copies of the whole table. In the first copy of a block its first segment has a wrong count
/// and one valid block, in the second copy its last segment, and that has two.
fn write_both_copies(card: &mut SegmentCard) -> u32 {
    let segments = card.sit.main_segments;
    let table_blocks = segments.div_ceil(ENTRIES_PER_BLOCK);
    for table_block in 0..table_blocks {
        let all = in_block(table_block, segments);
        for segno in all.clone() {
            let in_first = u32::from(segno == all.start);
            let in_second = 2 * u32::from(segno + 1 == all.end);
            for (copy, ones) in [(0, in_first), (1, in_second)] {
                card.image
                    .set_sit_entry(segno, copy, &SitEntry::counted(0, ones));
            }
        }
    }
    card.image.settle("both copies");
    table_blocks
}

/// What `write_both_copies` makes a report say under this map.
fn report_under(map: &[u8], segments: u32) -> Report {
    let mut ones = 0;
    let mut off = Vec::new();
    for table_block in 0..segments.div_ceil(ENTRIES_PER_BLOCK) {
        let all = in_block(table_block, segments);
        // Block 0 has the top bit.
        let second = map[table_block as usize / 8] << (table_block % 8) & 0x80 != 0;
        off.push(if second { all.end - 1 } else { all.start });
        ones += if second { 2 } else { 1 };
    }
    Report::of(&off, ones)
}

/// Reports under one map after the other.
fn expect_under(
    reports: &mut Reports,
    card: &mut SegmentCard,
    maps: impl Iterator<Item = Vec<u8>>,
) {
    for map in maps {
        card.set_map(&map);
        let paper = report_under(&map, card.sit.main_segments);
        reports.expect(&card.image, &paper);
        card.image.undo(0);
    }
}

/// Every mix of first and second copies, in tables of several lengths: the second copies follow all of the
/// first ones, 256 blocks a segment of the table later.
#[test]
fn every_map() {
    let mut reports = Reports::new("segment report by SIT map");
    for sit_segments in [2, 4, 6] {
        let mut card = card(505, sit_segments, 0x00);
        assert_eq!(write_both_copies(&mut card), 10);
        let maps = (0..1u16 << 10).map(|bits| bits.reverse_bits().to_be_bytes().to_vec());
        expect_under(&mut reports, &mut card, maps);
    }
    reports.finish(3 * 1024, &[0]);
}

/// Of the largest card: one table block alone in its second copy, or in its first, and any mix.
#[test]
fn maps_of_the_largest_card() {
    const BLOCKS: usize = 149;
    const ANY: usize = 50;
    let mut reports = Reports::new("segment report by SIT map of the largest card");
    let mut card = largest(0x00);
    assert_eq!(write_both_copies(&mut card), BLOCKS as u32);
    let alone = [0x00, 0xFF].into_iter().flat_map(|others| {
        (0..BLOCKS).map(move |block| {
            let mut map = vec![others; VER_BITMAP_BYTES];
            map[block / 8] ^= 0x80 >> (block % 8);
            map
        })
    });
    expect_under(&mut reports, &mut card, alone);
    let any: Vec<_> = (0..ANY)
        .map(|_| reports.trial.random.bytes(VER_BITMAP_BYTES))
        .collect();
    expect_under(&mut reports, &mut card, any.into_iter());
    reports.finish((2 * BLOCKS + ANY) as u64, &[0]);
}

/// Tables up to the longest whose map has room beside the NAT map's. The distance follows their length.
#[test]
fn every_table_length() {
    let mut reports = Reports::new("segment report by table length");
    for sit_segments in (2..=20).step_by(2).chain([40, 118]) {
        let mut card = SegmentCard::new(&Knobs {
            sit_segments,
            ..knobs(64, Pack::compact(1))
        });
        assert_eq!(write_both_copies(&mut card), 2);
        let maps = (0..4u8).map(|bits| vec![bits.reverse_bits(), 0]);
        expect_under(&mut reports, &mut card, maps);
    }
    reports.finish(12 * 4, &[0]);
}

//! Segment report: the superblock copy, the pack and the journal's block that are in use.

use harptimber_tests::calls::segments::{Report, Reports};
use harptimber_tests::cards::knobs::{Knobs, Pack};
use harptimber_tests::cards::layout::checkpoint::*;
use harptimber_tests::cards::layout::sit::SitEntry;
use harptimber_tests::cards::layout::sit_journal::{IN_COMPACT_BLOCK, IN_PLAIN_BLOCK};
use harptimber_tests::cards::layout::superblock::{MAGIC, SEGMENT_COUNT_MAIN};
use harptimber_tests::cards::segments::SegmentCard;
use harptimber_tests::cards::versions::{CHOSEN, PAIRS};

use crate::{journalled, knobs};

const TOTAL: u32 = 12;
const START_SUM: u32 = 3;

/// A pack whose blocks each have a journal at both places, every one with a segment of its own.
fn full_of_journals(which: usize) -> SegmentCard {
    let pack = Pack {
        total: TOTAL,
        start_sum: START_SUM,
        ..Pack::compact(1)
    };
    let mut card = SegmentCard::new(&Knobs {
        main_segments: 2 * TOTAL,
        ..Knobs::sound().with_pack(which, pack)
    });
    let first = card.image.first_block(which);
    for block in 1..TOTAL - 1 {
        for at in [IN_COMPACT_BLOCK, IN_PLAIN_BLOCK] {
            let entry = journalled(segment_at(block, at), SitEntry::counted(1, block));
            card.image.put_sit_journal(first + block, at, &[entry]);
        }
    }
    card
}

fn segment_at(block: u32, at: usize) -> u32 {
    2 * block + u32::from(at == IN_PLAIN_BLOCK)
}

/// Compact: in the block of the NAT journal. Else two blocks after that of hot data, which is 7 or 4
/// blocks before the end.
#[test]
fn flags() {
    let mut reports = Reports::new("segment report by checkpoint flags");
    let free = !(PLACING | ALL_UNREAD);
    for which in [0, 1] {
        let mut card = full_of_journals(which);
        let first = card.image.first_block(which);
        let mark = card.image.mark();
        for flags in PLACINGS {
            let (block, at) = if flags & CP_COMPACT_SUM_FLAG != 0 {
                (START_SUM, IN_COMPACT_BLOCK)
            } else if flags != 0 {
                (TOTAL - 5, IN_PLAIN_BLOCK)
            } else {
                (TOTAL - 2, IN_PLAIN_BLOCK)
            };
            let paper = Report::of(&[segment_at(block, at)], block);
            for other in [0, free, free & 0x5555_5555, free & 0xAAAA_AAAA] {
                let all = u64::from(flags | other);
                card.image.set_sealed(first, CKPT_FLAGS, all);
                reports.expect(&card.image, &paper);
                for unread in UNREAD {
                    card.image
                        .set_sealed(first, CKPT_FLAGS, all | u64::from(unread));
                    reports.expect(&card.image, &Report::refused(8));
                }
                card.image.undo(mark);
            }
        }
    }
    reports.finish(2 * 8 * 4 * (1 + 3), &[0, 8]);
}

/// Every total that passes, with each kind of summaries: the journal goes along with the pack's end, or
/// with the start of summaries.
#[test]
fn totals() {
    let mut reports = Reports::new("segment report by total");
    for which in [0, 1] {
        let knobs = Knobs {
            main_segments: 2,
            ..Knobs::sound().with_pack(which, Pack::compact(1))
        };
        let mut card = SegmentCard::new(&knobs);
        for total in (2..=20).chain([64, 255, 256, 257, 510, 511, 512]) {
            for (pack, least) in kinds(total) {
                card.image.add_pack(which, &pack, &knobs);
                let paper = match total >= least {
                    true => Report::of(&[1], 300),
                    false => Report::refused(8),
                };
                reports.expect(&card.image, &paper);
                card.image.undo(0);
            }
        }
    }
    reports.finish(2 * 26 * 6, &[0, 8]);
}

/// Packs with so many blocks, whose journals have a wrong segment 1; and the least total that has room.
fn kinds(total: u32) -> [(Pack, u32); 6] {
    let with = |flags, start_sum, least| {
        let pack = Pack {
            total,
            flags,
            start_sum,
            sit_map: vec![0; 2],
            sit_journal: Some(vec![journalled(1, SitEntry::counted(301, 300))]),
            ..Pack::compact(1)
        };
        (pack, least)
    };
    [
        with(CP_COMPACT_SUM_FLAG, 1, 3),
        with(CP_COMPACT_SUM_FLAG | CP_UMOUNT_FLAG, total - 2, 3),
        with(CP_UMOUNT_FLAG, 0, 8),
        with(CP_FASTBOOT_FLAG, 0, 8),
        with(CP_UMOUNT_FLAG | CP_FASTBOOT_FLAG, 0, 8),
        with(0, 0, 5),
    ]
}

/// Two packs, each with its own map and journal. The table's copies differ too.
#[test]
fn pack_in_use() {
    let mut reports = Reports::new("segment report by pack in use");
    let pack = |version, sit_map: u8, segno| Pack {
        version,
        sit_map: vec![sit_map; 2],
        sit_journal: Some(vec![journalled(segno, SitEntry::counted(9, 4))]),
        ..Pack::compact(1)
    };
    let by_pack = [Report::of(&[0, 2], 1 + 4), Report::of(&[1, 3], 2 + 4)];
    for (versions, chosen) in CHOSEN {
        let packs = [pack(versions[0], 0x00, 2), pack(versions[1], 0xFF, 3)];
        let mut card = SegmentCard::new(&Knobs {
            main_segments: 4,
            packs: packs.map(Some),
            ..Knobs::sound()
        });
        for segno in 0..4 {
            let [in_first, in_second] = [(0, 1), (1, 2)].map(|(off, ones)| match segno == off {
                true => SitEntry::counted(0, ones),
                false => SitEntry::filled(0),
            });
            card.image.set_sit_entry(segno, 0, &in_first);
            card.image.set_sit_entry(segno, 1, &in_second);
        }
        reports.expect(&card.image, &by_pack[chosen]);
        // The other one steps in, however old it is.
        let last = card.image.last_block(chosen);
        card.image.set(last, CHECKSUM, 0);
        reports.expect(&card.image, &by_pack[1 - chosen]);
    }
    reports.finish(PAIRS * 2, &[0]);
}

/// Copies of the superblock with different main segments. The list that is needed goes with them.
#[test]
fn main_segments_of_the_copy_used() {
    let mut reports = Reports::new("segment report by superblock copy in use");
    let mut card = SegmentCard::new(&knobs(6, Pack::compact(1)));
    for segno in 0..6 {
        card.set_entry(segno, &SitEntry::counted(0, 1));
    }
    for copy in [0, 1] {
        card.image
            .set(copy, SEGMENT_COUNT_MAIN, 5 - u64::from(copy));
    }
    for (segments, off) in [(5, &[0, 1, 2, 3, 4][..]), (4, &[0, 1, 2, 3])] {
        let (image, bytes) = (&card.image, card.image.bytes());
        reports.expect(image, &Report::of(off, segments as u32));
        reports.expect_in(
            image,
            bytes,
            4 * segments,
            &Report::of(off, segments as u32),
        );
        reports.expect_in(image, bytes, 4 * segments - 1, &Report::refused(4));
        // Now the second copy is used.
        card.image.set(0, MAGIC, 0);
    }
    reports.finish(2 * 3, &[0, 4]);
}

/// The pack's own count of valid blocks isn't consulted.
#[test]
fn valid_blocks_of_the_pack() {
    let mut reports = Reports::new("segment report by the pack's count");
    let mut card = SegmentCard::new(&knobs(3, Pack::compact(1)));
    card.set_entry(1, &SitEntry::filled(70));
    card.set_entry(2, &SitEntry::counted(9, 30));
    let first = card.sit.first_block;
    for count in [0, 1, 70, 79, 99, 100, 101, u64::MAX] {
        card.image.set_sealed(first, VALID_BLOCK_COUNT, count);
        reports.expect(&card.image, &Report::of(&[2], 100));
    }
    reports.finish(8, &[0]);
}

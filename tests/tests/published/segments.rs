//! The segment report of cards that the published tools write, beside what fsck.f2fs finds on them.
//! mkfs.f2fs writes a compact pack with a full SIT journal, sload.f2fs a plain one with an empty journal,
//! and neither uses a second copy of the table.

use harptimber_tests::calls::segments::{needed, Report, Reports};
use harptimber_tests::cards::image::Image;
use harptimber_tests::cards::layout::checkpoint::{CKPT_FLAGS, CP_COMPACT_SUM_FLAG};
use harptimber_tests::cards::layout::sit::{SitEntry, VALID_MAP, VBLOCKS};
use harptimber_tests::cards::layout::sit_journal::{SitJournalEntry, MOST_ENTRIES};
use harptimber_tests::cards::layout::BLOCK_SIZE;
use harptimber_tests::cards::segments::SegmentCard;
use harptimber_tests::tools::fsck::fsck;
use harptimber_tests::tools::published::{
    contents, filled_in_turn, filled_with, formatted, File, LARGEST,
};
use harptimber_tests::trial::Random;

/// So many files of up to 50 blocks.
fn files(seed: u64, count: usize) -> Vec<File> {
    let mut random = Random::new(seed);
    let file = |n: usize| {
        let name = format!("file {n}").into_bytes();
        let size = random.below(200_000) as usize;
        (name, contents(&mut random, size))
    };
    (0..count).map(file).collect()
}

/// No segment is off, and the maps have as many ones as fsck.f2fs counts valid blocks: in the table, and on
/// its way through the files. Returns how many.
fn expect_sound(reports: &mut Reports, image: &Image) -> u32 {
    let checked = fsck(image);
    assert!(
        checked.sound && checked.wrong.is_empty(),
        "{checked:?} on {image:?}"
    );
    assert_eq!(checked.counted, checked.reached, "{image:?}");
    reports.expect(image, &Report::of(&[], checked.reached));
    checked.reached
}

/// Whether the pack is compact, and how many entries its SIT journal has. All first copies are in use.
fn summaries(card: &SegmentCard) -> (bool, u64) {
    assert!(card.sit.map().iter().all(|&byte| byte == 0));
    let flags = card.image.get(card.sit.first_block, CKPT_FLAGS);
    let (block, count) = card.sit.journal_count();
    let entries = card.image.get(block, count);
    (flags & u64::from(CP_COMPACT_SUM_FLAG) != 0, entries)
}

/// A fresh card has two valid blocks: the root's inode and the block of its two dots.
#[test]
fn fresh() {
    let mut reports = Reports::new("segment report after mkfs");
    let cards = [
        (64, ""),
        (100, ""),
        (300, ""),
        (1024, ""),
        (LARGEST, ""),
        (64, "-z 2"),
        (100, "-s 2"),
        (300, "-s 3"),
        (LARGEST, "-s 2"),
    ];
    for (megabytes, options) in cards {
        let card = SegmentCard::read(formatted(megabytes, options));
        assert_eq!(expect_sound(&mut reports, &card.image), 2);
        assert_eq!(summaries(&card), (true, 6));
    }
    reports.finish(9, &[0]);
}

#[test]
fn filled() {
    let mut reports = Reports::new("segment report after sload");
    let (some, many) = (files(1, 60), files(2, 300));
    let later = files(3, 40);
    let images = [
        filled_with(100, "", &some),
        filled_with(200, "-s 2", &some),
        filled_with(1024, "", &many),
        filled_with(LARGEST, "", &many),
        filled_in_turn(200, "", &[&some, &later]),
    ];
    for image in images {
        let card = SegmentCard::read(image);
        // Each file has at least its inode.
        assert!(expect_sound(&mut reports, &card.image) > 60);
        assert_eq!(summaries(&card), (false, 0));
    }
    reports.finish(5, &[0]);
}

/// Changes a segment's count, then one bit of its map: that segment alone is named, by fsck.f2fs too.
fn expect_named(reports: &mut Reports, card: &mut SegmentCard, segno: u32, ones: u32) {
    let (block, at) = card.entry_place(segno);
    let vblocks = VBLOCKS.moved(at);
    let mark = card.image.mark();
    card.image
        .set(block, vblocks, card.image.get(block, vblocks) + 1);
    expect_found(reports, &card.image, segno, [ones, ones + 1]);
    card.image.undo(mark);
    let place = at + VALID_MAP + segno as usize % 64;
    let (byte, bit) = (card.image.block(block)[place], 0x80 >> (segno % 8));
    card.image.put("valid map", block, place, &[byte ^ bit]);
    let ones_now = if byte & bit == 0 { ones + 1 } else { ones - 1 };
    expect_found(reports, &card.image, segno, [ones_now, ones]);
    card.image.undo(mark);
}

/// So many ones in all maps, and so much by all counts.
fn expect_found(reports: &mut Reports, image: &Image, segno: u32, [ones, counts]: [u32; 2]) {
    reports.expect(image, &Report::of(&[segno], ones));
    let checked = fsck(image);
    assert_eq!(checked.wrong, [segno], "{checked:?} on {image:?}");
    assert_eq!(checked.counted, counts, "{checked:?} on {image:?}");
    assert!(!checked.sound);
}

/// In the journal, which has six segments, and in the table.
#[test]
fn changed_after_mkfs() {
    let mut reports = Reports::new("segment report after mkfs and a change");
    let mut card = SegmentCard::read(formatted(64, ""));
    for segno in 0..card.sit.main_segments {
        expect_named(&mut reports, &mut card, segno, 2);
    }
    reports.finish(2 * 24, &[0]);
}

#[test]
fn changed_after_sload() {
    let mut reports = Reports::new("segment report after sload and a change");
    let mut card = SegmentCard::read(filled_with(100, "", &files(1, 60)));
    let ones = expect_sound(&mut reports, &card.image);
    for segno in (0..card.sit.main_segments).step_by(5) {
        expect_named(&mut reports, &mut card, segno, ones);
    }
    reports.finish(1 + 2 * 9, &[0]);
}

/// Some segments of the largest card, among them the last. With -a the root directory is at its end.
#[test]
fn changed_on_the_largest_card() {
    let mut reports = Reports::new("segment report of 16 GiB after a change");
    let mut card = SegmentCard::read(filled_with(LARGEST, "-a 1", &files(6, 20)));
    let ones = expect_sound(&mut reports, &card.image);
    let segments = card.sit.main_segments;
    assert_eq!(segments.div_ceil(55), 148);
    for segno in [505, 4_000, segments - 4, segments - 1] {
        expect_named(&mut reports, &mut card, segno, ones);
    }
    reports.finish(1 + 2 * 4, &[0]);
}

/// Table blocks that are moved to their second copies by hand, in each mix; fsck.f2fs finds them there too.
#[test]
fn second_copies() {
    let mut reports = Reports::new("segment report after sload, with second copies");
    let mut card = SegmentCard::read(filled_with(300, "", &files(4, 300)));
    let ones = expect_sound(&mut reports, &card.image);
    assert!(card.sit.main_segments > 110, "three table blocks");
    for second in 0..8u8 {
        for table_block in (0..3).filter(|n| second >> n & 1 == 1) {
            let [from, to] = [0, 1].map(|copy| card.image.sit_block(table_block, copy));
            let bytes = card.image.block(from).to_vec();
            card.image.put("second copy", to, 0, &bytes);
            card.image.put("first copy", from, 0, &[0xFF; BLOCK_SIZE]);
        }
        card.set_map(&[second.reverse_bits()]);
        assert_eq!(expect_sound(&mut reports, &card.image), ones);
        card.image.undo(0);
    }
    reports.finish(1 + 8, &[0]);
}

/// Entries that are moved to the journal of a plain pack by hand; fsck.f2fs finds them there too.
#[test]
fn plain_journal() {
    let mut reports = Reports::new("segment report after sload, with a journal");
    let mut card = SegmentCard::read(filled_with(200, "", &files(5, 100)));
    let ones = expect_sound(&mut reports, &card.image);
    let in_table = |segno| {
        let (block, at) = card.entry_place(segno);
        let entry = SitEntry::read(&card.image.block(block)[at..]);
        SitJournalEntry { segno, entry }
    };
    let used = (0..card.sit.main_segments).map(in_table);
    let used = used.filter(|journalled| journalled.entry.count > 0);
    let journal: Vec<SitJournalEntry> = used.take(MOST_ENTRIES).collect();
    assert!(journal.len() > 2, "segments with valid blocks");
    for SitJournalEntry { segno, .. } in &journal {
        card.set_entry(*segno, &SitEntry::filled(0));
    }
    card.put_journal(&journal);
    assert_eq!(expect_sound(&mut reports, &card.image), ones);
    for SitJournalEntry { segno, .. } in &journal {
        expect_named(&mut reports, &mut card, *segno, ones);
    }
    reports.finish(2 + 2 * 3, &[0]);
}

#[test]
fn damaged() {
    let mut reports = Reports::new("segment report after mkfs, damaged");
    let mut card = SegmentCard::read(formatted(64, ""));
    for _ in 0..reports.trial.times(3000) {
        let random = &mut reports.trial.random;
        for _ in 0..1 + random.below(3) {
            card.sit.strike(&mut card.image, random);
        }
        let len = needed(&card.image);
        reports.compare(&card.image, len);
        card.image.undo(0);
    }
    reports.finish(3000, &[0, 8]);
}

//! Segment report: the lengths of the image and of the list, and which of several answers comes first.

use harptimber_tests::calls::compares::{Compares, Kept, SAME};
use harptimber_tests::calls::lookups::Lookups;
use harptimber_tests::calls::pulls::Pulls;
use harptimber_tests::calls::segments::{needed, Report, Reports};
use harptimber_tests::cards::card::{Card, ROOT};
use harptimber_tests::cards::damage::all_faults;
use harptimber_tests::cards::directory::Dentry;
use harptimber_tests::cards::image::Image;
use harptimber_tests::cards::knobs::{Knobs, Pack};
use harptimber_tests::cards::layout::checkpoint::PLACINGS;
use harptimber_tests::cards::layout::sit::SitEntry;
use harptimber_tests::cards::layout::{journal, BLOCK_SIZE};
use harptimber_tests::cards::lengths::{lengths, LENGTHS};
use harptimber_tests::cards::segments::{SegmentCard, Sit};
use harptimber_tests::trial::Random;

use crate::{journalled, knobs};

/// A card of which every second segment, from 0 on, is off.
fn half_off(main_segments: u32) -> (SegmentCard, Report) {
    let mut card = SegmentCard::new(&Knobs {
        ssa_segments: 0,
        ..knobs(main_segments, Pack::compact(1))
    });
    let off: Vec<u32> = (0..main_segments).step_by(2).collect();
    for &segno in &off {
        card.set_entry(segno, &SitEntry::counted(0, 7));
    }
    let report = Report::of(&off, 7 * off.len() as u32);
    (card, report)
}

/// One number for each main segment, however few are off; a remainder of one to three bytes is no number.
fn expect_lists(reports: &mut Reports, main_segments: u32, lens: impl Iterator<Item = usize>) {
    let (card, report) = half_off(main_segments);
    let refused = Report::refused(4);
    for len in lens {
        let short = len < 4 * main_segments as usize;
        let paper = if short { &refused } else { &report };
        reports.expect_in(&card.image, card.image.bytes(), len, paper);
    }
}

#[test]
fn lengths_of_the_list() {
    let mut reports = Reports::new("segment report by length of the list");
    for main_segments in [1, 2, 3, 8, 57] {
        expect_lists(
            &mut reports,
            main_segments,
            0..4 * main_segments as usize + 14,
        );
    }
    reports.finish(5 * 14 + 4 * 71, &[0, 4]);
}

/// With more segments than 505, which 2,020 bytes have room for.
#[test]
fn long_lists() {
    let mut reports = Reports::new("segment report into long lists");
    for (main_segments, least) in [(506, 2_024), (8_185, 32_740)] {
        let lens = [
            0,
            2_020,
            2_023,
            least - 4,
            least - 1,
            least,
            least + 1,
            least + 4,
        ];
        expect_lists(&mut reports, main_segments, lens.into_iter());
    }
    reports.finish(2 * 8, &[0, 4]);
}

/// With no main segment any list will do, and nothing is named, whatever the journal says.
#[test]
fn no_main_segment() {
    let mut reports = Reports::new("segment report without main segments");
    let mut card = SegmentCard::new(&knobs(0, Pack::compact(1)));
    assert_eq!(card.image.areas.main, card.image.areas.main_end);
    for journal in [vec![], vec![journalled(0, SitEntry::counted(1, 2))]] {
        card.put_journal(&journal);
        for len in 0..10 {
            let paper = Report::of(&[], 0);
            reports.expect_in(&card.image, card.image.bytes(), len, &paper);
        }
    }
    card.set_journal_count(7);
    for len in 0..10 {
        reports.expect_in(&card.image, card.image.bytes(), len, &Report::refused(8));
    }
    reports.finish(3 * 10, &[0, 8]);
}

/// Reports on the first `len` bytes, into lists that are long enough and ones that aren't.
fn expect_at_length(reports: &mut Reports, image: &Image, len: usize, paper: &Report) {
    let bytes = &image.bytes()[..len];
    let input = ("cut to bytes", len, image);
    reports.expect_in(input, bytes, needed(image), paper);
    let too_short = match paper.answer() {
        0 => Report::refused(4),
        _ => paper.clone(),
    };
    for list_len in [0, needed(image) - 1] {
        reports.expect_in(input, bytes, list_len, &too_short);
    }
}

#[test]
fn lengths_of_the_image() {
    let mut reports = Reports::new("segment report by length of the image");
    let image = Image::to_be_cut(Knobs::sound());
    let blocks = image.areas.block_count as usize;
    let none = Report::of(&[], 0);
    let [shape, unopened] = [4, 5].map(Report::refused);
    let by_blocks = [
        (0, &shape),
        (1, &shape),
        (2, &unopened),
        (3, &unopened),
        (blocks - 1, &unopened),
        (blocks, &none),
        (blocks + 1, &none),
    ];
    for (blocks, paper) in by_blocks {
        expect_at_length(&mut reports, &image, blocks * BLOCK_SIZE, paper);
    }
    for blocks in [1, 2, blocks] {
        for less in [1, 2, 4, 512, BLOCK_SIZE / 2, BLOCK_SIZE - 1] {
            expect_at_length(&mut reports, &image, blocks * BLOCK_SIZE - less, &shape);
        }
    }
    for (len, in_shape) in lengths() {
        let paper = if in_shape { &none } else { &shape };
        expect_at_length(&mut reports, &image, len, paper);
    }
    reports.finish(3 * (7 + 3 * 6 + LENGTHS), &[0, 4, 5]);
}

/// An image with everything wrong at once, of which one fault after the other is taken away. The list is
/// too short all the while; that is told last.
#[test]
fn first_answer_that_applies() {
    let mut reports = Reports::new("segment report with several faults");
    let (mut card, report) = half_off(3);
    let settled = card.image.mark();
    card.set_journal_count(7);
    let sit_journal = card.image.mark();
    let image = &mut card.image;
    image.set(image.first_block(0) + 1, journal::N_NATS, 39);
    let nat_journal = image.mark();
    let faults = all_faults(image);
    let whole = image.bytes().len();
    expect_at_length(&mut reports, image, whole - 1, &Report::refused(4));
    expect_at_length(&mut reports, image, whole, &Report::refused(5));
    let journals = [(nat_journal, 8), (sit_journal, 8)];
    for (mark, answer) in faults.into_iter().chain(journals) {
        image.undo(mark);
        expect_at_length(&mut reports, image, whole, &Report::refused(answer));
    }
    image.undo(settled);
    expect_at_length(&mut reports, image, whole, &report);
    reports.finish(3 * 8, &[0, 4, 5, 6, 7, 8]);
}

const NAME: &[u8] = b"road.bin";

/// A card with one file of one block; and that block.
fn with_file(flags: u32) -> (Card, u32) {
    let knobs = Knobs::sound().with_pack(0, Pack::flagged(flags));
    let mut card = Card::new(knobs, Random::new(1));
    card.add_root(0, 1);
    let ino = card.add_file(0, 4096);
    card.link(0, 0, &Dentry::new(NAME, ino));
    let block = card.add_block(ino, 0);
    (card, block)
}

/// Calls that read no SIT entry don't see the journal's count.
#[test]
fn other_calls() {
    let mut reports = Reports::new("segment report beside other calls");
    let mut pulls = Pulls::new("pull with any SIT journal");
    let mut lookups = Lookups::new("node lookup with any SIT journal");
    let mut compares = Compares::new("compare with any SIT journal");
    for flags in PLACINGS {
        let (mut card, data) = with_file(flags);
        let (block, count) = Sit::of(&card.image).journal_count();
        card.image.set(block, count, 0);
        let kept_image = card.image.clone();
        let kept = Kept::new(&kept_image, NAME, 0);
        for counted in [0, 1, 6, 7, 8, 256, 65_535] {
            card.image.set(block, count, counted);
            if counted > 6 {
                reports.expect(&card.image, &Report::refused(8));
            } else {
                reports.compare(&card.image, needed(&card.image));
            }
            pulls.expect_data(&card.image, NAME, 0, card.image.block(data));
            lookups.expect(&card.image, ROOT, 0);
            compares.expect(&kept, &card.image, SAME);
        }
    }
    reports.finish(8 * 7, &[0, 8]);
    pulls.finish(8 * 7, &[0]);
    lookups.finish(8 * 7, &[0]);
    compares.finish(8 * 7, &[(15, 0, 0)]);
}

#[test]
fn image_is_only_read() {
    let mut reports = Reports::new("segment report and the image");
    let (card, report) = half_off(5);
    let before = card.image.bytes().to_vec();
    reports.expect(&card.image, &report);
    assert!(card.image.bytes() == before, "a report wrote to the image");
    reports.finish(1, &[0]);
}

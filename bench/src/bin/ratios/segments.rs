//! Segment reports, also of cards with more and more main segments.

use crate::calls::LONGER;
use harptimber_bench::agreed::Agreed;
use harptimber_bench::grid::{contender, Contender, Grid};
use harptimber_tests::calls::segments::{reference_report, SegmentReport};
use harptimber_tests::cards::knobs::Knobs;
use harptimber_tests::cards::layout::sit::SitEntry;
use harptimber_tests::cards::segments::SegmentCard;
use harptimber_tests::sizes::SEGMENTS_MOST;
use std::hint::black_box;

/// Up to as many as a card has room for.
pub const SEGMENTS: [u32; 7] = [8, 32, 128, 512, 2048, 4096, SEGMENTS_MOST];

/// Both sides, in the order of the table.
const REPORTS: [SegmentReport; 2] = [harptimber_tests::segment_report, reference_report];

/// Enough for any card.
const LIST_BYTES: usize = 4 * SEGMENTS_MOST as usize;

pub fn sides<'a>(image: &'a [u8], what: &str, agreed: &mut Agreed) -> Vec<Contender<'a>> {
    let [archive, reference] = REPORTS.map(|report| {
        let mut list = [0xA5; LIST_BYTES];
        (report(image, &mut list), list)
    });
    agreed.see(archive.0.answer == 0 && archive == reference, what);
    let side = |report: SegmentReport| {
        let mut list = [0; LIST_BYTES];
        contender(move || report(black_box(image), &mut list))
    };
    REPORTS.map(side).into()
}

pub fn by_segments(agreed: &mut Agreed) -> Grid {
    let cards = SEGMENTS.map(card);
    let columns = SEGMENTS.iter().zip(&cards).map(|(segments, card)| {
        let what = format!("a report of {segments} segments");
        sides(card.image.bytes(), &what, agreed)
    });
    Grid::of(LONGER, columns.collect())
}

/// Every other segment is half full, and every third has a wrong count.
fn card(main_segments: u32) -> SegmentCard {
    let mut card = SegmentCard::new(&Knobs {
        ssa_segments: 0,
        ..Knobs::sound().with_segments(main_segments)
    });
    for segno in 0..main_segments {
        let mut entry = SitEntry::filled(256 * (segno % 2));
        entry.count += u16::from(segno % 3 == 0);
        card.set_entry(segno, &entry);
    }
    card
}

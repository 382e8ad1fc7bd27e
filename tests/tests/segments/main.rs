//! The segment report.

mod call;
mod copies;
mod entries;
mod journal;
mod opening;
mod random;

use harptimber_tests::cards::knobs::{Knobs, Pack};
use harptimber_tests::cards::layout::sit::SitEntry;
use harptimber_tests::cards::layout::sit_journal::SitJournalEntry;

/// A card with so many main segments.
fn knobs(main_segments: u32, pack: Pack) -> Knobs {
    let knobs = Knobs::sound().with_segments(main_segments);
    knobs.with_pack(0, pack)
}

/// The journal's word on a segment.
fn journalled(segno: u32, entry: SitEntry) -> SitJournalEntry {
    SitJournalEntry { segno, entry }
}

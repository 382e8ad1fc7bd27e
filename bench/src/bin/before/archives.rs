//! Both archives: the present one, and an earlier one whose symbols `bench/before` has renamed, wrapped in the same way.

#[allow(dead_code)] // not every call is timed
#[path = "../../../../tests/src/archive.rs"]
mod earlier;

use harptimber_tests::calls::pulls::Pull;
use harptimber_tests::calls::segments::SegmentReport;
use harptimber_tests::{
    Compared, Entry, Hashed, KeepFields, Kept, Place, Pulled, Reader, Run, Segments,
};

type Lookup = fn(&[u8], u32) -> Entry;
type Compare = fn(&[u8], &[u8], &[u8], u32, &[u8], u32) -> Compared;

pub struct Archive {
    pub pull: Pull,
    pub node_lookup: Lookup,
    pub compare: Compare,
    pub segment_report: SegmentReport,
}

/// The sides, in the order of the table.
pub const NOW: usize = 0;
pub const BEFORE: usize = 1;
pub static ARCHIVES: [Archive; 2] = [
    Archive {
        pull: harptimber_tests::pull,
        node_lookup: harptimber_tests::node_lookup,
        compare: harptimber_tests::compare,
        segment_report: harptimber_tests::segment_report,
    },
    Archive {
        pull: earlier::pull,
        node_lookup: earlier::node_lookup,
        compare: earlier::compare,
        segment_report: earlier::segment_report,
    },
];

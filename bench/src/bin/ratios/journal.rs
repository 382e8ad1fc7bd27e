//! Pulls and lookups by the number of entries in the NAT journal, which opening compares with each other.

use crate::calls::{first_block, lookups, OFTEN};
use crate::journalled::{journalled, Journalled, NAME};
use harptimber_bench::agreed::Agreed;
use harptimber_bench::grid::Grid;
use harptimber_tests::cards::knobs::Pack;
use harptimber_tests::cards::layout::checkpoint::CP_UMOUNT_FLAG;
use harptimber_tests::cards::layout::journal::MOST_ENTRIES;

/// In plain packs, up to a full journal; then a full one in compact packs.
const PLAIN: [usize; 4] = [0, 1, 19, MOST_ENTRIES];
const COMPACT: usize = MOST_ENTRIES;

pub fn heads() -> impl Iterator<Item = String> {
    let plain = PLAIN.iter().map(usize::to_string);
    plain.chain([format!("{COMPACT}, compact")])
}

/// Grids of pulls and of lookups.
pub fn by_entries(agreed: &mut Agreed) -> [Grid; 2] {
    let plain = Pack::plain(1, CP_UMOUNT_FLAG);
    let cards = PLAIN.iter().map(|&entries| journalled(&plain, entries));
    let cards = cards.chain([journalled(&Pack::compact(1), COMPACT)]);
    let cards: Vec<Journalled> = cards.collect();
    let (mut pulls, mut found) = (Vec::new(), Vec::new());
    for (Journalled { image, inode }, head) in cards.iter().zip(heads()) {
        let what = |call| format!("{call} with journal entries {head}");
        pulls.push(first_block(image, NAME, &what("a pull"), agreed));
        found.push(lookups(image, *inode, &what("a lookup"), agreed));
    }
    [pulls, found].map(|columns| Grid::of(OFTEN, columns))
}

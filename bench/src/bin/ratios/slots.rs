//! Pulls of a name that is nowhere, by what the blocks hold in which it is sought.

use crate::calls::{same_pulls, LONGER};
use crate::roots::{by_held, unsearched, HELD, NAME};
use harptimber_bench::agreed::Agreed;
use harptimber_bench::grid::Grid;

/// The most hash levels whose blocks all stand in the inode, so that a search is little else than their slots.
const DEPTH: u32 = 9;

pub fn heads() -> impl Iterator<Item = &'static str> {
    ["no search"].into_iter().chain(HELD)
}

/// The first column is the twin of the others.
pub fn by_slots(agreed: &mut Agreed) -> Grid {
    let images: Vec<_> = [unsearched()].into_iter().chain(by_held(DEPTH)).collect();
    let columns = heads().zip(&images).map(|(held, image)| {
        let what = format!("a pull of no name, blocks with {held}");
        same_pulls(image, NAME, 2, &what, agreed)
    });
    Grid::of(LONGER, columns.collect())
}

//! Pulls by the root's directory level, which gives each of its hash levels more buckets.

use crate::calls::{first_block, same_pulls, LONGER};
use crate::roots::{bare, first_slot, NAME};
use harptimber_bench::agreed::Agreed;
use harptimber_bench::grid::Grid;
use reference::hash::raw_hash;
use reference::levels::searched_blocks;

/// Up to the last that is read.
pub const LEVELS: [u8; 7] = [0, 1, 4, 8, 16, 22, 30];

/// The last 30 bits of its hash are 0, so that it has the first bucket whatever the level.
const NEAR: &str = "road-skukzzc.bin";
/// At level 16 its bucket is behind an indirect node, and at higher ones behind the double one.
const FAR: &str = NAME;

const MOST_DEPTH: u32 = 63;

/// Grids of pulls: the name near, the name far out, no name in the most hash levels.
pub fn by_directory_level(agreed: &mut Agreed) -> [Grid; 3] {
    // Otherwise the level wouldn't be all that differs for it.
    assert_eq!(raw_hash(NEAR.as_bytes()) << 2, 0);
    [found(NEAR, agreed), found(FAR, agreed), missing(agreed)]
}

/// The name is the first that a search comes to. For the near one the cards differ in the level's byte alone.
fn found(name: &str, agreed: &mut Agreed) -> Grid {
    let images = LEVELS.map(|level| {
        let bucket = searched_blocks(level, 0, raw_hash(name.as_bytes()));
        let first = bucket.expect("a level that is read").start;
        first_slot(name, level, first as u32)
    });
    let columns = LEVELS.iter().zip(&images).map(|(level, image)| {
        let what = format!("a pull of {name} with directory level {level}");
        first_block(image, name, &what, agreed)
    });
    Grid::of(LONGER, columns.collect())
}

/// No hash level has blocks, so that a search is little else than their first blocks and the way there.
fn missing(agreed: &mut Agreed) -> Grid {
    let images = LEVELS.map(|level| bare(MOST_DEPTH, level));
    let columns = LEVELS.iter().zip(&images).map(|(level, image)| {
        let what = format!("a pull of no name with directory level {level}");
        same_pulls(image, NEAR, 2, &what, agreed)
    });
    Grid::of(LONGER, columns.collect())
}

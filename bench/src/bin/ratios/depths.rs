//! Pulls from root directories of many hash levels: the name is the last that a search comes to.

use crate::calls::{first_block, LONGER};
use crate::roots::{full, NAME};
use harptimber_bench::agreed::Agreed;
use harptimber_bench::grid::Grid;

/// Up to the last hash level that lies within a file, with room for the name's bucket.
pub const DEPTHS: [u32; 9] = [1, 2, 3, 4, 6, 8, 10, 16, 29];

pub fn depths(agreed: &mut Agreed) -> Grid {
    let images = DEPTHS.map(full);
    let columns = DEPTHS.iter().zip(&images).map(|(depth, image)| {
        let what = format!("a pull through {depth} levels");
        first_block(image, NAME, &what, agreed)
    });
    Grid::of(LONGER, columns.collect())
}

//! Pulls by how many names a path has. Each folder has one hash level, and one entry.

use crate::calls::{first_block, LONGER};
use harptimber_bench::agreed::Agreed;
use harptimber_bench::grid::Grid;
use harptimber_tests::cards::folders::{Folders, Shape};
use harptimber_tests::trial::Random;

pub const NAMES: [usize; 5] = [1, 2, 3, 4, 8];

/// Grids of pulls: through folders with a block each, and through inline ones.
pub fn by_names(agreed: &mut Agreed) -> [Grid; 2] {
    [Shape::PLAIN, Shape::INLINE].map(|shape| pulls(shape, agreed))
}

fn pulls(shape: Shape, agreed: &mut Agreed) -> Grid {
    let cards = NAMES.map(|names| {
        let named = vec![(shape, b"road.bin".to_vec()); names];
        let folders = Folders::with(&mut Random::new(1), &named, 0);
        let path = String::from_utf8(folders.path()).expect("plain names");
        (folders.card.image.bytes().to_vec(), path)
    });
    let columns = cards.iter().map(|(image, path)| {
        let what = format!("a pull of {path} through folders {shape:?}");
        first_block(image, path, &what, agreed)
    });
    Grid::of(LONGER, columns.collect())
}

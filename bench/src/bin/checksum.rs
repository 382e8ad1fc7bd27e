//! Prints how many times as fast as a plain loop over bits the library's checksum of a checkpoint block
//! is. `ratios` runs it for its table: the archive with the checksum alone can't be linked beside the
//! library's.

#[path = "../../../tests/tests/checksum/crc32_export/mod.rs"]
mod crc32_export;

use harptimber_bench::grid::{contender, Grid, Often};
use std::hint::black_box;

/// A checkpoint block's bytes before its checksum.
const CHECKPOINT_BYTES: usize = 4092;
const OFTEN: Often = Often {
    rounds: 31,
    warm: 0,
    calls: 100,
};

fn main() {
    let bytes = (0..CHECKPOINT_BYTES).map(|i| (i * 31 % 251) as u8);
    let bytes = &bytes.collect::<Vec<u8>>();
    let sides: [fn(&[u8]) -> u32; 2] = [reference::checksum::checksum, crc32_export::checksum];
    assert_eq!(sides[0](bytes), sides[1](bytes));
    let sides = sides.map(|checksum| contender(move || checksum(black_box(bytes))));
    let grid = Grid::of(OFTEN, vec![sides.into()]);
    println!("{}", grid.parts(0, 1)[0]);
}

//! Holes in runs, at every level: they stand as zeros, and a run goes on behind them.

use harptimber_tests::calls::runs::Runs;
use harptimber_tests::cards::card::addresses_by;
use harptimber_tests::cards::layout::inode::I_SIZE;
use harptimber_tests::cards::layout::BLOCK_SIZE;

use crate::stretch::{boundaries, Stretch, INLINES};

/// Runs around a boundary, of which the last is as long as a run can be: each by how far before it starts.
const RUNS: [(u32, u32); 7] = [(0, 1), (1, 1), (1, 2), (2, 4), (0, 2), (3, 6), (4, 512)];

/// A hole by each number and by the address on the way to an index. Returns how many runs were tried.
fn expect_holes(runs: &mut Runs, stretch: &mut Stretch, boundary: u32, index: u32) -> u64 {
    let way = stretch.way(index);
    let last = way.len() - 1;
    let numbers = (0..last).map(|step| (step, 0));
    let holes = numbers.chain([(last, 0), (last, u64::from(u32::MAX))]);
    for (step, value) in holes.clone() {
        let image = &mut stretch.scene.card.image;
        image.set(way[step].node.block, way[step].slot, value);
        for (before, blocks) in RUNS {
            let told = stretch.told(boundary - before, blocks);
            assert_eq!((told.answer, told.count()), (0, blocks));
            runs.expect_given(&stretch.call(boundary - before, blocks), &told);
        }
        stretch.scene.card.image.undo(0);
    }
    (holes.count() * RUNS.len()) as u64
}

/// On both sides of each boundary: what leads to the block before it, or to the one behind it, leads nowhere.
#[test]
fn every_level() {
    let mut runs = Runs::new("runs over holes at every level");
    let mut tried = 0;
    for inline in INLINES {
        for boundary in boundaries(addresses_by(inline)) {
            let indexes = boundary - 4..boundary + 20;
            let mut stretch = Stretch::longest(&mut runs.trial.random, inline, indexes);
            for index in [boundary - 1, boundary] {
                tried += expect_holes(&mut runs, &mut stretch, boundary, index);
            }
        }
    }
    // Ways of one to four nodes, and for each a second kind of hole by its address.
    assert_eq!(tried, 2 * 7 * (2 + 4 * 3 + 8 * 4 + 5 * 5));
    runs.finish(tried, &[(0, true)]);
}

/// Holes alone, to the file's end: the byte count is the last one's.
#[test]
fn nothing_else() {
    let mut runs = Runs::new("runs of holes alone");
    for inline in INLINES {
        let mut stretch = Stretch::longest(&mut runs.trial.random, inline, 0..0);
        let inode = stretch.scene.file_block();
        for size in [1, 4095, 4096, 4097, 512 * BLOCK_SIZE as u64 - 7] {
            stretch.scene.card.image.set(inode, I_SIZE, size);
            for blocks in [1, 2, 512] {
                let told = stretch.told(0, blocks);
                runs.expect_given(&stretch.call(0, blocks), &told);
            }
        }
    }
    runs.finish(2 * 5 * 3, &[(0, true), (3, true)]);
}

/// Holes and blocks in turn, and blocks of zeros, which are no holes: all of them stand.
#[test]
fn in_turn() {
    let mut runs = Runs::new("runs of holes and blocks in turn");
    for inline in INLINES {
        let first = addresses_by(inline) - 256;
        let mut stretch = Stretch::longest(&mut runs.trial.random, inline, first..first + 512);
        for index in (first..first + 512).step_by(3) {
            stretch.scene.card.set_address(stretch.scene.ino, index, 0);
        }
        let card = &mut stretch.scene.card;
        let block = card.address(stretch.scene.ino, first + 1);
        card.image.put("zeros", block, 0, &[0; BLOCK_SIZE]);
        for (index, blocks) in [(0, 512), (1, 511), (2, 510), (0, 1), (0, 2)] {
            let told = stretch.told(first + index, blocks);
            runs.expect_given(&stretch.call(first + index, blocks), &told);
        }
    }
    runs.finish(2 * 5, &[(0, true)]);
}

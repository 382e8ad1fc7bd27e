//! Runs at a file's end and past it: how many stand, and the byte count of the last that does.

use harptimber_tests::calls::runs::Runs;
use harptimber_tests::cards::layout::inode::I_SIZE;
use harptimber_tests::cards::layout::BLOCK_SIZE;

use crate::stretch::Stretch;

const BLOCK: u64 = BLOCK_SIZE as u64;
/// Blocks that the file has, of which its size may leave some out.
const BLOCKS: u32 = 600;

/// So many bytes, and what runs around the end give.
fn expect_size(runs: &mut Runs, stretch: &mut Stretch, size: u64) {
    let inode = stretch.scene.file_block();
    stretch.scene.card.image.set(inode, I_SIZE, size);
    let past = size.div_ceil(BLOCK) as u32;
    for before in [0, 1, 2, 3, 511, 512] {
        for blocks in [1, 2, 3, 511, 512] {
            // The longest ones that end before the file does are tried elsewhere.
            let index = past.saturating_sub(before);
            if index + blocks < past || (blocks > 3 && before == 3) {
                continue;
            }
            let told = stretch.told(index, blocks);
            assert_eq!(told.count(), blocks.min(past - index));
            runs.expect_given(&stretch.call(index, blocks), &told);
        }
    }
    stretch.scene.card.image.undo(0);
}

#[test]
fn sizes() {
    let mut runs = Runs::new("runs at the end of a file");
    let mut stretch = Stretch::longest(&mut runs.trial.random, 0, 0..BLOCKS);
    for size in [
        0,
        1,
        4095,
        4096,
        4097,
        8191,
        8192,
        8193,
        513 * BLOCK - 1,
        600 * BLOCK - 4095,
    ] {
        expect_size(&mut runs, &mut stretch, size);
    }
    runs.finish(100, &[(0, true), (3, true), (3, false)]);
}

/// Behind the last block, and far behind it, nothing stands.
#[test]
fn past_the_end() {
    let mut runs = Runs::new("runs past the end of a file");
    let stretch = Stretch::of(&mut runs.trial.random, 0, 4097, 0..4);
    for index in [2, 3, 4, 922, 923, 1 << 20, u32::MAX] {
        for blocks in [1, 2, 511, 512] {
            let told = stretch.found(3);
            runs.expect_given(&stretch.call(index, blocks), &told);
        }
    }
    runs.finish(7 * 4, &[(3, false)]);
}

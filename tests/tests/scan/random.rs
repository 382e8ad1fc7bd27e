//! Scan: random blocks and inodes.

use crate::cards::dentry_block::{DentryBlock, Mixture};
use crate::cards::layout::dentry::{LAYOUTS, LONGEST_NAME};
use crate::scans::{Scans, INO, NAME};

#[test]
fn random_blocks() {
    let mut scans = Scans::new("scan of random blocks");
    for _ in 0..scans.trial.times(100) {
        for mixture in Mixture::all() {
            for layout in LAYOUTS {
                let block = mixture.block(layout, &mut scans.trial.random, NAME, INO);
                scans.compare(&block, NAME);
            }
        }
    }
    scans.finish(2 * 100 * 60, &[0, 2, 14]);
}

/// Nothing but junk, and then with lengths that names may have.
#[test]
fn junk_blocks() {
    let mut scans = Scans::new("scan of junk blocks");
    for _ in 0..scans.trial.times(2000) {
        for layout in LAYOUTS {
            let mut block = DentryBlock::junk(layout, &mut scans.trial.random);
            scans.compare(&block, NAME);
            for slot in 0..layout.slots {
                let len = 1 + scans.trial.random.below(LONGEST_NAME as u64) as usize;
                block.set_len(slot, len);
            }
            scans.compare(&block, NAME);
        }
    }
    scans.finish(2 * 2000 * 2, &[2, 14]);
}

//! Runs over every boundary between the nodes of a file, and up to the last index.

use harptimber_tests::calls::runs::Runs;
use harptimber_tests::cards::card::addresses_by;
use harptimber_tests::cards::tree::last_index;
use harptimber_tests::sizes::RUN_MOST;

use crate::stretch::{boundaries, Stretch, INLINES};

/// Runs that end before a boundary, at it and behind it, or start there: each with its first index and its length.
fn around(boundary: u32) -> [(u32, u32); 14] {
    [
        (1, 1),
        (0, 1),
        (2, 2),
        (1, 2),
        (0, 2),
        (511, 511),
        (510, 511),
        (1, 511),
        (512, 512),
        (511, 512),
        (256, 512),
        (2, 512),
        (1, 512),
        (0, 512),
    ]
    .map(|(before, blocks)| (boundary - before, blocks))
}

/// Every block is there, and no two share one.
#[test]
fn between_nodes() {
    let mut runs = Runs::new("runs over every boundary");
    for inline in INLINES {
        for boundary in boundaries(addresses_by(inline)) {
            let indexes = boundary - RUN_MOST..boundary + RUN_MOST;
            let mut stretch = Stretch::longest(&mut runs.trial.random, inline, indexes);
            for (index, blocks) in around(boundary) {
                let told = stretch.told(index, blocks);
                assert_eq!((told.answer, told.count()), (0, blocks));
                runs.expect_given(&stretch.call(index, blocks), &told);
            }
        }
    }
    runs.finish(2 * 9 * 14, &[(0, true)]);
}

/// However long the file is, it ends there.
#[test]
fn last_indexes() {
    let mut runs = Runs::new("runs to the last index");
    for inline in INLINES {
        let past = last_index(addresses_by(inline)) + 1;
        let indexes = past - RUN_MOST..past;
        let mut stretch = Stretch::longest(&mut runs.trial.random, inline, indexes);
        for (index, blocks) in around(past) {
            let told = stretch.told(index, blocks);
            assert_eq!(told.count(), blocks.min(past - index));
            runs.expect_given(&stretch.call(index, blocks), &told);
        }
        for index in [past + 1, 1 << 31, u32::MAX - 1, u32::MAX] {
            for blocks in [1, 2, 512] {
                let told = stretch.found(3);
                runs.expect_given(&stretch.call(index, blocks), &told);
            }
        }
    }
    runs.finish(2 * (14 + 4 * 3), &[(0, true), (3, true), (3, false)]);
}

//! Runs of blocks that lie on the card in any order, and of blocks that are something else too: each is listed once.

use harptimber_tests::calls::runs::Runs;
use harptimber_tests::cards::card::{addresses_by, ROOT};
use harptimber_tests::cards::random::shuffle;

use crate::stretch::{Stretch, INLINES};

/// The addresses of a stretch, by index.
fn addresses(stretch: &mut Stretch) -> Vec<u32> {
    let scene = &mut stretch.scene;
    let address = |index| scene.card.address(scene.ino, index);
    stretch.indexes.clone().map(address).collect()
}

/// With these addresses, as long as a run can be and a few short ones.
fn expect_runs(runs: &mut Runs, stretch: &mut Stretch, addresses: &[u32]) {
    for (index, &address) in stretch.indexes.clone().zip(addresses) {
        let scene = &mut stretch.scene;
        scene.card.set_address(scene.ino, index, address);
    }
    let first = stretch.indexes.start;
    for (index, blocks) in [(0, 512), (1, 511), (255, 2), (256, 1), (250, 13)] {
        let told = stretch.told(first + index, blocks);
        assert_eq!((told.answer, told.count()), (0, blocks));
        runs.expect_given(&stretch.call(first + index, blocks), &told);
    }
}

/// From the inode to its first direct node.
fn stretch(runs: &mut Runs, inline: u64) -> Stretch {
    let first = addresses_by(inline) - 256;
    Stretch::longest(&mut runs.trial.random, inline, first..first + 512)
}

#[test]
fn any_order() {
    let mut runs = Runs::new("runs of blocks in any order");
    for inline in INLINES {
        let mut stretch = stretch(&mut runs, inline);
        let mut order = addresses(&mut stretch);
        order.sort();
        expect_runs(&mut runs, &mut stretch, &order);
        order.reverse();
        expect_runs(&mut runs, &mut stretch, &order);
        shuffle(&mut runs.trial.random, &mut order);
        expect_runs(&mut runs, &mut stretch, &order);
    }
    runs.finish(2 * 3 * 5, &[(0, true)]);
}

/// One block for all indexes, or two in turn.
#[test]
fn one_block_many_times() {
    let mut runs = Runs::new("runs of one block many times");
    for inline in INLINES {
        let mut stretch = stretch(&mut runs, inline);
        let all = addresses(&mut stretch);
        expect_runs(&mut runs, &mut stretch, &[all[0]; 512]);
        let in_turn: Vec<u32> = (0..512).map(|nth| all[nth % 2]).collect();
        expect_runs(&mut runs, &mut stretch, &in_turn);
    }
    runs.finish(2 * 2 * 5, &[(0, true)]);
}

/// Data in the blocks that the run reads as nodes and as directories, at the ends of the main area and beside each other.
#[test]
fn data_that_is_something_else_too() {
    let mut runs = Runs::new("runs of data that is a node too");
    for inline in INLINES {
        let mut stretch = stretch(&mut runs, inline);
        let way = stretch.way(stretch.indexes.end - 1);
        let areas = stretch.scene.card.image.areas;
        let walked = [
            stretch.scene.card.inode_block(ROOT),
            stretch.scene.linked.block,
            way[0].node.block,
            way[1].node.block,
            areas.main,
            areas.main_end - 1,
        ];
        let mut order = addresses(&mut stretch);
        for (nth, address) in order.iter_mut().enumerate().filter(|(nth, _)| nth % 5 < 2) {
            *address = walked[nth % walked.len()];
        }
        expect_runs(&mut runs, &mut stretch, &order);
    }
    runs.finish(2 * 5, &[(0, true)]);
}

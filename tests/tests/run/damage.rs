//! Damage in the middle of a run: it stops there, and what stood before stays.

use harptimber_tests::calls::runs::{Given, Runs};
use harptimber_tests::cards::card::{addresses_by, Passage};
use harptimber_tests::cards::stops::{at_node, Stop};
use harptimber_tests::sizes::RUN_MOST;

use crate::stretch::{boundaries, Stretch, INLINES};

/// How many blocks stand before the damage, and how many are asked for.
const RUNS: [(u32, u32); 8] = [
    (0, 1),
    (0, 9),
    (1, 2),
    (1, 1),
    (3, 8),
    (8, 8),
    (300, 512),
    (511, 512),
];

/// What a run gives that stands up to an index, where the walk came to look up so many nodes of the way and to read
/// some of them.
fn stopped(told: Given, answer: u32, way: &[Passage], looked_up: usize, read: usize) -> Given {
    let mut given = Given { answer, ..told };
    given
        .nodes
        .extend(way[..looked_up].iter().map(|passage| passage.node.nid));
    given
        .blocks
        .extend(way[..read].iter().map(|passage| passage.node.block));
    given
}

/// Runs around damage at an index, where so many nodes of the way are looked up, and so many read.
fn expect_stopped(
    runs: &mut Runs,
    stretch: &mut Stretch,
    index: u32,
    answer: u32,
    at: (usize, usize),
) {
    let way = stretch.way(index);
    for (before, blocks) in RUNS {
        let told = stretch.told(index - before, before.min(blocks));
        let told = match before < blocks {
            true => stopped(told, answer, &way, at.0, at.1),
            false => told,
        };
        assert_eq!(told.count(), before.min(blocks));
        runs.expect_given(&stretch.call(index - before, blocks), &told);
    }
}

/// Each boundary with blocks on both sides.
fn each_boundary(runs: &mut Runs, mut expect: impl FnMut(&mut Runs, &mut Stretch, u32)) {
    for inline in INLINES {
        for boundary in boundaries(addresses_by(inline)) {
            let indexes = boundary - RUN_MOST..boundary + RUN_MOST;
            let mut stretch = Stretch::longest(&mut runs.trial.random, inline, indexes);
            expect(runs, &mut stretch, boundary);
        }
    }
}

/// Nodes that the block behind a boundary is the first to need: 9, 10 and 11.
#[test]
fn nodes() {
    let mut runs = Runs::new("runs by damaged nodes");
    let mut tried = 0;
    each_boundary(&mut runs, |runs, stretch, boundary| {
        let (way, before) = (stretch.way(boundary), stretch.way(boundary - 1));
        let is_new = |passage: &Passage| before.iter().all(|other| other.node != passage.node);
        for step in (0..way.len()).filter(|&step| is_new(&way[step])) {
            let mut stops: Vec<Stop> = Vec::new();
            at_node(&stretch.scene.card, &way[step], &mut stops);
            for (answer, block, field, value) in stops {
                let image = &mut stretch.scene.card.image;
                image.set(block, field, value);
                let read = step + usize::from(answer == 11);
                expect_stopped(runs, stretch, boundary, answer, (step + 1, read));
                stretch.scene.card.image.undo(0);
                tried += 1;
            }
        }
    });
    // A leaf at each boundary, and an indirect node or more at four of them.
    assert_eq!(tried, 2 * 3 * (9 + 1 + 1 + 2 + 1));
    let stops = [9, 10, 11]
        .into_iter()
        .flat_map(|answer| [(answer, true), (answer, false)]);
    let every: Vec<_> = stops.chain([(0, true)]).collect();
    runs.finish(tried * RUNS.len() as u64, &every);
}

/// The number that leads to the next node leads to the one before it, which belongs elsewhere, or to none.
#[test]
fn numbers_of_nodes() {
    let mut runs = Runs::new("runs by numbers of nodes");
    each_boundary(&mut runs, |runs, stretch, boundary| {
        let (way, before) = (stretch.way(boundary), stretch.way(boundary - 1));
        let [above, leaf] = [way[way.len() - 2], way[way.len() - 1]];
        let stale = before[before.len() - 1].node.nid;
        for (number, answer) in [
            (stale, 11),
            (u32::MAX, 9),
            (stretch.scene.card.node_numbers, 9),
        ] {
            let image = &mut stretch.scene.card.image;
            image.set(above.node.block, above.slot, u64::from(number));
            let mut told = stopped(
                stretch.told(boundary - 5, 5),
                answer,
                &way,
                way.len() - 1,
                way.len() - 1,
            );
            assert!(!told.nodes.contains(&leaf.node.nid));
            told.nodes.insert(number);
            runs.expect_given(&stretch.call(boundary - 5, 9), &told);
            stretch.scene.card.image.undo(0);
        }
    });
    runs.finish(2 * 9 * 3, &[(9, true), (11, true)]);
}

/// An address outside the main area, in the middle of a node's.
#[test]
fn addresses() {
    let mut runs = Runs::new("runs by addresses outside the main area");
    each_boundary(&mut runs, |runs, stretch, boundary| {
        let areas = stretch.scene.card.image.areas;
        let outside = [1, areas.main - 1, areas.main_end, u32::MAX - 1];
        for (nth, address) in (0..).zip(outside) {
            // On both sides of the boundary.
            let index = boundary + nth - 2;
            stretch
                .scene
                .card
                .set_address(stretch.scene.ino, index, address);
            let len = stretch.way(index).len();
            expect_stopped(runs, stretch, index, 13, (len, len));
            stretch.scene.card.image.undo(0);
        }
    });
    runs.finish(
        2 * 9 * 4 * RUNS.len() as u64,
        &[(0, true), (13, true), (13, false)],
    );
}

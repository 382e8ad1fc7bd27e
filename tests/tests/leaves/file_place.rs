//! File place against the reference: around every boundary, and on random numbers.

use harptimber_tests::trial::Trial;
use harptimber_tests::{Place, Step};

/// How many addresses an inode may hold.
const INODE_ADDRESSES: [u32; 2] = [873, 923];
const NODE_ENTRIES: u64 = 1018;
/// Blocks below an indirect node.
const INDIRECT_BLOCKS: u64 = NODE_ENTRIES * NODE_ENTRIES;
const LAST_PAST_INODE: u64 = 1_057_052_515;

fn compare(trial: &mut Trial, addresses: u32, index: u32) {
    let expected = reference::place::file_place(addresses, index).numbers();
    let expected = Place {
        answer: expected.answer,
        steps: expected.steps,
        way: expected.way.map(|(place, slot)| Step { place, slot }),
    };
    let input = format!("A = {addresses}, index {index}");
    trial.compare(
        input,
        harptimber_tests::file_place(addresses, index),
        expected,
    );
}

/// Indexes at which the way changes its nodes: each first block below a node, and both ends.
fn boundaries(addresses: u64) -> Vec<u64> {
    let direct = addresses;
    let indirect = direct + 2 * NODE_ENTRIES;
    let double = indirect + 2 * INDIRECT_BLOCKS;
    let last_child = double + (NODE_ENTRIES - 1) * INDIRECT_BLOCKS;
    let last = addresses + LAST_PAST_INODE;
    let mut found = vec![
        0,
        direct,
        direct + NODE_ENTRIES,
        last,
        last + 1,
        u64::from(u32::MAX),
    ];
    found.extend((0..=2 * NODE_ENTRIES).map(|child| indirect + child * NODE_ENTRIES));
    found.extend((0..=NODE_ENTRIES).map(|child| double + child * INDIRECT_BLOCKS));
    for leaves in [double, last_child] {
        found.extend((0..=NODE_ENTRIES).map(|leaf| leaves + leaf * NODE_ENTRIES));
    }
    found
}

#[test]
fn around_every_boundary() {
    let mut trial = Trial::new("file place around boundaries");
    for addresses in INODE_ADDRESSES {
        for boundary in boundaries(u64::from(addresses)) {
            let nearby = boundary.saturating_sub(3)..=(boundary + 3).min(u64::from(u32::MAX));
            nearby.for_each(|index| compare(&mut trial, addresses, index as u32));
        }
    }
    trial.finish(70_000);
}

#[test]
fn random_indexes() {
    let mut trial = Trial::new("file place of random indexes");
    for _ in 0..trial.times(50_000) {
        // A shift by 0 to 31 makes each level of the tree come up often.
        let shift = trial.random.below(32);
        let index = trial.random.number() as u32 >> shift;
        for addresses in INODE_ADDRESSES {
            compare(&mut trial, addresses, index);
        }
    }
    trial.finish(100_000);
}

#[test]
fn other_numbers_of_addresses() {
    let mut trial = Trial::new("file place of other A");
    for addresses in (0..=2000).chain([u32::MAX]) {
        for index in [0, addresses, 923 + LAST_PAST_INODE as u32, u32::MAX] {
            compare(&mut trial, addresses, index);
        }
    }
    trial.finish(4 * 2002);
}

#[test]
fn random_numbers() {
    let mut trial = Trial::new("file place of random A and index");
    for _ in 0..trial.times(50_000) {
        let number = trial.random.number();
        compare(&mut trial, (number >> 32) as u32, number as u32);
    }
    trial.finish(50_000);
}

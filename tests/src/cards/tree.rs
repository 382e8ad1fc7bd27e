//! The tree of nodes below an inode, worked out from its shape: five subtrees hang below the inode,
//! and place numbers count each node before what hangs below it, from left to right. The formulas
//! of the paper aren't used, so that they can be tried against this.

use crate::cards::layout::slots::PER_NODE;

/// How many nodes there are from the top of each of the five subtrees to its bottom.
const HEIGHTS: [u32; 5] = [1, 1, 2, 2, 3];

/// A node on the way to a block: its place number and the slot to take in it.
#[derive(Clone, Copy, Debug, PartialEq, Eq)]
pub struct Step {
    pub place: u32,
    pub slot: usize,
}

/// How many blocks hang below a node of the height.
fn span(height: u32) -> u64 {
    PER_NODE.pow(height)
}

/// How many nodes a subtree of the height has.
fn nodes(height: u32) -> u64 {
    (0..height).map(span).sum()
}

/// The last index below an inode with so many addresses.
pub fn last_index(addresses: u32) -> u32 {
    let below: u64 = HEIGHTS.into_iter().map(span).sum();
    (u64::from(addresses) + below - 1) as u32
}

/// The first index below each of the five subtrees, each with that of its last block.
fn ends(addresses: u32) -> Vec<u32> {
    let mut first = u64::from(addresses);
    let mut ends = Vec::new();
    for height in HEIGHTS {
        ends.extend([first as u32, (first + span(height) - 1) as u32]);
        first += span(height);
    }
    ends
}

/// Indexes of each kind of place, on both sides of where the way changes.
pub fn sample_indexes(addresses: u32) -> Vec<u32> {
    let mut indexes = vec![0, 1, addresses - 1];
    for end in ends(addresses) {
        let leaf = PER_NODE as u32;
        indexes.extend([end, end.saturating_sub(leaf), end.saturating_add(leaf)]);
    }
    let double = ends(addresses)[8];
    let child = span(2) as u32;
    indexes.extend([double + child - 1, double + child, double + 500 * child]);
    indexes.retain(|&index| index <= last_index(addresses));
    indexes.sort();
    indexes.dedup();
    indexes
}

/// The way from the inode to the address of a block.
pub fn way(addresses: u32, index: u32) -> Vec<Step> {
    if index < addresses {
        return vec![step(0, u64::from(index))];
    }
    let mut rest = u64::from(index - addresses);
    let mut place = 1;
    for (slot, height) in HEIGHTS.into_iter().enumerate() {
        if rest < span(height) {
            let below = descent(place, height, rest);
            return [vec![step(0, slot as u64)], below].concat();
        }
        rest -= span(height);
        place += nodes(height);
    }
    panic!("index {index} is past the last")
}

/// The way through a subtree to the block that is number `rest` in it.
fn descent(top: u64, height: u32, mut rest: u64) -> Vec<Step> {
    let mut place = top;
    let mut steps = Vec::new();
    for below in (0..height).rev() {
        let slot = rest / span(below);
        steps.push(step(place, slot));
        rest %= span(below);
        place += 1 + slot * nodes(below);
    }
    steps
}

fn step(place: u64, slot: u64) -> Step {
    Step {
        place: place as u32,
        slot: slot as usize,
    }
}

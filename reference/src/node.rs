//! What is read of nodes: where they may lie, whether a block is the node that is sought, and where
//! a way goes on from it.

use std::ops::Range;

use crate::bytes::le32;
use crate::place::Way;

/// A node that is sought: its number, the inode that it must belong to, and its place there.
#[derive(Debug, Clone, Copy, PartialEq, Eq)]
pub struct Sought {
    pub number: u32,
    pub inode: u32,
    pub place: u32,
}

impl Sought {
    /// "for an inode, the number itself"; "Place numbers: inode 0"
    pub fn inode(number: u32) -> Sought {
        Sought { number, inode: number, place: 0 }
    }

    /// "A node block ends with 24 bytes: number, inode, flag, version, next. The block's number must
    /// be the one asked, its inode and the table's inode the file's inode number [...], and flag / 8
    /// its place number; else 11."
    pub fn expect_in(&self, node: &[u8], table_inode: u32) -> Result<(), u32> {
        let belongs = le32(node, 4072) == self.number
            && le32(node, 4076) == self.inode
            && table_inode == self.inode
            && le32(node, 4080) / 8 == self.place;
        if belongs {
            Ok(())
        } else {
            Err(11)
        }
    }
}

/// The table's address of a node, if one can lie there.
pub fn expect_node_address(address: u32, main_area: Range<u32>) -> Result<(), u32> {
    // "node number out of range, or its address is 0"
    if address == 0 {
        return Err(9);
    }
    // "node address outside the main area"
    if !main_area.contains(&address) {
        return Err(10);
    }
    Ok(())
}

/// Where a way goes on from a node.
pub enum Onward {
    Hole,
    /// At the node with this number and place.
    Node {
        number: u32,
        place: u32,
    },
    /// At the block with this address, which is its end.
    Block(u32),
}

/// Where the way goes on from its node at this depth, the inode at 0.
pub fn onward(way: &Way, depth: usize, node: &[u8], main_area: Range<u32>) -> Result<Onward, u32> {
    // "addresses from 360, five node numbers from 4,052"; the nodes below hold theirs from their
    // first byte.
    let (addresses, numbers) = if depth == 0 { (360, 4052) } else { (0, 0) };
    let mut steps = way.steps().iter().skip(depth);
    let Some(step) = steps.next() else {
        return Ok(Onward::Hole);
    };
    let slot = 4 * step.slot as usize;
    let Some(next) = steps.next() else {
        return end_at(le32(node, addresses + slot), main_area);
    };
    match le32(node, numbers + slot) {
        // "Inside a node, number 0 [...] [is a hole]"
        0 => Ok(Onward::Hole),
        number => Ok(Onward::Node { number, place: next.place }),
    }
}

/// "address 0 and address FFFFFFFF are holes"
fn end_at(address: u32, main_area: Range<u32>) -> Result<Onward, u32> {
    if address == 0 || address == u32::MAX {
        return Ok(Onward::Hole);
    }
    // "data address outside the main area"
    if !main_area.contains(&address) {
        return Err(13);
    }
    Ok(Onward::Block(address))
}

//! Pulls of the library and of the reference under one type.

use crate::grid::{contender, Contender};
use harptimber_tests::sizes::{blocks_most, nodes_most, BLOCKS_MOST, NODES_MOST};
pub use reference::bytes::BLOCK_SIZE;
pub use reference::pull::Pulled;
use std::hint::black_box;
use std::ops::Range;

/// How many numbers the longest lists of one name have.
pub const NODES: u32 = nodes_most(1);
pub const BLOCKS: u32 = blocks_most(1);

/// How many bytes the lists have that are long enough for any path.
const NODES_BYTES: usize = NODES_MOST as usize * 4;
const BLOCKS_BYTES: usize = BLOCKS_MOST as usize * 4;

/// What is lent to a pull: a block and the two lists.
#[derive(PartialEq, Eq)]
pub struct Lent {
    pub block: [u8; BLOCK_SIZE],
    pub nodes: [u8; NODES_BYTES],
    pub blocks: [u8; BLOCKS_BYTES],
}

impl Default for Lent {
    fn default() -> Lent {
        Lent {
            block: [0; BLOCK_SIZE],
            nodes: [0; NODES_BYTES],
            blocks: [0; BLOCKS_BYTES],
        }
    }
}

pub type Pull = fn(image: &[u8], name: &[u8], index: u32, lent: &mut Lent) -> Pulled;

pub fn reference(image: &[u8], name: &[u8], index: u32, lent: &mut Lent) -> Pulled {
    let (block, nodes, blocks) = (&mut lent.block, &mut lent.nodes, &mut lent.blocks);
    reference::pull::pull(image, name, index, block, nodes, blocks)
}

/// Pulls a file block by block, gives away the bytes of each, and returns the answer that ended it: 3 at
/// the end of a file.
pub fn whole(pull: Pull, image: &[u8], name: &[u8], mut take: impl FnMut(&[u8])) -> u32 {
    let mut lent = Lent::default();
    let mut index = 0;
    loop {
        let pulled = pull(image, name, index, &mut lent);
        if pulled.answer > 1 {
            return pulled.answer;
        }
        take(&lent.block[..pulled.byte_count as usize]);
        index += 1;
    }
}

/// With each call pulls the next of these blocks of a file, and after the last the first again. What is
/// lent is the same for every pull, and isn't cleared.
pub fn pulling<'a>(
    pull: Pull,
    image: &'a [u8],
    name: &'a str,
    indexes: Range<u32>,
) -> Contender<'a> {
    let (mut lent, mut indexes) = (Lent::default(), indexes.cycle());
    contender(move || {
        let index = indexes.next();
        pull(
            black_box(image),
            name.as_bytes(),
            index.expect("a block"),
            &mut lent,
        )
    })
}

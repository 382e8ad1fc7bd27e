//! A run by a straightforward reader in safe Rust, written for the comparison with the archive's: it opens the card, walks
//! the path once, reads each node once, and copies block by block. It reads sound cards; of what a damaged one would need,
//! it has only what can't be left out.

mod crc32;
mod lookup;
mod opening;

use reference::bytes::{le32, le64, BLOCK_SIZE};
use reference::open::Volume;
use reference::place::{file_place, Place, Step, ADDRESSES, ADDRESSES_WITH_XATTR};

use lookup::{find, node, INLINE_AT};

const I_SIZE: usize = 16;
const I_INLINE: usize = 3;
const INLINE_XATTR: u8 = 1;
const INLINE_DATA: u8 = 2;
/// Where an inode has its addresses, and its five node numbers.
const I_ADDR: usize = 360;
const I_NID: usize = 4052;
const PER_NODE: usize = 1018;

const PAST_END: u32 = 3;
const BAD_ADDRESS: u32 = 13;

/// What a run rested on, or nothing for a reader that doesn't tell.
pub trait Lists {
    fn node(&mut self, number: u32);
    fn block(&mut self, address: u32);
    /// They are gathered in any order, with repeats.
    fn finish(&mut self);
}

#[derive(Debug, PartialEq, Eq)]
pub struct Listed {
    pub nodes: Vec<u32>,
    pub blocks: Vec<u32>,
}

impl Listed {
    /// With room for what a run of so many blocks mostly rests on, in a small directory.
    pub fn new(blocks: usize) -> Listed {
        Listed {
            nodes: Vec::with_capacity(16),
            blocks: Vec::with_capacity(blocks + 16),
        }
    }
}

impl Lists for Listed {
    fn node(&mut self, number: u32) {
        self.nodes.push(number);
    }

    fn block(&mut self, address: u32) {
        self.blocks.push(address);
    }

    fn finish(&mut self) {
        for list in [&mut self.nodes, &mut self.blocks] {
            list.sort(); // which is quick where most of it rises already
            list.dedup();
        }
    }
}

pub struct Unlisted;

impl Lists for Unlisted {
    fn node(&mut self, _: u32) {}
    fn block(&mut self, _: u32) {}
    fn finish(&mut self) {}
}

/// How many blocks stand, and how many bytes of the last are the file's.
#[derive(Default, Debug, Clone, Copy, PartialEq, Eq)]
pub struct Stand {
    pub answer: u32,
    pub count: u32,
    pub byte_count: u32,
}

/// Reads blocks of a file into the buffer, as many as it has room for, from this one on. The error is that the card or
/// the path isn't read, or a node.
pub fn read_run(
    image: &[u8],
    path: &[u8],
    index: u32,
    buffer: &mut [u8],
    lists: &mut impl Lists,
) -> Result<Stand, u32> {
    let volume = opening::open(image).ok_or(5u32)?;
    let ino = find(&volume, path, lists)?;
    let inode = node(&volume, ino, ino, 0, lists)?;
    let mut file = File::new(volume, ino, inode);
    let stand = match inode[I_INLINE] & INLINE_DATA {
        0 => file.read(index, buffer, lists),
        _ => Ok(file.read_inline(index, buffer)),
    };
    lists.finish();
    stand
}

struct File<'a> {
    volume: Volume<'a>,
    ino: u32,
    size: u64,
    addresses: u32,
    /// The nodes on the way to the block that was read last, by their places: the next block mostly needs the same.
    way: Vec<(u32, &'a [u8])>,
}

impl<'a> File<'a> {
    fn new(volume: Volume<'a>, ino: u32, inode: &'a [u8]) -> File<'a> {
        File {
            volume,
            ino,
            size: le64(inode, I_SIZE),
            addresses: match inode[I_INLINE] & INLINE_XATTR {
                0 => ADDRESSES,
                _ => ADDRESSES_WITH_XATTR,
            },
            way: vec![(0, inode)],
        }
    }

    fn read_inline(&self, index: u32, buffer: &mut [u8]) -> Stand {
        let size = self.size as usize;
        let Some(block) = buffer
            .chunks_exact_mut(BLOCK_SIZE)
            .next()
            .filter(|_| index == 0)
        else {
            return Stand {
                answer: PAST_END,
                ..Stand::default()
            };
        };
        block[..size].copy_from_slice(&self.way[0].1[INLINE_AT..INLINE_AT + size]);
        block[size..].fill(0);
        Stand {
            answer: if buffer.len() > BLOCK_SIZE {
                PAST_END
            } else {
                0
            },
            count: 1,
            byte_count: self.size as u32,
        }
    }

    /// Leaf by leaf: as many addresses of one as there are, and as blocks are left.
    fn read(
        &mut self,
        index: u32,
        buffer: &mut [u8],
        lists: &mut impl Lists,
    ) -> Result<Stand, u32> {
        let wanted = (buffer.len() / BLOCK_SIZE) as u64;
        let blocks = self.size.div_ceil(BLOCK_SIZE as u64);
        let end = blocks.min(u64::from(index) + wanted);
        let mut stand = Stand::default();
        while u64::from(index + stand.count) < end {
            let at = index + stand.count;
            let leaf = self.leaf(at, lists)?;
            let rest = &mut buffer[stand.count as usize * BLOCK_SIZE..];
            let left = (end - u64::from(at)) as usize;
            let (copied, sound) = self.copy(leaf, rest, left, lists);
            stand.count += copied;
            if !sound {
                stand.answer = BAD_ADDRESS;
                break;
            }
        }
        if stand.answer == 0 && end < u64::from(index) + wanted {
            stand.answer = PAST_END;
        }
        stand.byte_count = self.cut(index, stand.count, buffer);
        Ok(stand)
    }

    /// Copies a leaf's blocks, and says how many and whether it came to its end.
    fn copy(
        &self,
        leaf: Leaf,
        buffer: &mut [u8],
        left: usize,
        lists: &mut impl Lists,
    ) -> (u32, bool) {
        let blocks = buffer.chunks_exact_mut(BLOCK_SIZE).take(left);
        let mut copied = 0;
        match leaf {
            Leaf::Hole(len) => blocks.take(len).for_each(|block| {
                block.fill(0);
                copied += 1;
            }),
            Leaf::Addresses(numbers) => {
                let (image, main) = (self.volume.image, self.volume.main_area());
                for (block, number) in blocks.zip(numbers.chunks_exact(4)) {
                    match u32::from_le_bytes([number[0], number[1], number[2], number[3]]) {
                        0 | u32::MAX => block.fill(0),
                        address if main.contains(&address) => {
                            lists.block(address);
                            let at = address as usize * BLOCK_SIZE;
                            block.copy_from_slice(&image[at..at + BLOCK_SIZE]);
                        }
                        _ => return (copied, false),
                    }
                    copied += 1;
                }
            }
        }
        (copied, true)
    }

    /// The byte count of the last block that stands. What lies behind the file's end becomes zeros.
    fn cut(&self, index: u32, count: u32, buffer: &mut [u8]) -> u32 {
        if count == 0 {
            return 0;
        }
        let last = (count - 1) as usize * BLOCK_SIZE;
        let before = u64::from(index + count - 1) * BLOCK_SIZE as u64;
        let bytes = (self.size - before).min(BLOCK_SIZE as u64) as usize;
        buffer[last + bytes..last + BLOCK_SIZE].fill(0);
        bytes as u32
    }

    /// The addresses from a block's on, to the end of the node that has them.
    fn leaf(&mut self, index: u32, lists: &mut impl Lists) -> Result<Leaf<'a>, u32> {
        let place = file_place(self.addresses, index);
        let Place::Way(way) = place else {
            return Err(PAST_END);
        };
        let steps = way.steps();
        for (nth, step) in steps.iter().enumerate().skip(1) {
            if self
                .way
                .get(nth)
                .is_some_and(|&(place, _)| place == step.place)
            {
                continue;
            }
            let number = le32(self.way[nth - 1].1, slot_at(&steps[nth - 1], false));
            if number == 0 {
                return Ok(Leaf::Hole(PER_NODE - steps[steps.len() - 1].slot as usize));
            }
            let block = node(&self.volume, number, self.ino, step.place, lists)?;
            self.way.truncate(nth);
            self.way.push((step.place, block));
        }
        let last = &steps[steps.len() - 1];
        let numbers = match last.place {
            0 => self.addresses as usize,
            _ => PER_NODE,
        };
        let from = slot_at(last, true);
        let to = from + 4 * (numbers - last.slot as usize);
        Ok(Leaf::Addresses(&self.way[steps.len() - 1].1[from..to]))
    }
}

/// The addresses of some blocks that follow each other, or that so many of them have no node.
enum Leaf<'a> {
    Addresses(&'a [u8]),
    Hole(usize),
}

/// Where a step's number stands in its node.
fn slot_at(step: &Step, last: bool) -> usize {
    let first = match (step.place, last) {
        (0, true) => I_ADDR,
        (0, false) => I_NID,
        _ => 0,
    };
    first + 4 * step.slot as usize
}

//! Memory that is lent to a call. It is filled with a pattern beforehand, and so is a margin around
//! it, to see afterwards each byte that was written.

use std::fmt::{Debug, Formatter, Result};
use std::ops::Range;

use crate::cards::layout::BLOCK_SIZE;
use crate::sizes::{blocks_most, nodes_most, run_blocks_most, run_nodes_most};
use crate::trial::Random;

/// Bytes of a number in a list.
pub const NUMBER_SIZE: usize = 4;

const MARGIN: usize = 32;
/// A longer list has up to so many bytes more than it needs.
const MOST_SPARE: u64 = 70;
const MOST_SHIFT: u64 = 16;

/// How many bytes of each kind are lent.
#[derive(Clone, Copy, Debug)]
pub struct Lens {
    pub block: usize,
    pub nodes: usize,
    pub blocks: usize,
}

impl Lens {
    /// The shortest that are in shape for one name.
    pub fn least() -> Lens {
        Lens::of(1)
    }

    /// For a path of so many.
    pub fn of(names: u32) -> Lens {
        Lens {
            block: BLOCK_SIZE,
            nodes: nodes_most(names) as usize * NUMBER_SIZE,
            blocks: blocks_most(names) as usize * NUMBER_SIZE,
        }
    }

    /// For a run of so many blocks, by a path of so many names.
    pub fn of_run(names: u32, blocks: u32) -> Lens {
        Lens {
            block: blocks as usize * BLOCK_SIZE,
            nodes: run_nodes_most(names) as usize * NUMBER_SIZE,
            blocks: run_blocks_most(names) as usize * NUMBER_SIZE,
        }
    }
}

/// Two patterns that differ in each byte: what happens to be one isn't the other.
#[derive(Clone, Copy, Debug, PartialEq, Eq)]
pub enum Pattern {
    Plain,
    Inverted,
}

impl Pattern {
    fn byte(self, position: usize) -> u8 {
        let plain = (position * 167 + position / 256 + 89) as u8;
        match self {
            Pattern::Plain => plain,
            Pattern::Inverted => !plain,
        }
    }
}

/// One slice with its margins.
#[derive(Clone, PartialEq, Eq)]
pub struct Slice {
    pattern: Pattern,
    memory: Vec<u8>,
    lent: Range<usize>,
}

impl Slice {
    /// `shift` moves the start, so that it isn't always aligned.
    pub fn new(len: usize, pattern: Pattern, shift: usize) -> Slice {
        let start = MARGIN + shift;
        let positions = 0..start + len + MARGIN;
        Slice {
            pattern,
            memory: positions.map(|position| pattern.byte(position)).collect(),
            lent: start..start + len,
        }
    }

    pub fn lend(&mut self) -> &mut [u8] {
        &mut self.memory[self.lent.clone()]
    }

    pub fn bytes(&self) -> &[u8] {
        &self.memory[self.lent.clone()]
    }

    /// Whether the pattern is still there, margins included.
    pub fn untouched(&self) -> bool {
        self.untouched_from(0)
    }

    /// Whether the pattern is still there but for so many bytes at the slice's start.
    pub fn untouched_from(&self, written: usize) -> bool {
        let start = self.lent.start;
        let same = |at: usize| self.memory[at] == self.pattern.byte(at);
        (0..start).all(same) && (start + written..self.memory.len()).all(same)
    }

    /// The first and the last byte that isn't the pattern's, counted from the slice's start.
    fn changed(&self) -> Option<(isize, isize)> {
        let differs = |&at: &usize| self.memory[at] != self.pattern.byte(at);
        let counted = |at: usize| at as isize - self.lent.start as isize;
        let mut places = (0..self.memory.len()).filter(differs);
        let first = places.next()?;
        let last = places.next_back().unwrap_or(first);
        Some((counted(first), counted(last)))
    }

    /// The first numbers of a list.
    pub fn numbers(&self, count: u32) -> Vec<u32> {
        let numbers = self.bytes().chunks_exact(NUMBER_SIZE);
        let number = |stored: &[u8]| u32::from_le_bytes(stored.try_into().unwrap());
        numbers.map(number).take(count as usize).collect()
    }
}

impl Debug for Slice {
    fn fmt(&self, f: &mut Formatter) -> Result {
        write!(f, "{} bytes, ", self.lent.len())?;
        match self.changed() {
            None => write!(f, "untouched"),
            Some((first, last)) => {
                let sum = reference::checksum::checksum(&self.memory);
                write!(f, "changed in {first}..={last}, sum {sum:08X}")
            }
        }
    }
}

/// All that is lent to a pull, or to a run, whose buffer has a block for each.
#[derive(Clone, Debug, PartialEq, Eq)]
pub struct Lent {
    pub block: Slice,
    pub nodes: Slice,
    pub blocks: Slice,
}

impl Lent {
    pub fn new(lens: Lens, pattern: Pattern, shift: usize) -> Lent {
        let slice = |len| Slice::new(len, pattern, shift);
        Lent {
            block: slice(lens.block),
            nodes: slice(lens.nodes),
            blocks: slice(lens.blocks),
        }
    }

    /// As little as is in shape for one name.
    pub fn least() -> Lent {
        Lent::of(1)
    }

    /// For a path of so many.
    pub fn of(names: u32) -> Lent {
        Lent::new(Lens::of(names), Pattern::Plain, 0)
    }

    /// Other memory with longer lists, mostly with a remainder of one to three bytes.
    pub fn longer(random: &mut Random, names: u32) -> Lent {
        Lent::longer_than(Lens::of(names), random)
    }

    pub fn longer_than(mut lens: Lens, random: &mut Random) -> Lent {
        let shift = random.below(MOST_SHIFT) as usize;
        for len in [&mut lens.nodes, &mut lens.blocks] {
            *len += random.below(MOST_SPARE) as usize;
        }
        Lent::new(lens, Pattern::Inverted, shift)
    }
}

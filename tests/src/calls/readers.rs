//! Pulls by a reader that is fed one block at a time, compared with whole-image pulls and with the reference's reader: what
//! they give, and the blocks that they ask for.

use std::collections::BTreeSet;
use std::fmt::{Debug, Formatter, Result};
use std::mem;

use reference::lookup::{map_bit, table_block_address};
use reference::open::{open, Volume, JOURNAL_ENTRY_SIZE};

use crate::calls::lent::Lent;
use crate::calls::pulls::{by_reference, Call, Outcome};
use crate::cards::layout::nat::ENTRIES_PER_BLOCK;
use crate::cards::layout::BLOCK_SIZE;
use crate::sizes::reader_blocks_most;
use crate::trial::Trial;
use crate::{reader_result, reader_start, reader_step, Pulled, Reader};

/// "Opening takes .. 7 of the 16 blocks".
const OPENING_MOST: usize = 7;

impl Reader {
    /// The block that it wants next, if it wants one. The two numbers are in form whatever it was fed.
    pub fn wanted(&self) -> Option<u32> {
        match (self.asks, self.block) {
            (1, block) => Some(block),
            (0, 0) => None,
            others => panic!("a reader that asks {others:?}"),
        }
    }

    /// All that a state is.
    pub fn state(&self) -> Vec<u8> {
        let numbers = [self.asks, self.block].into_iter().chain(self.numbers);
        let numbers = numbers.flat_map(u32::to_ne_bytes);
        numbers.chain(self.bytes).collect()
    }

    /// Any bytes are a state.
    pub fn from_state(state: &[u8]) -> Reader {
        let (numbers, bytes) = state.split_at(4 * 35);
        let numbers = numbers.chunks_exact(4);
        let mut numbers = numbers.map(|number| u32::from_ne_bytes(number.try_into().unwrap()));
        let mut number = || numbers.next().expect("35 numbers");
        Reader {
            asks: number(),
            block: number(),
            numbers: [(); 33].map(|_| number()),
            bytes: bytes.try_into().expect("as many bytes"),
        }
    }
}

impl Debug for Reader {
    fn fmt(&self, f: &mut Formatter) -> Result {
        let sum = reference::checksum::checksum(&self.state());
        write!(f, "asks {} {}, sum {sum:08X}", self.asks, self.block)
    }
}

/// The library's reader, or the reference's.
pub trait Steps: Sized {
    fn asks(&self) -> Option<u32>;
    fn step(&mut self, bytes: &[u8]);
    fn result(&self, lent: &mut Lent) -> Pulled;
}

impl Steps for Reader {
    fn asks(&self) -> Option<u32> {
        self.wanted()
    }

    fn step(&mut self, bytes: &[u8]) {
        *self = reader_step(self.clone(), bytes);
    }

    fn result(&self, lent: &mut Lent) -> Pulled {
        let (block, nodes) = (lent.block.lend(), lent.nodes.lend());
        reader_result(self.clone(), block, nodes, lent.blocks.lend())
    }
}

impl Steps for reference::reader::Reader {
    fn asks(&self) -> Option<u32> {
        self.asks()
    }

    fn step(&mut self, bytes: &[u8]) {
        let ended = reference::reader::Reader::start(0, b"", 0);
        *self = mem::replace(self, ended).step(bytes);
    }

    fn result(&self, lent: &mut Lent) -> Pulled {
        let (block, nodes) = (lent.block.lend(), lent.nodes.lend());
        by_reference(self.result(block, nodes, lent.blocks.lend()))
    }
}

/// A reader that was fed as long as it asked, and the blocks that it asked for.
pub struct Read<R = Reader> {
    pub reader: R,
    pub asked: Vec<u32>,
}

impl<R: Steps> Read<R> {
    /// `feed` gives bytes for a block. A reader of so many names that asks too often isn't fed to its end.
    pub fn fed<B: AsRef<[u8]>>(start: R, names: u32, mut feed: impl FnMut(u32) -> B) -> Read<R> {
        let (mut reader, mut asked) = (start, Vec::new());
        while let Some(block) = reader.asks() {
            asked.push(block);
            if asked.len() > reader_blocks_most(names) as usize {
                break;
            }
            reader.step(feed(block).as_ref());
        }
        Read { reader, asked }
    }

    /// Fed with the blocks of the card.
    fn of(start: R, call: &Call) -> Read<R> {
        Read::fed(start, call.names(), |block| block_in(call.bytes, block))
    }

    pub fn outcome(&self, lent: Lent) -> Outcome {
        outcome_of(&self.reader, lent)
    }
}

/// What a reader's result gives.
pub fn outcome_of(reader: &impl Steps, mut lent: Lent) -> Outcome {
    let pulled = reader.result(&mut lent);
    Outcome { pulled, lent }
}

/// How many blocks a card has.
pub fn card_blocks(bytes: &[u8]) -> u32 {
    (bytes.len() / BLOCK_SIZE) as u32
}

/// A block of a card, or nothing.
pub fn block_in(bytes: &[u8], block: u32) -> &[u8] {
    let start = block as usize * BLOCK_SIZE;
    bytes.get(start..start + BLOCK_SIZE).unwrap_or_default()
}

pub fn started(call: &Call) -> Reader {
    reader_start(card_blocks(call.bytes), call.name, call.index)
}

impl Read {
    /// The whole pull.
    pub fn whole(call: &Call) -> Read {
        Read::of(started(call), call)
    }

    /// Which rules on asking are broken, fed with whatever.
    pub fn broken(&self, names: u32, card_blocks: u32) -> Vec<&'static str> {
        let most = reader_blocks_most(names) as usize;
        let first = self.asked.first();
        let rules = [
            ("too many asked for", self.asked.len() <= most),
            (
                "a block outside the card",
                self.asked.iter().all(|&block| block < card_blocks),
            ),
            ("block 0 first", first.is_none_or(|&block| block == 0)),
        ];
        let broken = rules.into_iter().filter(|&(_, kept)| !kept);
        broken.map(|(rule, _)| rule).collect()
    }

    /// The same, of a reader that was fed a card: all that it asked for has a reason.
    fn unexplained(&self, call: &Call) -> Vec<&'static str> {
        let mut broken = self.broken(call.names(), card_blocks(call.bytes));
        let volume = open(call.bytes).ok();
        let in_opening = |block: &u32| volume.is_none_or(|volume| *block < volume.sit_address);
        let end = self.asked.iter().position(|block| !in_opening(block));
        let (opening, walk) = self.asked.split_at(end.unwrap_or(self.asked.len()));
        if opening.len() > OPENING_MOST || each_once(opening).len() < opening.len() {
            broken.push("a block twice in opening, or too many");
        }
        let walked = volume.is_none_or(|volume| {
            let (reasons, least) = self.reasons(call, &volume);
            each_once(walk) == reasons && walk.len() >= least
        });
        if !walked {
            broken.push("a block without a reason, or one that isn't asked for");
        }
        broken
    }

    /// The table blocks of listed numbers that the journal doesn't have, and the listed blocks; and how many asks that is at
    /// least, since a table block may be asked for by several numbers.
    fn reasons(&self, call: &Call, volume: &Volume) -> (BTreeSet<u32>, usize) {
        let outcome = self.outcome(call.least());
        let tables: Vec<u32> = outcome
            .nodes()
            .iter()
            .filter_map(|&nid| table_block(volume, nid))
            .collect();
        let blocks = outcome.blocks();
        let least = tables.len() + blocks.len();
        (each_once(&[tables, blocks].concat()), least)
    }
}

fn each_once(blocks: &[u32]) -> BTreeSet<u32> {
    blocks.iter().copied().collect()
}

/// Where a number's entry is, unless it stands in the journal or is out of range.
fn table_block(volume: &Volume, nid: u32) -> Option<u32> {
    let numbers = ENTRIES_PER_BLOCK * 256 * volume.nat_segments;
    let mut journal = volume.journal.chunks_exact(JOURNAL_ENTRY_SIZE);
    let journalled = journal.any(|entry| entry[..4] == nid.to_le_bytes());
    let b = nid / ENTRIES_PER_BLOCK;
    let block = || table_block_address(volume.nat_address, b, map_bit(volume.nat_map, b));
    ((1..numbers).contains(&nid) && !journalled).then(|| block() as u32)
}

/// A reader of the same card gives what a pull gave, in the same memory, and asks for what the reference's does. A card
/// that has no whole blocks can't be told to one.
pub fn check_reader(trial: &mut Trial, call: &Call, lents: &[Lent; 2], pulls: [&Outcome; 2]) {
    if call.bytes.len() % BLOCK_SIZE != 0 {
        return;
    }
    let read = Read::whole(call);
    let outcomes = lents.clone().map(|lent| read.outcome(lent));
    trial.check(("by the reader", call), outcomes.each_ref(), pulls);
    let start = reference::reader::Reader::start(card_blocks(call.bytes), call.name, call.index);
    let reference = Read::of(start, call);
    let by_reference = lents.clone().map(|lent| reference.outcome(lent));
    trial.check(
        ("by both readers", call),
        (read.asked.as_slice(), outcomes),
        (&reference.asked, by_reference),
    );
    trial.check(("asked for", call), read.unexplained(call), Vec::new());
}

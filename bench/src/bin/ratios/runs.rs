//! Full runs of 512 blocks, beside a straightforward reader's, single pulls and a copy of the same blocks.

use harptimber_bench::agreed::Agreed;
use harptimber_bench::grid::{contender, Contender, Grid, Often};
use harptimber_bench::pulls::{Lent, BLOCK_SIZE};
use harptimber_bench::run_reader::{read_run, Listed, Stand, Unlisted};
use harptimber_tests::calls::compares::stored;
use harptimber_tests::calls::runs::{reference_run, PullRun};
use harptimber_tests::cards::card::Card;
use harptimber_tests::cards::directory::Dentry;
use harptimber_tests::cards::knobs::{Knobs, Pack};
use harptimber_tests::cards::random::shuffle;
use harptimber_tests::sizes::{run_blocks_most, run_nodes_most, RUN_MOST};
use harptimber_tests::trial::Random;
use harptimber_tests::{pull_run, Run};
use std::cell::RefCell;
use std::hint::black_box;

use crate::cards::PULLS;

pub const OFTEN: Often = Often {
    rounds: 64,
    warm: 2,
    calls: 8,
};
/// For 512 single pulls, and for the reference's run, which walks from the root for each block.
const SLOWER: Often = Often {
    rounds: 9,
    warm: 1,
    calls: 1,
};

/// The sides.
pub const ARCHIVE: usize = 0;
pub const READER: usize = 1;
pub const UNLISTED: usize = 2;
pub const COPY: usize = 3;
/// Those of the slower ones.
pub const SINGLE_PULLS: usize = 1;
pub const REFERENCE: usize = 2;

const NAME: &[u8] = b"road.bin";

/// How the blocks of a stretch follow each other on the card.
#[derive(Clone, Copy)]
enum Order {
    Rising,
    Falling,
    Scattered,
}

/// The columns: each a stretch of one file, of 923 addresses, with its first block.
const STRETCHES: [(&str, u32, Order); 6] = [
    ("inode to direct", 923 - 256, Order::Rising),
    ("direct", 923 + 400, Order::Rising),
    ("indirect", 2959 + 100, Order::Rising),
    ("double indirect", 2_075_607 + 100, Order::Rising),
    ("falling", 2959 + 1118, Order::Falling),
    ("scattered", 1_039_283 + 100, Order::Scattered),
];

pub fn heads() -> impl Iterator<Item = String> {
    STRETCHES.iter().map(|(head, ..)| head.to_string())
}

/// A stretch of the file, and the addresses of its blocks.
struct Stretch {
    first: u32,
    addresses: Vec<u32>,
}

struct File {
    image: Vec<u8>,
    stretches: Vec<Stretch>,
}

/// A card with one file that has nodes of every kind.
fn file() -> File {
    let mut knobs = Knobs::sound().with_segments(8);
    knobs.packs = [1, 2].map(|version| Some(Pack::compact(version)));
    let areas = knobs.areas();
    // The last of them is used first.
    let free = (areas.main..areas.main_end).rev().collect();
    let mut card = Card::within(knobs, Random::new(1), free);
    card.add_root(0, 1);
    let ino = card.add_file(0, u64::MAX);
    card.link(0, 0, &Dentry::new(NAME, ino));
    let stretches = STRETCHES.map(|(_, first, order)| {
        // The nodes come before the blocks, which follow each other then.
        card.way(ino, first);
        card.way(ino, first + RUN_MOST - 1);
        let addresses = in_order(&mut card, order);
        for (index, &address) in (first..).zip(&addresses) {
            card.set_address(ino, index, address);
        }
        Stretch { first, addresses }
    });
    File {
        image: card.image.bytes().to_vec(),
        stretches: stretches.into(),
    }
}

fn in_order(card: &mut Card, order: Order) -> Vec<u32> {
    let mut addresses: Vec<u32> = (0..RUN_MOST).map(|_| card.free_block()).collect();
    match order {
        Order::Rising => {}
        Order::Falling => addresses.reverse(),
        Order::Scattered => shuffle(&mut Random::new(1), &mut addresses),
    }
    addresses
}

/// What is lent to every side in turn. Each byte of it has been written before.
pub struct Memory {
    buffer: Vec<u8>,
    nodes: Vec<u8>,
    blocks: Vec<u8>,
}

impl Memory {
    pub fn new() -> Memory {
        Memory {
            buffer: vec![0xA5; RUN_MOST as usize * BLOCK_SIZE],
            nodes: vec![0xA5; 4 * run_nodes_most(1) as usize],
            blocks: vec![0xA5; 4 * run_blocks_most(1) as usize],
        }
    }

    fn run(&mut self, pull_run: PullRun, image: &[u8], first: u32) -> Run {
        self.run_of(pull_run, image, NAME, first)
    }

    fn run_of(&mut self, pull_run: PullRun, image: &[u8], name: &[u8], first: u32) -> Run {
        let Memory {
            buffer,
            nodes,
            blocks,
        } = self;
        pull_run(image, name, first, RUN_MOST, buffer, nodes, blocks)
    }

    fn read(&mut self, image: &[u8], first: u32) -> (Result<Stand, u32>, Listed) {
        let mut listed = Listed::new(RUN_MOST as usize);
        let stand = read_run(image, NAME, first, &mut self.buffer, &mut listed);
        (stand, listed)
    }

    fn read_unlisted(&mut self, image: &[u8], first: u32) -> Result<Stand, u32> {
        read_run(image, NAME, first, &mut self.buffer, &mut Unlisted)
    }

    fn copy(&mut self, image: &[u8], addresses: &[u32]) {
        let blocks = self.buffer.chunks_exact_mut(BLOCK_SIZE);
        for (block, &address) in blocks.zip(addresses) {
            let at = address as usize * BLOCK_SIZE;
            block.copy_from_slice(&image[at..at + BLOCK_SIZE]);
        }
    }

    /// As many pulls by the archive, whose lists nobody joins.
    fn pull_singly(&mut self, image: &[u8], first: u32, lent: &mut Lent) -> u32 {
        let blocks = self.buffer.chunks_exact_mut(BLOCK_SIZE);
        let mut stand = 0;
        for (index, block) in (first..).zip(blocks) {
            let pulled = PULLS[ARCHIVE](image, NAME, index, lent);
            block.copy_from_slice(&lent.block);
            stand += u32::from(pulled.answer <= 1);
        }
        stand
    }
}

/// Whether every side gives the blocks at these addresses, and the same lists.
fn is_same(image: &[u8], stretch: &Stretch) -> bool {
    let Stretch { first, addresses } = stretch;
    let mut bytes = Memory::new();
    bytes.copy(image, addresses);
    let [archive, reference] = [pull_run as PullRun, reference_run].map(|pull_run| {
        let mut memory = Memory::new();
        let run = memory.run(pull_run, image, *first);
        (run, memory)
    });
    let (run, lent) = &archive;
    let [mut reader, mut unlisted, mut singly] = [0; 3].map(|_| Memory::new());
    let (stand, listed) = reader.read(image, *first);
    let whole = Ok(Stand {
        answer: 0,
        count: RUN_MOST,
        byte_count: BLOCK_SIZE as u32,
    });
    let numbers = stand.map(|it| (it.answer, it.count, it.byte_count));
    let lists = [&listed.nodes, &listed.blocks].map(|list| stored(list));
    let stood = singly.pull_singly(image, *first, &mut Lent::default());
    *run == reference.0
        && numbers == Ok((run.answer, run.count, run.byte_count))
        && [stand, unlisted.read_unlisted(image, *first)] == [whole; 2]
        && stood == RUN_MOST
        && lists[0] == lent.nodes[..4 * run.node_count as usize]
        && lists[1] == lent.blocks[..4 * run.block_count as usize]
        && (&reference.1.nodes, &reference.1.blocks) == (&lent.nodes, &lent.blocks)
        && [lent, &reference.1, &reader, &unlisted, &singly]
            .iter()
            .all(|memory| memory.buffer == bytes.buffer)
}

/// One buffer for all sides, so that none has a better one. The reader makes its own lists, as such a reader does.
type Shared<'a> = &'a RefCell<Memory>;

fn archive<'a>(image: &'a [u8], first: u32, memory: Shared<'a>) -> Contender<'a> {
    contender(move || memory.borrow_mut().run(pull_run, black_box(image), first))
}

/// The archive, the reader with lists and without, and the copy.
fn beside_reader<'a>(image: &'a [u8], it: &'a Stretch, memory: Shared<'a>) -> Vec<Contender<'a>> {
    let first = it.first;
    let reader = move || memory.borrow_mut().read(black_box(image), first);
    let unlisted = move || memory.borrow_mut().read_unlisted(black_box(image), first);
    let copy = move || {
        let mut memory = memory.borrow_mut();
        memory.copy(black_box(image), &it.addresses);
        black_box(&memory.buffer);
    };
    let others = [contender(reader), contender(unlisted), contender(copy)];
    [archive(image, first, memory)]
        .into_iter()
        .chain(others)
        .collect()
}

/// The archive, its single pulls, and the reference.
fn beside_pulls<'a>(image: &'a [u8], it: &'a Stretch, memory: Shared<'a>) -> Vec<Contender<'a>> {
    let (first, mut lent) = (it.first, Lent::default());
    let singly = move || {
        memory
            .borrow_mut()
            .pull_singly(black_box(image), first, &mut lent)
    };
    let reference = move || {
        memory
            .borrow_mut()
            .run(reference_run, black_box(image), first)
    };
    vec![
        archive(image, first, memory),
        contender(singly),
        contender(reference),
    ]
}

/// Grids of full runs: beside the reader and a copy, and then beside single pulls and the reference.
pub fn full(agreed: &mut Agreed) -> [Grid; 2] {
    let File { image, stretches } = &file();
    let memory = &RefCell::new(Memory::new());
    for (stretch, head) in stretches.iter().zip(heads()) {
        agreed.see(is_same(image, stretch), &format!("a run, {head}"));
    }
    let by_reader = stretches.iter().map(|it| beside_reader(image, it, memory));
    let by_pulls = stretches.iter().map(|it| beside_pulls(image, it, memory));
    [
        Grid::of(OFTEN, by_reader.collect()),
        Grid::of(SLOWER, by_pulls.collect()),
    ]
}

/// Reads a file run by run, by the archive, and gives away the bytes of each. Returns the answer that ended it: 3 at the
/// end of a file.
pub fn whole(memory: &mut Memory, image: &[u8], name: &[u8], mut take: impl FnMut(&[u8])) -> u32 {
    let mut first = 0;
    loop {
        let run = memory.run_of(pull_run, image, name, first);
        if let Some(before) = run.count.checked_sub(1) {
            let len = before as usize * BLOCK_SIZE + run.byte_count as usize;
            take(&memory.buffer[..len]);
        }
        if run.answer != 0 {
            return run.answer;
        }
        first += run.count;
    }
}

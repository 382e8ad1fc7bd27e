//! Runs of blocks from the library, compared with the reference's, with the library's own single pulls and with what the
//! paper says: the result numbers, and every byte of what is lent.

use std::collections::BTreeSet;
use std::fmt::{Debug, Formatter, Result};

use crate::calls::answers::Answers;
use crate::calls::compares::stored;
use crate::calls::lent::{Lens, Lent, Pattern};
use crate::calls::pulls::Call;
use crate::cards::image::Image;
use crate::cards::layout::BLOCK_SIZE;
use crate::sizes::{run_blocks_most, run_nodes_most, RUN_MOST};
use crate::trial::Trial;
use crate::Run;

/// What is asked of a run: the pull of its first block, and how many blocks.
pub struct RunCall<'a> {
    pub first: Call<'a>,
    pub blocks: u32,
}

impl<'a> RunCall<'a> {
    pub fn new(image: &'a Image, path: &'a [u8], index: u32, blocks: u32) -> RunCall<'a> {
        let first = Call::new(image, path, index);
        RunCall { first, blocks }
    }

    /// The same run from another card.
    pub fn on<'b>(&self, image: &'b Image) -> RunCall<'b>
    where
        'a: 'b,
    {
        RunCall::new(image, self.first.name, self.first.index, self.blocks)
    }

    /// As little as is in shape.
    pub fn least(&self) -> Lens {
        Lens::of_run(self.first.names(), self.blocks)
    }

    /// By the paper, but for the image and the path.
    fn in_shape(&self, lens: Lens) -> bool {
        let least = self.least();
        (1..=RUN_MOST).contains(&self.blocks)
            && lens.block == least.block
            && lens.nodes >= least.nodes
            && lens.blocks >= least.blocks
    }

    /// Makes the call, by the library or by the reference.
    pub fn by(&self, pull_run: PullRun, lent: &mut Lent) -> Run {
        let Call {
            bytes, name, index, ..
        } = self.first;
        let buffer = lent.block.lend();
        let (nodes, blocks) = (lent.nodes.lend(), lent.blocks.lend());
        pull_run(bytes, name, index, self.blocks, buffer, nodes, blocks)
    }
}

impl Debug for RunCall<'_> {
    fn fmt(&self, f: &mut Formatter) -> Result {
        write!(f, "{} blocks from {:?}", self.blocks, self.first)
    }
}

/// The library's run, or the reference's.
pub type PullRun = fn(&[u8], &[u8], u32, u32, &mut [u8], &mut [u8], &mut [u8]) -> Run;

pub fn reference_run(
    image: &[u8],
    path: &[u8],
    index: u32,
    blocks_wanted: u32,
    buffer: &mut [u8],
    nodes: &mut [u8],
    blocks: &mut [u8],
) -> Run {
    let run = reference::run::pull_run(image, path, index, blocks_wanted, buffer, nodes, blocks);
    Run {
        answer: run.answer,
        count: run.count,
        byte_count: run.byte_count,
        node_count: run.node_count,
        block_count: run.block_count,
    }
}

/// What a run gives, in whatever memory.
#[derive(Clone, Default, PartialEq, Eq)]
pub struct Given {
    pub answer: u32,
    /// Of the last block that stands.
    pub byte_count: u32,
    /// The blocks that stand.
    pub bytes: Vec<u8>,
    pub nodes: BTreeSet<u32>,
    pub blocks: BTreeSet<u32>,
}

impl Given {
    pub fn refused(answer: u32) -> Given {
        Given {
            answer,
            ..Given::default()
        }
    }

    pub fn count(&self) -> u32 {
        (self.bytes.len() / BLOCK_SIZE) as u32
    }

    fn numbers(&self) -> Run {
        Run {
            answer: self.answer,
            count: self.count(),
            byte_count: self.byte_count,
            node_count: self.nodes.len() as u32,
            block_count: self.blocks.len() as u32,
        }
    }

    /// By the paper: "the lists are the union, the last pull's included; the run stops at the first answer that isn't 0
    /// or 1, answers it (else 0)". The pulls are the library's.
    fn by_pulls(call: &RunCall) -> Given {
        let mut given = Given::default();
        let mut lent = call.first.least();
        for nth in 0..call.blocks {
            let past = "an index past the last ends a run";
            let index = call.first.index.checked_add(nth).expect(past);
            let pulled = Call {
                index,
                ..call.first
            }
            .by(crate::pull, &mut lent);
            given.nodes.extend(lent.nodes.numbers(pulled.node_count));
            given.blocks.extend(lent.blocks.numbers(pulled.block_count));
            if pulled.answer > 1 {
                given.answer = pulled.answer;
                break;
            }
            given.byte_count = pulled.byte_count;
            given.bytes.extend(lent.block.bytes());
        }
        given
    }

    /// The memory that a run leaves which gives this, and writes nothing else.
    fn in_memory(&self, mut lent: Lent) -> Outcome {
        let rising = |list: &BTreeSet<u32>| stored(&list.iter().copied().collect::<Vec<_>>());
        let (nodes, blocks) = (rising(&self.nodes), rising(&self.blocks));
        lent.block.lend()[..self.bytes.len()].copy_from_slice(&self.bytes);
        lent.nodes.lend()[..nodes.len()].copy_from_slice(&nodes);
        lent.blocks.lend()[..blocks.len()].copy_from_slice(&blocks);
        let run = self.numbers();
        Outcome { run, lent }
    }
}

impl Debug for Given {
    fn fmt(&self, f: &mut Formatter) -> Result {
        let sum = reference::checksum::checksum(&self.bytes);
        let lists = (&self.nodes, &self.blocks);
        write!(f, "{:?} {lists:?} sum {sum:08X}", self.numbers())
    }
}

/// What a run returned, and the lent memory after it.
#[derive(Debug, PartialEq, Eq)]
pub struct Outcome {
    pub run: Run,
    pub lent: Lent,
}

impl Outcome {
    pub fn of(pull_run: PullRun, call: &RunCall, mut lent: Lent) -> Outcome {
        let run = call.by(pull_run, &mut lent);
        Outcome { run, lent }
    }

    /// By the library, in just enough memory.
    pub fn least(call: &RunCall) -> Outcome {
        Outcome::of(
            crate::pull_run,
            call,
            Lent::new(call.least(), Pattern::Plain, 0),
        )
    }

    pub fn nodes(&self) -> Vec<u32> {
        self.lent.nodes.numbers(self.run.node_count)
    }

    pub fn blocks(&self) -> Vec<u32> {
        self.lent.blocks.numbers(self.run.block_count)
    }

    pub fn given(&self) -> Given {
        let len = BLOCK_SIZE * self.run.count as usize;
        let buffer = self.lent.block.bytes();
        Given {
            answer: self.run.answer,
            byte_count: self.run.byte_count,
            bytes: buffer[..len.min(buffer.len())].to_vec(),
            nodes: self.nodes().into_iter().collect(),
            blocks: self.blocks().into_iter().collect(),
        }
    }

    /// Which promises of the paper are broken, whatever the image is.
    fn broken(&self, call: &RunCall) -> Vec<&'static str> {
        let Run { answer, count, .. } = self.run;
        let names = call.first.names();
        let (nodes, blocks) = (self.nodes(), self.blocks());
        let rising = |list: &[u32]| list.is_sorted_by(|a, b| a < b);
        let bytes = if count > 0 { 1..=4096 } else { 0..=0 };
        let promises = [
            ("answer", answer == 0 || (2..=14).contains(&answer)),
            (
                "count",
                (answer == 0) == (count == call.blocks && count > 0),
            ),
            ("byte count", bytes.contains(&self.run.byte_count)),
            ("node count", nodes.len() <= run_nodes_most(names) as usize),
            (
                "block count",
                blocks.len() <= run_blocks_most(names) as usize,
            ),
            ("rising lists", rising(&nodes) && rising(&blocks)),
        ];
        let broken = promises.into_iter().filter(|&(_, kept)| !kept);
        broken.map(|(promise, _)| promise).collect()
    }
}

pub struct Runs {
    pub trial: Trial,
    /// Each with whether a block stands before it.
    answers: Answers<(u32, bool)>,
}

impl Runs {
    pub fn new(name: &'static str) -> Runs {
        Runs {
            trial: Trial::new(name),
            answers: Answers::default(),
        }
    }

    /// Compares a run with the reference's, and with single pulls.
    pub fn compare(&mut self, call: &RunCall) {
        let lents = self.in_shape(call);
        self.check(call, lents);
    }

    /// Compares also with the answer, and with how many blocks stand, by the paper.
    pub fn expect(&mut self, call: &RunCall, answer: u32, count: u32) {
        let lents = self.in_shape(call);
        self.expect_in(call, lents, answer, count);
    }

    /// The same with lent memory of these lengths. Of these alone, or of the number of blocks, a run may be out of shape.
    pub fn expect_with(&mut self, lens: Lens, call: &RunCall, answer: u32, count: u32) {
        let lents = [Pattern::Plain, Pattern::Inverted].map(|pattern| Lent::new(lens, pattern, 0));
        self.expect_in(call, lents, answer, count);
    }

    fn expect_in(&mut self, call: &RunCall, lents: [Lent; 2], answer: u32, count: u32) {
        let given = self.check(call, lents);
        let said = (given.answer, given.count());
        self.trial
            .check(("by the paper", call), said, (answer, count));
    }

    /// Compares also with all that the paper says of it.
    pub fn expect_given(&mut self, call: &RunCall, paper: &Given) {
        let lents = self.in_shape(call);
        let given = self.check(call, lents);
        self.trial.check(("by the paper", call), &given, paper);
    }

    /// Runs into each of the lent memories. Returns what the library gives.
    fn check(&mut self, call: &RunCall, lents: [Lent; 2]) -> Given {
        let lens = lens_of(&lents[0]);
        let told = match call.in_shape(lens) {
            true => Given::by_pulls(call),
            false => Given::refused(4),
        };
        let library = lents.clone().map(|lent| {
            let outcome = Outcome::of(crate::pull_run, call, lent);
            (outcome.broken(call), outcome)
        });
        let given = library[0].1.given();
        let reference = Outcome::of(reference_run, call, lents[0].clone()).given();
        self.answers.note((given.answer, given.count() > 0));
        self.trial.check(("single pulls", call), &given, &told);
        let reference = lents.map(|lent| (Vec::new(), reference.in_memory(lent)));
        self.trial.compare(call, library, reference);
        given
    }

    /// The least memory, and longer lists.
    fn in_shape(&mut self, call: &RunCall) -> [Lent; 2] {
        let least = call.least();
        let longer = Lent::longer_than(least, &mut self.trial.random);
        [Lent::new(least, Pattern::Plain, 0), longer]
    }

    /// Ends the trial, in which each of these answers has to have come up, with a block that stands or without.
    pub fn finish(self, at_least: u64, answers: &[(u32, bool)]) {
        self.trial.finish(at_least);
        self.answers.finish(answers);
    }
}

fn lens_of(lent: &Lent) -> Lens {
    let [block, nodes, blocks] =
        [&lent.block, &lent.nodes, &lent.blocks].map(|slice| slice.bytes().len());
    Lens {
        block,
        nodes,
        blocks,
    }
}

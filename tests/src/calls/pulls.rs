//! Pulls from the library, compared with the reference's and with what the paper says: the result
//! numbers, and every byte of what is lent. A reader that is fed the same card one block at a time has to give the same.

use std::collections::BTreeSet;
use std::fmt::{Debug, Formatter, Result};

use crate::calls::answers::Answers;
use crate::calls::lent::{Lens, Lent, Pattern, Slice, NUMBER_SIZE};
use crate::calls::readers::check_reader;
use crate::cards::card::ROOT;
use crate::cards::image::Image;
use crate::cards::layout::BLOCK_SIZE;
use crate::sizes::{blocks_most, nodes_most, NAMES_MOST};
use crate::trial::Trial;
use crate::Pulled;

/// What is asked of a pull. Any bytes may stand for the image; `image` says what they are. The name may be a path.
pub struct Call<'a> {
    pub image: &'a Image,
    pub bytes: &'a [u8],
    pub name: &'a [u8],
    pub index: u32,
}

impl<'a> Call<'a> {
    pub fn new(image: &'a Image, name: &'a [u8], index: u32) -> Call<'a> {
        Call {
            image,
            bytes: image.bytes(),
            name,
            index,
        }
    }

    /// How many names the path has, or the most that one has.
    pub fn names(&self) -> u32 {
        let slashes = self.name.iter().filter(|&&byte| byte == b'/');
        (1 + slashes.count() as u32).min(NAMES_MOST)
    }

    /// As little memory as is in shape.
    pub fn least(&self) -> Lent {
        Lent::of(self.names())
    }

    /// Makes the call, by the library or by the reference.
    pub fn by(&self, pull: Pull, lent: &mut Lent) -> Pulled {
        let block = lent.block.lend();
        let nodes = lent.nodes.lend();
        let blocks = lent.blocks.lend();
        pull(self.bytes, self.name, self.index, block, nodes, blocks)
    }
}

impl Debug for Call<'_> {
    fn fmt(&self, f: &mut Formatter) -> Result {
        let (name, index) = (self.name.escape_ascii(), self.index);
        write!(f, "'{name}' at {index} of {:?}", self.image)?;
        if self.bytes.len() != self.image.bytes().len() {
            write!(f, ", cut to {} bytes", self.bytes.len())?;
        }
        Ok(())
    }
}

/// What a pull returned, and the lent memory after it.
#[derive(PartialEq, Eq)]
pub struct Outcome {
    pub pulled: Pulled,
    pub lent: Lent,
}

/// The library's pull, or the reference's.
pub type Pull = fn(&[u8], &[u8], u32, &mut [u8], &mut [u8], &mut [u8]) -> Pulled;

impl Outcome {
    pub fn of(pull: Pull, call: &Call, mut lent: Lent) -> Outcome {
        let pulled = call.by(pull, &mut lent);
        Outcome { pulled, lent }
    }

    /// What the paper then says of the same pull into other memory: the same numbers, lists and
    /// block, and nothing else written.
    fn in_memory(&self, mut lent: Lent) -> Outcome {
        let (of_nodes, of_blocks) = self.list_lens();
        copy(&self.lent.nodes, &mut lent.nodes, of_nodes);
        copy(&self.lent.blocks, &mut lent.blocks, of_blocks);
        copy(&self.lent.block, &mut lent.block, self.block_len());
        Outcome {
            pulled: self.pulled,
            lent,
        }
    }

    /// How many bytes of each list are written.
    fn list_lens(&self) -> (usize, usize) {
        let len = |count| NUMBER_SIZE * count as usize;
        (len(self.pulled.node_count), len(self.pulled.block_count))
    }

    /// How many bytes of the block buffer are written.
    fn block_len(&self) -> usize {
        if self.found() {
            BLOCK_SIZE
        } else {
            0
        }
    }

    pub fn nodes(&self) -> Vec<u32> {
        self.lent.nodes.numbers(self.pulled.node_count)
    }

    pub fn blocks(&self) -> Vec<u32> {
        self.lent.blocks.numbers(self.pulled.block_count)
    }

    /// What a second pull has to give too, into whatever memory.
    pub fn result(&self) -> (Pulled, Vec<u32>, Vec<u32>, Option<Bytes>) {
        let block = Bytes(self.lent.block.bytes().to_vec());
        let found = self.found().then_some(block);
        (self.pulled, self.nodes(), self.blocks(), found)
    }

    /// Which promises of the paper's table of answers are broken, whatever the image is, for a path of so many names.
    pub fn broken(&self, names: u32) -> Vec<&'static str> {
        let promises = [self.kept_by_numbers(names), self.kept_by_memory()].concat();
        let broken = promises.into_iter().filter(|&(_, kept)| !kept);
        broken.map(|(promise, _)| promise).collect()
    }

    fn kept_by_numbers(&self, names: u32) -> Vec<(&'static str, bool)> {
        let opened = self.opened();
        let (nodes, blocks) = (self.nodes(), self.blocks());
        let rising = |list: &[u32]| list.is_sorted_by(|a, b| a < b);
        let bytes = if self.found() { 1..=4096 } else { 0..=0 };
        vec![
            ("answer", self.pulled.answer <= 14),
            ("byte count", bytes.contains(&self.pulled.byte_count)),
            ("node count", nodes.len() <= nodes_most(names) as usize),
            ("block count", blocks.len() <= blocks_most(names) as usize),
            ("lists of the unopened", opened || blocks.is_empty()),
            ("root in the lists", opened == nodes.contains(&ROOT)),
            ("rising lists", rising(&nodes) && rising(&blocks)),
        ]
    }

    fn kept_by_memory(&self) -> Vec<(&'static str, bool)> {
        let Lent {
            block,
            nodes,
            blocks,
        } = &self.lent;
        let (of_nodes, of_blocks) = self.list_lens();
        vec![
            ("block buffer", block.untouched_from(self.block_len())),
            ("end of the node list", nodes.untouched_from(of_nodes)),
            ("end of the block list", blocks.untouched_from(of_blocks)),
        ]
    }

    fn found(&self) -> bool {
        self.pulled.answer <= 1
    }

    /// Whether it came past opening, so that there are lists.
    pub fn opened(&self) -> bool {
        !(4..=8).contains(&self.pulled.answer)
    }
}

impl Debug for Outcome {
    fn fmt(&self, f: &mut Formatter) -> Result {
        let (nodes, blocks) = (self.nodes(), self.blocks());
        write!(f, "{:?} {nodes:?} {blocks:?} {:?}", self.pulled, self.lent)
    }
}

fn copy(from: &Slice, to: &mut Slice, len: usize) {
    to.lend()[..len].copy_from_slice(&from.bytes()[..len]);
}

pub fn reference_pull(
    image: &[u8],
    name: &[u8],
    index: u32,
    block: &mut [u8],
    nodes: &mut [u8],
    blocks: &mut [u8],
) -> Pulled {
    by_reference(reference::pull::pull(
        image, name, index, block, nodes, blocks,
    ))
}

/// The same numbers.
pub fn by_reference(pulled: reference::pull::Pulled) -> Pulled {
    Pulled {
        answer: pulled.answer,
        byte_count: pulled.byte_count,
        node_count: pulled.node_count,
        block_count: pulled.block_count,
    }
}

/// An outcome, what of it the paper says, and which of the paper's promises it breaks.
#[derive(Debug, PartialEq, Eq)]
struct Judged<T> {
    by_the_paper: T,
    broken: Vec<&'static str>,
    outcome: Outcome,
}

/// The bytes of a block, of which a mismatch shows the first and a checksum.
#[derive(Clone, PartialEq, Eq)]
pub struct Bytes(Vec<u8>);

impl Debug for Bytes {
    fn fmt(&self, f: &mut Formatter) -> Result {
        let sum = reference::checksum::checksum(&self.0);
        write!(f, "{:02X?}.. sum {sum:08X}", &self.0[..16])
    }
}

/// The lists of a pull, by the reference.
pub fn lists(call: &Call) -> (Vec<u32>, Vec<u32>) {
    let outcome = Outcome::of(reference_pull, call, call.least());
    (outcome.nodes(), outcome.blocks())
}

pub struct Pulls {
    pub trial: Trial,
    answers: Answers,
    /// The shortest lists for one name, filled once to be copied.
    shortest: Lent,
}

impl Pulls {
    pub fn new(name: &'static str) -> Pulls {
        Pulls {
            trial: Trial::new(name),
            answers: Answers::default(),
            shortest: Lent::least(),
        }
    }

    /// Compares a pull with the reference's.
    pub fn compare(&mut self, image: &Image, name: &[u8], index: u32) {
        let call = Call::new(image, name, index);
        let lents = self.in_shape(&call);
        self.check(&call, lents, |_| (), ());
    }

    /// Compares also with the answer that the paper gives.
    pub fn expect(&mut self, image: &Image, name: &[u8], index: u32, answer: u32) {
        self.expect_call(&Call::new(image, name, index), answer);
    }

    pub fn expect_call(&mut self, call: &Call, answer: u32) {
        let lents = self.in_shape(call);
        self.check(call, lents, |outcome| outcome.pulled.answer, answer);
    }

    /// The same with lent memory of these lengths.
    pub fn expect_with(&mut self, lens: Lens, call: &Call, answer: u32) {
        let lents = [Pattern::Plain, Pattern::Inverted].map(|pattern| Lent::new(lens, pattern, 0));
        self.check(call, lents, |outcome| outcome.pulled.answer, answer);
    }

    /// Expects data: as many bytes as these, and zeros after them.
    pub fn expect_data(&mut self, image: &Image, name: &[u8], index: u32, bytes: &[u8]) {
        self.expect_bytes(&Call::new(image, name, index), 0, bytes);
    }

    /// Expects a hole with this count.
    pub fn expect_hole(&mut self, image: &Image, name: &[u8], index: u32, count: usize) {
        self.expect_bytes(&Call::new(image, name, index), 1, &vec![0; count]);
    }

    fn expect_bytes(&mut self, call: &Call, answer: u32, bytes: &[u8]) {
        let mut block = bytes.to_vec();
        block.resize(BLOCK_SIZE, 0);
        let paper = (answer, bytes.len() as u32, Bytes(block));
        let says = |Outcome { pulled, lent }: &Outcome| {
            let block = Bytes(lent.block.bytes().to_vec());
            (pulled.answer, pulled.byte_count, block)
        };
        let lents = self.in_shape(call);
        self.check(call, lents, says, paper);
    }

    /// Expects the answer with these lists, which are given in any order and may repeat a number.
    pub fn expect_lists(&mut self, call: &Call, answer: u32, nodes: &[u32], blocks: &[u32]) {
        let rising = |list: &[u32]| -> Vec<u32> {
            let numbers: BTreeSet<u32> = list.iter().copied().collect();
            numbers.into_iter().collect()
        };
        let paper = (answer, rising(nodes), rising(blocks));
        let says = |outcome: &Outcome| (outcome.pulled.answer, outcome.nodes(), outcome.blocks());
        let lents = self.in_shape(call);
        self.check(call, lents, says, paper);
    }

    /// Pulls into each of the lent memories, and compares with the reference and with what the
    /// paper says.
    fn check<T: PartialEq + Debug + Clone>(
        &mut self,
        call: &Call,
        lents: [Lent; 2],
        says: impl Fn(&Outcome) -> T,
        paper: T,
    ) {
        let library = lents.clone().map(|lent| {
            let outcome = Outcome::of(crate::pull, call, lent);
            Judged {
                by_the_paper: says(&outcome),
                broken: outcome.broken(call.names()),
                outcome,
            }
        });
        let pulls = library.each_ref().map(|judged| &judged.outcome);
        check_reader(&mut self.trial, call, &lents, pulls);
        let [first, _] = &lents;
        let reference = Outcome::of(reference_pull, call, first.clone());
        let reference = lents.map(|lent| Judged {
            by_the_paper: paper.clone(),
            broken: Vec::new(),
            outcome: reference.in_memory(lent),
        });
        self.answers.note(library[0].outcome.pulled.answer);
        self.trial.compare(call, library, reference);
    }

    /// The least memory, and longer lists.
    fn in_shape(&mut self, call: &Call) -> [Lent; 2] {
        let longer = Lent::longer(&mut self.trial.random, call.names());
        let shortest = match call.names() {
            1 => self.shortest.clone(),
            _ => call.least(),
        };
        [shortest, longer]
    }

    /// Ends the trial, in which each of these answers has to have come up.
    pub fn finish(self, at_least: u64, answers: &[u32]) {
        self.trial.finish(at_least);
        self.answers.finish(answers);
    }
}

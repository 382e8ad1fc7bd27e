//! Compares in the library, compared with the reference's and with what the paper says. Whenever one
//! says "same", the pull from the new card has to give what the pull from the kept one gave. The keep file of the
//! pull has to say the same of the new card, without the kept one.

use std::fmt::{Debug, Formatter, Result};

use crate::calls::answers::Answers;
use crate::calls::keeps::{length_of, written, KeepFile};
use crate::calls::lent::{Lent, NUMBER_SIZE};
use crate::calls::pulls::{Call, Outcome};
use crate::cards::image::Image;
use crate::trial::Trial;
use crate::Compared;

pub const SAME: Compared = refused(15, 0);
pub const OUT_OF_SHAPE: Compared = refused(4, 0);

/// A mismatch shows so many numbers of a list.
const SHOWN: usize = 12;

pub const fn refused(answer: u32, side: u32) -> Compared {
    Compared {
        answer,
        side,
        kind: 0,
        number: 0,
    }
}

pub fn changed(kind: u32, number: u32) -> Compared {
    Compared {
        kind,
        number,
        ..refused(16, 0)
    }
}

/// The bytes of a list.
pub fn stored(numbers: &[u32]) -> Vec<u8> {
    let stored = numbers.iter().map(|number| number.to_le_bytes());
    stored.flatten().collect()
}

/// Lists that don't rise any more: one number has its neighbour's value, or the two have changed places.
pub fn disordered(rising: &[u32]) -> Vec<Vec<u32>> {
    let mut lists = Vec::new();
    for at in 1..rising.len() {
        let mut equal = rising.to_vec();
        equal[at] = equal[at - 1];
        let mut swapped = rising.to_vec();
        swapped.swap(at - 1, at);
        lists.extend([equal, swapped]);
    }
    lists
}

/// Two lists with their counts, as they are lent to a compare.
#[derive(Clone, Copy)]
pub struct Lists<'a> {
    pub nodes: &'a [u8],
    pub node_count: u32,
    pub blocks: &'a [u8],
    pub block_count: u32,
}

impl<'a> Lists<'a> {
    /// With counts of as many numbers as the slices have.
    pub fn whole(nodes: &'a [u8], blocks: &'a [u8]) -> Lists<'a> {
        let count = |list: &[u8]| (list.len() / NUMBER_SIZE) as u32;
        Lists {
            nodes,
            node_count: count(nodes),
            blocks,
            block_count: count(blocks),
        }
    }
}

impl Debug for Lists<'_> {
    fn fmt(&self, f: &mut Formatter) -> Result {
        let lists = [
            (self.node_count, self.nodes),
            (self.block_count, self.blocks),
        ];
        for (count, list) in lists {
            let numbers = list.chunks_exact(NUMBER_SIZE).take(SHOWN);
            let shown: Vec<_> = numbers
                .map(|le| u32::from_le_bytes(le.try_into().unwrap()))
                .collect();
            write!(f, "{count} in {} bytes {shown:?}.. ", list.len())?;
        }
        Ok(())
    }
}

/// A pull from a card that is kept.
pub struct Kept<'a> {
    pub call: Call<'a>,
    pub outcome: Outcome,
    pub file: KeepFile,
}

impl<'a> Kept<'a> {
    pub fn new(image: &'a Image, name: &'a [u8], index: u32) -> Kept<'a> {
        let call = Call::new(image, name, index);
        let outcome = Outcome::of(crate::pull, &call, call.least());
        let file = written(&call, length_of(&call, &outcome.pulled));
        Kept {
            call,
            outcome,
            file,
        }
    }

    /// The same pull from another card.
    fn call_on<'b>(&self, fresh: &'b Image) -> Call<'b>
    where
        'a: 'b,
    {
        Call::new(fresh, self.call.name, self.call.index)
    }

    /// As the pull left them, with what the memory held behind them.
    pub fn lists(&self) -> Lists<'_> {
        Lists {
            nodes: self.outcome.lent.nodes.bytes(),
            node_count: self.outcome.pulled.node_count,
            blocks: self.outcome.lent.blocks.bytes(),
            block_count: self.outcome.pulled.block_count,
        }
    }
}

pub struct Compares {
    pub trial: Trial,
    /// Answer, side and kind.
    answers: Answers<(u32, u32, u32)>,
}

impl Compares {
    pub fn new(name: &'static str) -> Compares {
        Compares {
            trial: Trial::new(name),
            answers: Answers::default(),
        }
    }

    /// Compares on what a pull stood on, with the reference.
    pub fn compare(&mut self, kept: &Kept, fresh: &Image) {
        let (library, reference) = self.both([kept.call.bytes, fresh.bytes()], kept.lists());
        let input = ("new", fresh, "kept", &kept.call);
        self.trial.compare(input, library, reference);
        self.check_others(kept, fresh, library);
    }

    /// The same, also with what the paper says.
    pub fn expect(&mut self, kept: &Kept, fresh: &Image, paper: Compared) {
        let input = ("new", fresh, "kept", &kept.call);
        let cards = [kept.call.bytes, fresh.bytes()];
        let library = self.expect_in(input, cards, kept.lists(), paper);
        self.check_others(kept, fresh, library);
    }

    /// Compares any bytes on any lists; `input` says what the bytes are.
    pub fn expect_in(
        &mut self,
        input: impl Debug,
        cards: [&[u8]; 2],
        lists: Lists,
        paper: Compared,
    ) -> Compared {
        let (library, reference) = self.both(cards, lists);
        self.trial.compare(
            (lists, input),
            (library, "by the paper", library),
            (reference, "by the paper", paper),
        );
        library
    }

    /// What the library says, and what the reference does.
    fn both(&mut self, [kept, fresh]: [&[u8]; 2], lists: Lists) -> (Compared, Compared) {
        let Lists {
            nodes,
            node_count,
            blocks,
            block_count,
        } = lists;
        let library = crate::compare(kept, fresh, nodes, node_count, blocks, block_count);
        self.answers
            .note((library.answer, library.side, library.kind));
        let reference =
            reference::compare::compare(kept, fresh, nodes, node_count, blocks, block_count);
        (library, by_reference(reference))
    }

    /// Other calls, by what a compare said.
    fn check_others(&mut self, kept: &Kept, fresh: &Image, compared: Compared) {
        self.compare_file(kept, fresh, compared);
        if compared == SAME {
            self.pull_again(kept, fresh);
        }
    }

    /// The keep file says what the compare did, and the new card's is the same file exactly if nothing has changed.
    fn compare_file(&mut self, kept: &Kept, fresh: &Image, compared: Compared) {
        self.expect_by_file(kept, fresh, fresh.bytes(), compared);
        if let Ok(file) = &kept.file {
            let again = written(&kept.call_on(fresh), file.len());
            let input = ("keep file of the new card", fresh, "kept", &kept.call);
            let is_same = again.as_ref() == Ok(file);
            self.trial.check(input, is_same, compared == SAME);
        }
    }

    /// Compares the keep file with any bytes of a new card. There is none of a pull that was refused.
    pub fn expect_by_file(&mut self, kept: &Kept, fresh: &Image, bytes: &[u8], paper: Compared) {
        let file = kept.file.as_ref();
        let library = file.map(|file| crate::keep_compare(file, bytes));
        let paper = match &kept.outcome {
            outcome if outcome.opened() => Ok(paper),
            refused => Err(&refused.pulled.answer),
        };
        let input = ("by keep file, new", fresh, "kept", &kept.call);
        self.trial.check(input, library, paper);
    }

    /// Pulls from the new card, into other memory.
    fn pull_again(&mut self, kept: &Kept, fresh: &Image) {
        let call = kept.call_on(fresh);
        let lent = Lent::longer(&mut self.trial.random, call.names());
        let again = Outcome::of(crate::pull, &call, lent);
        let input = ("pull again, beside the kept card's", &call);
        self.trial
            .compare(input, again.result(), kept.outcome.result());
    }

    /// Ends the trial, in which each of these has to have come up: answer, side and kind.
    pub fn finish(self, at_least: u64, answers: &[(u32, u32, u32)]) {
        self.trial.finish(at_least);
        self.answers.finish(answers);
    }
}

pub fn by_reference(compared: reference::compare::Compared) -> Compared {
    Compared {
        answer: compared.answer,
        side: compared.side,
        kind: compared.kind,
        number: compared.number,
    }
}

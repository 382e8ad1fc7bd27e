//! Node lookups in the library, compared with the reference and with what the paper says.

use std::fmt::Debug;

use crate::calls::answers::Answers;
use crate::cards::card::{Card, Node};
use crate::cards::image::Image;
use crate::cards::layout::journal::JournalEntry;
use crate::cards::layout::nat::NatEntry;
use crate::trial::Trial;
use crate::{node_lookup, Entry};

pub struct Lookups {
    pub trial: Trial,
    answers: Answers,
}

impl Lookups {
    pub fn new(name: &'static str) -> Lookups {
        Lookups {
            trial: Trial::new(name),
            answers: Answers::default(),
        }
    }

    /// Compares a lookup with the reference's.
    pub fn compare(&mut self, image: &Image, number: u32) {
        let (library, reference) = self.look_up(image.bytes(), number);
        self.trial
            .compare(("number", number, image), library, reference);
    }

    /// Compares also with the answer that the paper gives.
    pub fn expect(&mut self, image: &Image, number: u32, answer: u32) {
        self.expect_in(image, image.bytes(), number, answer);
    }

    /// The same in any bytes; `input` says what they are.
    pub fn expect_in(&mut self, input: impl Debug, bytes: &[u8], number: u32, answer: u32) {
        let (library, reference) = self.look_up(bytes, number);
        self.trial.compare(
            ("number", number, input),
            (library, "by the paper", library.answer),
            (reference, "by the paper", answer),
        );
    }

    /// Compares also with the entry that was written for the number.
    pub fn expect_entry(&mut self, image: &Image, number: u32, entry: NatEntry) {
        let (library, reference) = self.look_up(image.bytes(), number);
        self.trial.compare(
            ("number", number, image),
            (library, "as written", library),
            (reference, "as written", found(entry)),
        );
    }

    /// The same of each node of a card.
    pub fn expect_nodes(&mut self, card: &Card) {
        for (ino, Node { nid, block }) in card.nodes() {
            let entry = NatEntry {
                version: 0,
                ino,
                block_addr: block,
            };
            self.expect_entry(&card.image, nid, entry);
        }
    }

    /// What the library finds, and what the reference does.
    fn look_up(&mut self, bytes: &[u8], number: u32) -> (Entry, Entry) {
        let library = node_lookup(bytes, number);
        self.answers.note(library.answer);
        let reference = reference::lookup::node_lookup(bytes, number);
        (library, by_reference(reference))
    }

    /// Ends the trial, in which each of these answers has to have come up.
    pub fn finish(self, at_least: u64, answers: &[u32]) {
        self.trial.finish(at_least);
        self.answers.finish(answers);
    }
}

/// An entry whose numbers are those of no other `n`.
pub fn distinct_entry(n: u32) -> NatEntry {
    NatEntry {
        version: n as u8,
        ino: 0x1F2E_0000 + n,
        block_addr: 0xA1B2_0000 + n,
    }
}

/// The journal's word on a number.
pub fn journalled(nid: u32, entry: NatEntry) -> JournalEntry {
    JournalEntry { nid, entry }
}

/// The result of a lookup that finds this entry.
pub fn found(entry: NatEntry) -> Entry {
    Entry {
        answer: 0,
        inode: entry.ino,
        address: entry.block_addr,
    }
}

/// The reference's result with the library's numbers.
pub fn by_reference(result: Result<(u32, u32), u32>) -> Entry {
    let (answer, (inode, address)) = match result {
        Ok(numbers) => (0, numbers),
        Err(answer) => (answer, (0, 0)),
    };
    Entry {
        answer,
        inode,
        address,
    }
}

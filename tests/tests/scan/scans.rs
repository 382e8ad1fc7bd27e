//! Scans by the archive, compared with the reference's and with what the paper says.

use std::fmt::{Debug, Formatter, Result};

use crate::answers::Answers;
use crate::cards::dentry_block::DentryBlock;
use crate::cards::layout::dentry::{Layout, IN_BLOCK};
use crate::scan_export::{scan, Scanned};
use crate::system::Guarded;
use crate::trial::Trial;

pub const NAME: &[u8] = b"road.bin";
pub const INO: u32 = 0xA1B2_C3D4;

const ALIGNMENTS: usize = 16;

pub const OUT_OF_SHAPE: Scanned = ended(4, 0);

pub const fn found(inode: u32, turns: usize) -> Scanned {
    Scanned {
        inode,
        ..ended(0, turns)
    }
}

pub const fn missing(turns: usize) -> Scanned {
    ended(2, turns)
}

pub const fn malformed(turns: usize) -> Scanned {
    ended(14, turns)
}

const fn ended(answer: u32, turns: usize) -> Scanned {
    Scanned {
        answer,
        inode: 0,
        turns: turns as u32,
    }
}

/// What is asked of a scan.
struct Call<'a> {
    layout: Layout,
    block: &'a [u8],
    name: &'a [u8],
}

impl Call<'_> {
    fn by_reference(&self) -> reference::slots::Scan {
        match self.layout {
            IN_BLOCK => reference::slots::scan(self.block, self.name),
            _ => reference::slots::scan_inline(self.block, self.name),
        }
    }
}

impl Debug for Call<'_> {
    fn fmt(&self, f: &mut Formatter) -> Result {
        let len = self.block.len();
        let Layout {
            start, map_bytes, ..
        } = self.layout;
        let map = self.block.get(start..start + map_bytes);
        let sum = reference::checksum::checksum(self.block);
        let (name, layout) = (self.name.escape_ascii(), self.layout.name);
        write!(
            f,
            "'{name}' {layout} of {len} bytes, map {map:02X?}, sum {sum:08X}"
        )
    }
}

/// A scan, and whether it kept to the most turns for its entries.
#[derive(Debug, PartialEq, Eq)]
struct Judged {
    scanned: Scanned,
    by_the_paper: Scanned,
    within_the_bound: bool,
}

pub struct Scans {
    pub trial: Trial,
    answers: Answers,
    memory: Guarded,
    alignment: usize,
}

impl Scans {
    pub fn new(name: &'static str) -> Scans {
        Scans {
            trial: Trial::new(name),
            answers: Answers::default(),
            memory: Guarded::new(2),
            alignment: 0,
        }
    }

    /// Compares a scan with the reference's.
    pub fn compare(&mut self, block: &DentryBlock, name: &[u8]) {
        self.check(block.layout, block.bytes(), name, None);
    }

    /// Compares also with what the paper says.
    pub fn expect(&mut self, block: &DentryBlock, name: &[u8], paper: Scanned) {
        self.expect_in(block.layout, block.bytes(), name, paper);
    }

    /// The same in any bytes.
    pub fn expect_in(&mut self, layout: Layout, block: &[u8], name: &[u8], paper: Scanned) {
        self.check(layout, block, name, Some(paper));
    }

    /// Scans a block that ends at a guard page, and one near the other guard page at any alignment.
    fn check(&mut self, layout: Layout, block: &[u8], name: &[u8], paper: Option<Scanned>) {
        let call = Call {
            layout,
            block,
            name,
        };
        let at_end = scan(layout, self.memory.lend_at_end(block), name);
        let at_start = scan(layout, self.memory.lend(self.alignment, block), name);
        self.alignment = (self.alignment + 1) % ALIGNMENTS;
        let met = call.by_reference();
        let library = [at_end, at_start].map(|scanned| Judged {
            scanned,
            by_the_paper: scanned,
            within_the_bound: scanned.turns <= met.most_turns(),
        });
        let reference = Scanned {
            answer: met.answer,
            inode: met.inode,
            turns: met.entries + met.runs,
        };
        let reference = [0, 1].map(|_| Judged {
            scanned: reference,
            by_the_paper: paper.unwrap_or(reference),
            within_the_bound: true,
        });
        self.answers.note(at_end.answer);
        self.trial.compare(call, library, reference);
    }

    /// Ends the trial, in which each of these answers has to have come up.
    pub fn finish(self, at_least: u64, answers: &[u32]) {
        self.trial.finish(at_least);
        self.answers.finish(answers);
    }
}

//! Keep files that are read and compared with a card, by the library, by the reference and as the paper says. No byte
//! can be read behind a file.

use std::fmt::Debug;

use crate::calls::answers::Answers;
use crate::calls::compares::{self, refused};
use crate::calls::keep_parts::Parts;
use crate::sizes::{keep_most, NAMES_MOST};
use crate::system::Guarded;
use crate::trial::Trial;
use crate::{Compared, KeepFields};

/// Of memory for the longest file that is written, and some bytes more.
const PAGES: usize = keep_most(NAMES_MOST) as usize / 4096 + 2;

/// What both calls say of a file.
#[derive(Clone, Copy, Debug, PartialEq, Eq)]
pub struct Seen {
    pub fields: KeepFields,
    pub compared: Compared,
}

impl Seen {
    /// No keep file: that is told first.
    pub fn refused() -> Seen {
        Seen {
            fields: KeepFields {
                answer: 18,
                ..KeepFields::default()
            },
            compared: refused(18, 0),
        }
    }

    /// A file with these parts.
    pub fn of(parts: &Parts, compared: Compared) -> Seen {
        Seen {
            fields: parts.fields(),
            compared,
        }
    }

    fn by_library(file: &[u8], fresh: &[u8]) -> Seen {
        Seen {
            fields: crate::keep_read(file),
            compared: crate::keep_compare(file, fresh),
        }
    }

    fn by_reference(file: &[u8], fresh: &[u8]) -> Seen {
        Seen {
            fields: reference_read(file),
            compared: reference_compare(file, fresh),
        }
    }
}

pub fn reference_read(file: &[u8]) -> KeepFields {
    let fields = reference::keep::keep_read(file);
    KeepFields {
        answer: fields.answer,
        path_len: fields.path_len,
        index: fields.index,
        pull_answer: fields.pull_answer,
        byte_count: fields.byte_count,
        main_start: fields.main_start,
        main_end: fields.main_end,
        node_count: fields.node_count,
        block_count: fields.block_count,
        path_at: fields.path_at,
        block_at: fields.block_at,
        nodes_at: fields.nodes_at,
        blocks_at: fields.blocks_at,
        length: fields.length,
    }
}

pub fn reference_compare(file: &[u8], fresh: &[u8]) -> Compared {
    compares::by_reference(reference::keep::keep_compare(file, fresh))
}

pub struct KeepFiles {
    pub trial: Trial,
    /// Answer, side and kind of comparisons.
    answers: Answers<(u32, u32, u32)>,
    memory: Guarded,
}

impl KeepFiles {
    pub fn new(name: &'static str) -> KeepFiles {
        KeepFiles {
            trial: Trial::new(name),
            answers: Answers::default(),
            memory: Guarded::new(PAGES),
        }
    }

    /// Compares what is said of a file and a card with the reference's. What is read, laid out again, is the same file.
    pub fn compare(&mut self, input: impl Debug, file: &[u8], fresh: &[u8]) -> Seen {
        self.check(input, file, fresh, |seen| seen)
    }

    /// Compares also with what the paper says.
    pub fn expect(&mut self, input: impl Debug, file: &[u8], fresh: &[u8], paper: Seen) {
        self.check(input, file, fresh, |_| paper);
    }

    /// By the paper this is no keep file, whatever the card is.
    pub fn expect_refused(&mut self, input: impl Debug, file: &[u8], fresh: &[u8]) {
        self.expect(input, file, fresh, Seen::refused());
    }

    /// By the paper the file with these parts is read. What it says of the card is the reference's word.
    pub fn expect_read(&mut self, input: impl Debug, parts: &Parts, fresh: &[u8]) {
        let fields = parts.fields();
        self.check(input, &parts.laid_out(), fresh, |seen| Seen {
            fields,
            ..seen
        });
    }

    fn check(
        &mut self,
        input: impl Debug,
        file: &[u8],
        fresh: &[u8],
        paper: impl FnOnce(Seen) -> Seen,
    ) -> Seen {
        let library = Seen::by_library(self.memory.lend_at_end(file), fresh);
        let reference = Seen::by_reference(file, fresh);
        let is_whole = library != reference || is_laid_out_again(file, &library.fields);
        self.note(library);
        self.trial.compare(
            ("file of bytes", file.len(), input),
            (library, "laid out again", is_whole, "by the paper", library),
            (
                reference,
                "laid out again",
                true,
                "by the paper",
                paper(library),
            ),
        );
        library
    }

    /// The same of a file where it lies, which isn't laid out again.
    pub fn expect_in_place(&mut self, input: impl Debug, file: &[u8], fresh: &[u8], paper: Seen) {
        let library = Seen::by_library(file, fresh);
        let reference = Seen::by_reference(file, fresh);
        self.note(library);
        self.trial.compare(
            ("file of bytes", file.len(), input),
            (library, "by the paper", library),
            (reference, "by the paper", paper),
        );
    }

    fn note(&mut self, seen: Seen) {
        let Compared {
            answer, side, kind, ..
        } = seen.compared;
        self.answers.note((answer, side, kind));
    }

    /// Ends the trial, in which each of these has to have come up: answer, side and kind.
    pub fn finish(self, at_least: u64, answers: &[(u32, u32, u32)]) {
        self.trial.finish(at_least);
        self.answers.finish(answers);
    }
}

/// Whether the parts of a file are all of it, if it isn't refused.
fn is_laid_out_again(file: &[u8], fields: &KeepFields) -> bool {
    fields.answer != 0 || Parts::of_file(file, fields).laid_out() == file
}

//! Segment reports of the library, compared with the reference's and with what the paper says: the result
//! numbers, and every byte of the lent list.

use std::fmt::Debug;

use crate::calls::answers::Answers;
use crate::calls::lent::{Pattern, Slice, NUMBER_SIZE};
use crate::cards::image::Image;
use crate::cards::layout::sit::SitEntry;
use crate::cards::layout::sit_journal::SitJournalEntry;
use crate::cards::layout::SEGMENT_BLOCKS;
use crate::cards::random_segments::in_use;
use crate::sizes::SEGMENTS_MOST;
use crate::trial::{Random, Trial};
use crate::Segments;

/// A longer list has up to so many bytes more than it needs.
const MOST_SPARE: u64 = 30;
const MOST_SHIFT: u64 = 16;

/// What the paper says of a report.
#[derive(Clone, Debug)]
pub struct Report {
    answer: u32,
    off: Vec<u32>,
    valid_blocks: u32,
}

impl Report {
    /// The segments whose count isn't that of their map, in rising order, and the ones in all maps.
    pub fn of(off: &[u32], valid_blocks: u32) -> Report {
        Report {
            answer: 0,
            off: off.to_vec(),
            valid_blocks,
        }
    }

    /// What these entries of the table say, and a journal over them.
    pub fn by_entries(table: &[SitEntry], journal: &[SitJournalEntry]) -> Report {
        let entries = in_use(table, journal);
        let off = (0..).zip(&entries).filter(|(_, (entry, _))| entry.is_off());
        let off: Vec<u32> = off.map(|(segno, _)| segno).collect();
        Report::of(&off, entries.iter().map(|(entry, _)| entry.ones()).sum())
    }

    pub fn answer(&self) -> u32 {
        self.answer
    }

    pub fn refused(answer: u32) -> Report {
        Report {
            answer,
            ..Report::of(&[], 0)
        }
    }

    /// What a call returns then and leaves in a list that was lent to it.
    fn outcome(&self, mut list: Slice) -> Outcome {
        let numbers = list.lend().chunks_exact_mut(NUMBER_SIZE);
        for (place, number) in numbers.zip(&self.off) {
            place.copy_from_slice(&number.to_le_bytes());
        }
        let segments = Segments {
            answer: self.answer,
            count: self.off.len() as u32,
            valid_blocks: self.valid_blocks,
        };
        Outcome { segments, list }
    }
}

/// The library's report, or the reference's.
pub type SegmentReport = fn(&[u8], &mut [u8]) -> Segments;

/// What a report returned, and the lent list after it.
#[derive(Debug, PartialEq, Eq)]
struct Outcome {
    segments: Segments,
    list: Slice,
}

impl Outcome {
    fn of(report: SegmentReport, bytes: &[u8], mut list: Slice) -> Outcome {
        let segments = report(bytes, list.lend());
        Outcome { segments, list }
    }
}

pub fn reference_report(image: &[u8], list: &mut [u8]) -> Segments {
    let segments = reference::segments::segment_report(image, list);
    Segments {
        answer: segments.answer,
        count: segments.count,
        valid_blocks: segments.valid_blocks,
    }
}

/// How many main segments a card has, if it opens, and what the reference answers to a report into a list
/// that is long enough.
pub fn reported(image: &Image) -> (u32, u32) {
    let opened = reference::open::open(image.bytes());
    let segments = opened.map_or(0, |volume| volume.main_segments);
    let mut list = [0; SEGMENTS_MOST as usize * NUMBER_SIZE];
    (segments, reference_report(image.bytes(), &mut list).answer)
}

/// How many bytes a list needs for an image as it was built.
pub fn needed(image: &Image) -> usize {
    let main = image.areas.main_end - image.areas.main;
    (main / SEGMENT_BLOCKS) as usize * NUMBER_SIZE
}

pub struct Reports {
    pub trial: Trial,
    answers: Answers,
}

impl Reports {
    pub fn new(name: &'static str) -> Reports {
        Reports {
            trial: Trial::new(name),
            answers: Answers::default(),
        }
    }

    /// Compares reports with the reference's, into a list of so many bytes and into a longer one.
    pub fn compare(&mut self, image: &Image, len: usize) {
        let lists = lists(len, &mut self.trial.random);
        let [library, reference] = self.both(image.bytes(), &lists);
        let input = ("list of bytes", len, image);
        self.trial.compare(input, library, reference);
    }

    /// Compares also with what the paper says, into lists that are long enough.
    pub fn expect(&mut self, image: &Image, paper: &Report) {
        let lists = lists(needed(image), &mut self.trial.random);
        self.check(image, image.bytes(), &lists, paper);
    }

    /// The same in any bytes, into lists of so many; `input` says what the bytes are.
    pub fn expect_in(&mut self, input: impl Debug, bytes: &[u8], len: usize, paper: &Report) {
        let list = |pattern| Slice::new(len, pattern, 0);
        let lists = [Pattern::Plain, Pattern::Inverted].map(list);
        self.check(("list of bytes", len, input), bytes, &lists, paper);
    }

    fn check(&mut self, input: impl Debug, bytes: &[u8], lists: &[Slice; 2], paper: &Report) {
        let [library, reference] = self.both(bytes, lists);
        let by_the_paper = lists.clone().map(|list| paper.outcome(list));
        self.trial.compare(
            input,
            (&library, "by the paper", &library),
            (&reference, "by the paper", &by_the_paper),
        );
    }

    /// What the library returns and leaves in the lists, and what the reference does.
    fn both(&mut self, bytes: &[u8], lists: &[Slice; 2]) -> [[Outcome; 2]; 2] {
        let sides: [SegmentReport; 2] = [crate::segment_report, reference_report];
        let both = sides.map(|report| {
            let outcome = |list| Outcome::of(report, bytes, list);
            lists.clone().map(outcome)
        });
        self.answers.note(both[0][0].segments.answer);
        both
    }

    /// Ends the trial, in which each of these answers has to have come up.
    pub fn finish(self, at_least: u64, answers: &[u32]) {
        self.trial.finish(at_least);
        self.answers.finish(answers);
    }
}

/// A list of so many bytes, and a longer one that mostly has a remainder of one to three.
fn lists(len: usize, random: &mut Random) -> [Slice; 2] {
    let spare = random.below(MOST_SPARE) as usize;
    let shift = random.below(MOST_SHIFT) as usize;
    [
        Slice::new(len, Pattern::Plain, 0),
        Slice::new(len + spare, Pattern::Inverted, shift),
    ]
}

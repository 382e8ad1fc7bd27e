//! What `harptimber segments` has to say of a card, in words, in JSON and by bars.

use std::path::PathBuf;

use crate::cards::layout::sit::SitEntry;
use crate::cards::layout::SEGMENT_BLOCKS;
use crate::program::json::Json;
use crate::program::page::{counted, expect_head, meaning, with_commas};
use crate::program::{run, Ran};

/// So many segments that are off are told in words.
const MOST_SHOWN: usize = 10;

/// What explains segments that are off: what it means, which way they are off, and what helps.
pub fn hint(high: bool, low: bool) -> String {
    let lines = [
        (true, "off: by its valid count F2FS knows how full a segment is, by its map which blocks are in use; they disagree\n"),
        (high, "a count that is too high makes the card seem fuller than it is\n"),
        (low, "a count that is too low can make blocks in use seem free: nothing should be written before it is put right\n"),
        (true, "fsck.f2fs -f counts anew; it writes to the card, so keep a copy\n"),
    ];
    lines
        .iter()
        .filter(|(said, _)| *said)
        .map(|(_, line)| *line)
        .collect()
}

/// A main segment by its SIT entry: its count, the ones in its map, and where the entry is.
#[derive(Clone, Copy, Debug, PartialEq, Eq)]
pub struct Segment {
    pub count: u32,
    pub ones: u32,
    pub journal: bool,
    pub block: u32,
}

impl Segment {
    /// As an entry has to be told, if the journal or else the table has it in this block.
    pub fn of(entry: &SitEntry, journal: bool, block: u32) -> Segment {
        Segment {
            count: entry.count.into(),
            ones: entry.ones(),
            journal,
            block,
        }
    }
}

/// The main segments of a card, from the first.
#[derive(Clone, Debug)]
pub struct Segments(pub Vec<Segment>);

impl Segments {
    /// Those that are off, with their numbers.
    pub fn off(&self) -> Vec<(u32, Segment)> {
        let numbered = (0..).zip(self.0.iter().copied());
        numbered
            .filter(|(_, segment)| segment.count != segment.ones)
            .collect()
    }

    pub fn valid_blocks(&self) -> u32 {
        self.0.iter().map(|segment| segment.ones).sum()
    }

    fn empty(&self) -> usize {
        let empty = |segment: &&Segment| segment.ones == 0;
        self.0.iter().filter(empty).count()
    }

    fn status(&self) -> i32 {
        i32::from(!self.off().is_empty())
    }

    /// Runs the command for words and for JSON, and returns the words.
    pub fn expect(&self, path: &PathBuf) -> Ran {
        let words = run(&[&"segments", path]).expect(self.status());
        assert_eq!(words.err, "", "of {words:?}");
        assert_eq!(words.words(), self.words(path), "of {words:?}");
        let json = run(&[&"segments", &"--json", path]).expect(self.status());
        self.expect_json(&json.json());
        words
    }

    fn words(&self, path: &PathBuf) -> String {
        let off = self.off();
        let (number, verb) = match off.len() {
            0 => ("no segment".to_string(), "is"),
            1 => ("1 segment".to_string(), "is"),
            count => (counted(count, "segment"), "are"),
        };
        let mut words = format!(
            "{}: {} (answer 0): {number} {verb} off\n",
            path.display(),
            meaning("segments", 0)
        );
        for (number, segment) in off.iter().take(MOST_SHOWN) {
            words += &format!(
                "  segment {number} counts {}, its map marks {} (SIT {}, block {})\n",
                counted(segment.count as usize, "valid block"),
                with_commas(segment.ones as usize),
                if segment.journal { "journal" } else { "table" },
                segment.block
            );
        }
        if off.len() > MOST_SHOWN {
            let more = counted(off.len() - MOST_SHOWN, "more segment");
            words += &format!("  {more}; --json has all\n");
        }
        if !off.is_empty() {
            let any = |way: fn(&Segment) -> bool| off.iter().any(|(_, segment)| way(segment));
            words += &hint(any(|s| s.count > s.ones), any(|s| s.count < s.ones));
        }
        words + &self.fill()
    }

    /// How many blocks are valid.
    fn fill(&self) -> String {
        let valid = u64::from(self.valid_blocks());
        let all = self.0.len() as u64 * u64::from(SEGMENT_BLOCKS);
        // Rounded to the nearest tenth, and up from the middle.
        let tenths = (2000 * valid + all).checked_div(2 * all).unwrap_or(0);
        format!(
            "{} of {} valid in {} ({}.{} %), {} of them empty\n",
            with_commas(valid as usize),
            counted(all as usize, "block"),
            counted(self.0.len(), "segment"),
            tenths / 10,
            tenths % 10,
            with_commas(self.empty())
        )
    }

    pub fn expect_json(&self, json: &Json) {
        expect_head(json, "segments", 0);
        let numbers = ["count", "valid_blocks", "segments", "empty"].map(|key| json[key].number());
        let off = self.off();
        let counts = [off.len(), self.0.len(), self.empty()].map(|count| count as u64);
        let valid = u64::from(self.valid_blocks());
        assert_eq!(numbers, [counts[0], valid, counts[1], counts[2]]);
        let told = json["off"].list().iter().map(|json| {
            let number = |key| json[key].number() as u32;
            let segment = Segment {
                count: number("valid_count"),
                ones: number("ones"),
                journal: json["journal"] == Json::Bool(true),
                block: number("block"),
            };
            (number("segment"), segment)
        });
        assert_eq!(told.collect::<Vec<_>>(), off, "in {json:?}");
    }

    /// The lines that show a terminal of so many columns how full the segments are.
    pub fn bars(&self, columns: usize, bars: [char; 9]) -> String {
        let step = self.0.len().div_ceil(columns - 2);
        let full = step * SEGMENT_BLOCKS as usize;
        let bar = |segments: &[Segment]| {
            let ones: u32 = segments.iter().map(|segment| segment.ones).sum();
            let all = segments.len() as u32 * SEGMENT_BLOCKS;
            // From a seventh to less than the next one.
            let height = match ones {
                0 => 0,
                _ if ones == all => 8,
                _ => 1 + (7 * ones / all) as usize,
            };
            bars[height]
        };
        let line: String = self.0.chunks(step).map(bar).collect();
        assert!(full > 0 && line.chars().count() + 2 <= columns);
        let step = counted(step, "segment");
        format!(
            "a column is {step}, blank if empty, {} if full\n[{line}]\n",
            bars[8]
        )
    }
}

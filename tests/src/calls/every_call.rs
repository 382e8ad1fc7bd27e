//! Every call that opens a card: node lookup, pull, run, segment report, keep, and compare with the card on either side and
//! on both, also by a keep file.

use crate::calls::compares::{refused, Compares, Kept, OUT_OF_SHAPE, SAME};
use crate::calls::keeps::Keeps;
use crate::calls::lookups::Lookups;
use crate::calls::pulls::{Call, Pulls};
use crate::calls::runs::{RunCall, Runs};
use crate::calls::segments::{needed, Report, Reports};
use crate::cards::card::ROOT;
use crate::cards::image::Image;
use crate::cards::layout::nat::NatEntry;

/// What the calls give on a card, by what was written there.
#[derive(Clone, Debug)]
pub struct Content {
    /// A block of a file.
    pub data: Vec<u8>,
    /// Numbers and their entries in use.
    pub entries: Vec<(u32, NatEntry)>,
    pub report: Report,
}

/// A card that opens.
pub struct Sound<'a> {
    pub content: &'a Content,
    /// A pull of the data.
    pub kept: Kept<'a>,
}

pub struct EveryCall {
    lookups: Lookups,
    pulls: Pulls,
    runs: Runs,
    reports: Reports,
    compares: Compares,
    keeps: Keeps,
}

impl EveryCall {
    pub fn new(name: &'static str) -> EveryCall {
        EveryCall {
            lookups: Lookups::new(name),
            pulls: Pulls::new(name),
            runs: Runs::new(name),
            reports: Reports::new(name),
            compares: Compares::new(name),
            keeps: Keeps::new(name),
        }
    }

    /// Expects the same of a card as of a sound one, and that they compare as the same.
    pub fn expect_read(&mut self, sound: &Sound, image: &Image) {
        let Sound { content, kept } = sound;
        for &(nid, entry) in &content.entries {
            self.lookups.expect_entry(image, nid, entry);
        }
        let Call { name, index, .. } = kept.call;
        self.pulls.expect_data(image, name, index, &content.data);
        self.runs.expect(&RunCall::new(image, name, index, 1), 0, 1);
        self.keeps.expect(&Call::new(image, name, index), 0);
        self.reports.expect(image, &content.report);
        self.compares.expect(kept, image, SAME);
        let cards = [image.bytes(), kept.call.bytes];
        self.compares
            .expect_in(("kept", image), cards, kept.lists(), SAME);
    }

    /// Expects this answer, from 5 to 8, of a card. The kept one opens.
    pub fn expect_refused(&mut self, kept: &Kept, image: &Image, answer: u32) {
        for number in [0, ROOT, u32::MAX] {
            self.lookups.expect(image, number, answer);
        }
        let Call { name, index, .. } = kept.call;
        self.pulls.expect(image, name, index, answer);
        self.runs
            .expect(&RunCall::new(image, name, index, 2), answer, 0);
        self.keeps.expect(&Call::new(image, name, index), answer);
        let refusal = Report::refused(answer);
        self.reports.expect(image, &refusal);
        // That a list is too short is told last.
        self.reports.expect_in(image, image.bytes(), 0, &refusal);
        self.compares.expect(kept, image, refused(answer, 2));
        let (sound, damaged) = (kept.call.bytes, image.bytes());
        for cards in [[damaged, sound], [damaged, damaged]] {
            self.compares
                .expect_in(("kept", image), cards, kept.lists(), refused(answer, 1));
        }
    }

    /// Expects 4 of a card that lacks its last byte, whatever else is wrong with it.
    pub fn expect_out_of_shape(&mut self, kept: &Kept, image: &Image) {
        let (sound, whole) = (kept.call.bytes, image.bytes());
        let cut = &whole[..whole.len() - 1];
        self.lookups.expect_in(image, cut, ROOT, 4);
        let Call { name, index, .. } = kept.call;
        let call = Call {
            bytes: cut,
            ..Call::new(image, name, index)
        };
        self.pulls.expect_call(&call, 4);
        self.keeps.expect(&call, 4);
        let first = call;
        self.runs.expect(&RunCall { first, blocks: 2 }, 4, 0);
        self.reports
            .expect_in(image, cut, needed(image), &Report::refused(4));
        for cards in [[sound, cut], [cut, sound], [whole, cut], [cut, whole]] {
            self.compares
                .expect_in(image, cards, kept.lists(), OUT_OF_SHAPE);
        }
        self.compares.expect_by_file(kept, image, cut, OUT_OF_SHAPE);
    }

    /// Ends the trial, in which so many cards were to be tried, with each of these answers; 0 stands for a card that
    /// opens.
    pub fn finish(self, at_least: u64, answers: &[u32]) {
        self.lookups.finish(at_least, answers);
        self.pulls.finish(at_least, answers);
        let of_runs: Vec<_> = answers
            .iter()
            .map(|&answer| (answer, answer == 0))
            .collect();
        self.runs.finish(at_least, &of_runs);
        self.reports.finish(at_least, answers);
        self.keeps.finish(at_least, answers);
        let by_side = |&answer: &u32| match answer {
            0 => vec![(15, 0, 0)],
            4 => vec![(4, 0, 0)],
            _ => vec![(answer, 1, 0), (answer, 2, 0)],
        };
        let of_compares: Vec<_> = answers.iter().flat_map(by_side).collect();
        self.compares.finish(at_least, &of_compares);
    }
}

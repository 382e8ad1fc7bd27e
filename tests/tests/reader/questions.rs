//! Pulls with every answer but 4, and what is looked at on the way to it.

use std::slice::from_ref;

use harptimber_tests::calls::answers::Answers;
use harptimber_tests::calls::lent::{Lens, Lent, Pattern};
use harptimber_tests::calls::pulls::{Call, Outcome};
use harptimber_tests::calls::readers::{block_in, outcome_of, started};
use harptimber_tests::cards::damage::all_faults;
use harptimber_tests::cards::deep_folders::DeepFolders;
use harptimber_tests::cards::folders::{Folders, Shape};
use harptimber_tests::cards::image::Image;
use harptimber_tests::cards::stops::{stops, INDEX};
use harptimber_tests::trial::Trial;
use harptimber_tests::{reader_step, Pulled, Reader};

pub const OUT_OF_SHAPE: Pulled = Pulled {
    answer: 4,
    byte_count: 0,
    node_count: 0,
    block_count: 0,
};

/// A trial of readers.
pub struct Readers {
    pub trial: Trial,
    answers: Answers,
}

impl Readers {
    pub fn new(name: &'static str) -> Readers {
        Readers {
            trial: Trial::new(name),
            answers: Answers::default(),
        }
    }

    /// Looks at pulls: past every stop of paths through folders of each kind, by cards that don't open, and of the last
    /// block of a file in a deep folder.
    pub fn each_question(&mut self, mut look: impl FnMut(&mut Trial, &Call)) {
        let paths = [Shape::ALL[..1].to_vec(), Shape::ALL[1..4].to_vec()];
        for shapes in paths.iter().chain(from_ref(&Shape::ALL.to_vec())) {
            let mut folders = Folders::new(&mut self.trial.random, shapes, INDEX);
            let stops = stops(&mut folders);
            let path = folders.path();
            let image = &mut folders.card.image;
            let mut ask = |image: &Image| self.ask(&Call::new(image, &path, INDEX), &mut look);
            ask(image);
            for (_, block, field, value) in stops {
                image.set(block, field, value);
                ask(image);
                image.undo(0);
            }
            let marks = all_faults(image);
            ask(image);
            for (mark, _) in marks {
                image.undo(mark);
                ask(image);
            }
        }
        let deep = DeepFolders::new(&mut self.trial.random, 1, 0);
        let call = Call::new(&deep.card.image, &deep.path, deep.index);
        self.ask(&call, &mut look);
    }

    fn ask(&mut self, call: &Call, look: &mut impl FnMut(&mut Trial, &Call)) {
        let pulled = Outcome::of(harptimber_tests::pull, call, call.least()).pulled;
        self.answers.note(pulled.answer);
        look(&mut self.trial, call);
    }

    /// Ends the trial, in which every answer has to have come up.
    pub fn finish(self, at_least: u64) {
        self.trial.finish(at_least);
        let every: Vec<u32> = (0..4).chain(5..15).collect();
        self.answers.finish(&every);
    }
}

/// The states of a pull: the first, and the one after each step.
pub fn states(call: &Call) -> Vec<Reader> {
    let mut states = vec![started(call)];
    while let Some(block) = states[states.len() - 1].wanted() {
        let last = states[states.len() - 1].clone();
        states.push(reader_step(last, block_in(call.bytes, block)));
    }
    states
}

/// Two memories of these lengths, that differ in every byte.
pub fn both(lens: Lens) -> [Lent; 2] {
    [Pattern::Plain, Pattern::Inverted].map(|pattern| Lent::new(lens, pattern, 0))
}

/// In memory of these lengths the result is 4, and nothing is written.
pub fn expect_refused(trial: &mut Trial, call: &Call, reader: &Reader, lens: Lens) {
    let results = both(lens).map(|lent| outcome_of(reader, lent));
    let untouched = both(lens).map(|lent| Outcome {
        pulled: OUT_OF_SHAPE,
        lent,
    });
    trial.compare((reader, lens, call), results, untouched);
}

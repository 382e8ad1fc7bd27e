//! How often each answer came up in a trial: one in which the expected answers never do shows little.

use std::collections::BTreeMap;
use std::fmt::Debug;

/// An answer is its number, or that with more of the result; or whatever else has to come up.
pub struct Answers<T = u32>(BTreeMap<T, u64>);

impl<T> Default for Answers<T> {
    fn default() -> Answers<T> {
        Answers(BTreeMap::new())
    }
}

impl<T: Ord + Debug> Answers<T> {
    pub fn note(&mut self, answer: T) {
        *self.0.entry(answer).or_default() += 1;
    }

    /// Each of these has to have come up.
    pub fn finish(&self, answers: &[T]) {
        println!("  what came up, each with how often: {:?}", self.0);
        for answer in answers {
            let seen = self.0.contains_key(answer);
            assert!(seen, "{answer:?} never came up");
        }
    }
}

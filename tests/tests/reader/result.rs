//! A reader's result: before the answer is there, and in memory of any lengths.

use harptimber_tests::calls::lent::Lens;
use harptimber_tests::calls::pulls::{Call, Outcome};
use harptimber_tests::calls::readers::outcome_of;
use harptimber_tests::cards::layout::BLOCK_SIZE;
use harptimber_tests::trial::Trial;

use crate::questions::{both, expect_refused, states, Readers};

/// Of every state that wants a block.
fn expect_too_early(trial: &mut Trial, call: &Call) {
    let states = states(call);
    for state in &states[..states.len() - 1] {
        expect_refused(trial, call, state, Lens::of(call.names()));
    }
}

#[test]
fn before_the_answer() {
    let mut readers = Readers::new("results before the answer");
    readers.each_question(expect_too_early);
    readers.finish(2000);
}

/// Lengths around those that a pull takes, with whether they are in shape.
fn lens_around(names: u32) -> Vec<(Lens, bool)> {
    let least = Lens::of(names);
    let around = |least: usize| [0, 4, least - 4, least - 1, least, least + 1, least + 7];
    let mut all = Vec::new();
    for block in [
        0,
        1,
        BLOCK_SIZE - 1,
        BLOCK_SIZE,
        BLOCK_SIZE + 1,
        2 * BLOCK_SIZE,
    ] {
        for nodes in around(least.nodes) {
            for blocks in around(least.blocks) {
                let lens = Lens {
                    block,
                    nodes,
                    blocks,
                };
                let enough = nodes >= least.nodes && blocks >= least.blocks;
                all.push((lens, block == BLOCK_SIZE && enough));
            }
        }
    }
    all
}

/// What is in shape for a pull is for the result: it gives the same, as often as it is asked for.
fn expect_by_lens(trial: &mut Trial, call: &Call) {
    let answered = states(call).pop().expect("a state");
    for (lens, in_shape) in lens_around(call.names()) {
        if in_shape {
            let results = both(lens).map(|lent| outcome_of(&answered, lent));
            let pulls = both(lens).map(|lent| Outcome::of(harptimber_tests::pull, call, lent));
            trial.compare((lens, call), results, pulls);
        } else {
            expect_refused(trial, call, &answered, lens);
        }
    }
}

#[test]
fn lent_lengths() {
    let mut readers = Readers::new("results by lent lengths");
    readers.each_question(expect_by_lens);
    readers.finish(10_000);
}

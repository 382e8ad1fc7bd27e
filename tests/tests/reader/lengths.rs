//! Bytes of another length than a block's, before the answer is there: it is 4, and stays 4.

use harptimber_tests::calls::lent::Lens;
use harptimber_tests::calls::pulls::Call;
use harptimber_tests::calls::readers::block_in;
use harptimber_tests::cards::layout::BLOCK_SIZE;
use harptimber_tests::reader_step;
use harptimber_tests::trial::Trial;

use crate::questions::{expect_refused, states, Readers};

pub const WRONG: [usize; 5] = [0, 1, BLOCK_SIZE - 1, BLOCK_SIZE + 1, 2 * BLOCK_SIZE];

/// Every length at each step, with the block that was wanted at the start of the bytes.
fn expect_ended(trial: &mut Trial, call: &Call) {
    let states = states(call);
    let (answered, before) = states.split_last().expect("a state");
    assert_eq!(answered.wanted(), None);
    for state in before {
        let block = block_in(call.bytes, state.block);
        let bytes = [block, block].concat();
        for len in WRONG {
            let ended = reader_step(state.clone(), &bytes[..len]);
            trial.check((len, state, call), ended.wanted(), None);
            expect_refused(trial, call, &ended, Lens::of(call.names()));
            for len in [BLOCK_SIZE, 0, len] {
                let after = reader_step(ended.clone(), &bytes[..len]);
                trial.check(("goes on", len, call), &after, &ended);
            }
        }
    }
}

#[test]
fn at_every_step() {
    let mut readers = Readers::new("readers fed bytes of another length");
    readers.each_question(expect_ended);
    readers.finish(10_000);
}

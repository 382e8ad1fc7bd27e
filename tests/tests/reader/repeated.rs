//! A step after the answer repeats the state, whatever comes.

use harptimber_tests::calls::pulls::Call;
use harptimber_tests::calls::readers::{block_in, Read};
use harptimber_tests::cards::layout::BLOCK_SIZE;
use harptimber_tests::reader_step;
use harptimber_tests::trial::Trial;

use crate::lengths::WRONG;
use crate::questions::Readers;

/// Blocks that were asked for, others of the card, no block of it, and bytes of other lengths, one after the other.
fn expect_repeated(trial: &mut Trial, call: &Call) {
    let Read { reader, asked } = Read::whole(call);
    let any = trial.random.bytes(2 * BLOCK_SIZE);
    let card = asked.iter().flat_map(|&block| [block, block / 2]);
    let card = card.map(|block| block_in(call.bytes, block));
    let others = WRONG.map(|len| &any[..len]);
    let zeros = [0; BLOCK_SIZE];
    let mut after = reader.clone();
    for bytes in card.chain(others).chain([&any[..BLOCK_SIZE], &zeros]) {
        after = reader_step(after, bytes);
        trial.compare((bytes.len(), call), after.state(), reader.state());
    }
}

#[test]
fn after_the_answer() {
    let mut readers = Readers::new("readers after the answer");
    readers.each_question(expect_repeated);
    readers.finish(4000);
}

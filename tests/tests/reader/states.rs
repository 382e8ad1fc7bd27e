//! A state is plain bytes: it goes on the same wherever it was in between, and knows of no other reader.

use harptimber_tests::calls::pulls::Call;
use harptimber_tests::calls::readers::{block_in, started, Read};
use harptimber_tests::cards::random_files::{any_target, random_files, RandomFiles};
use harptimber_tests::trial::Trial;
use harptimber_tests::{reader_step, Reader};

use crate::questions::{states, Readers};

/// The struct's bytes are its fields', and none are between them.
#[test]
fn bytes_of_a_state() {
    assert_eq!((size_of::<Reader>(), align_of::<Reader>()), (23_992, 4));
    let mut random = Trial::new("bytes of a state").random;
    let any = random.bytes(size_of::<Reader>());
    assert!(Reader::from_state(&any).state() == any);
}

/// Each state is copied to a place of its own before the next step, and what stood there before is wiped out.
fn expect_moved(trial: &mut Trial, call: &Call) {
    let mut moved = Box::new(started(call));
    for state in states(call) {
        trial.compare((state.block, call), moved.state(), state.state());
        let away = moved.state();
        *moved = Reader::from_state(&[0xAA; size_of::<Reader>()]);
        moved = Box::new(Reader::from_state(&away));
        if let Some(block) = moved.wanted() {
            *moved = reader_step(*moved, block_in(call.bytes, block));
        }
    }
}

#[test]
fn copied_between_steps() {
    let mut readers = Readers::new("readers whose state is copied");
    readers.each_question(expect_moved);
    readers.finish(2000);
}

/// Readers of two cards in turn, and a third that starts again from any state of the first.
#[test]
fn interleaved() {
    const PAIRS: u64 = 60;
    let mut trial = Trial::new("readers in turn");
    let cards = [(); 2].map(|_| random_files(&mut trial.random));
    for _ in 0..trial.times(PAIRS) {
        let targets = cards
            .each_ref()
            .map(|RandomFiles { card, targets }| (card, any_target(targets, &mut trial.random)));
        let calls =
            targets.map(|(card, target)| Call::new(&card.image, &target.name, target.index));
        let alone = calls.each_ref().map(states);
        let mut readers = calls.each_ref().map(started);
        let longest = alone.each_ref().map(Vec::len).into_iter().max();
        for n in 0..longest.expect("two") {
            for (side, call) in calls.iter().enumerate() {
                let expected = &alone[side][n.min(alone[side].len() - 1)];
                trial.compare((n, call), &readers[side], expected);
                let block = block_in(call.bytes, readers[side].block);
                readers[side] = reader_step(readers[side].clone(), block);
            }
        }
        let [first, _] = &calls;
        let again = trial.random.below(alone[0].len() as u64) as usize;
        let read = Read::fed(alone[0][again].clone(), first.names(), |block| {
            block_in(first.bytes, block)
        });
        trial.compare(("again", again, first), Some(&read.reader), alone[0].last());
    }
    trial.finish(PAIRS * 20);
}

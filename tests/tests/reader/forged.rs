//! States that no start and no step gave: they are answered in form, and nothing is touched that isn't lent.

use harptimber_tests::calls::answers::Answers;
use harptimber_tests::calls::lent::{Lens, Lent};
use harptimber_tests::calls::pulls::Call;
use harptimber_tests::calls::readers::{block_in, outcome_of};
use harptimber_tests::cards::folders::{Folders, Shape};
use harptimber_tests::cards::layout::BLOCK_SIZE;
use harptimber_tests::sizes::NAMES_MOST;
use harptimber_tests::system::Guarded;
use harptimber_tests::trial::{Random, Trial};
use harptimber_tests::{reader_result, reader_step, Pulled, Reader};

use crate::questions::{both, states};

/// Steps behind a forged state.
const STEPS: usize = 3;

/// Memory between pages that can't be touched, for a block and for the three slices of a result.
struct Forged {
    trial: Trial,
    answers: Answers,
    bytes: Guarded,
    lent: [Guarded; 3],
}

impl Forged {
    fn new(name: &'static str) -> Forged {
        Forged {
            trial: Trial::new(name),
            answers: Answers::default(),
            bytes: Guarded::new(1),
            lent: [1, 2, 2].map(Guarded::new),
        }
    }

    /// Steps with the card's blocks and with others, and the result before and after each.
    fn try_state(&mut self, call: &Call, forged: &Reader) {
        let mut reader = forged.clone();
        for n in 0..STEPS {
            self.expect_result(call, &reader);
            let right = block_in(call.bytes, reader.block);
            let any = self.trial.random.bytes(BLOCK_SIZE);
            let bytes = if n == 1 || right.is_empty() {
                &any
            } else {
                right
            };
            reader = reader_step(reader, self.bytes.lend(0, bytes));
        }
        let short = reader_step(reader.clone(), self.bytes.lend_at_end(&[0; 7]));
        for reader in [&reader, &short] {
            self.expect_result(call, reader);
        }
    }

    /// In memory for any path, for the path's names and for one name: an answer, counts that have room, and what is behind
    /// them untouched.
    fn expect_result(&mut self, call: &Call, reader: &Reader) {
        for names in [NAMES_MOST, call.names(), 1] {
            let lens = Lens::of(names);
            let guarded = self.guarded_result(lens, reader);
            let results = both(lens).map(|lent: Lent| outcome_of(reader, lent));
            let kept = results.each_ref().map(|result| {
                let Pulled { answer, .. } = result.pulled;
                let (nodes, blocks) = (result.pulled.node_count, result.pulled.block_count);
                let roomy = nodes as usize * 4 <= lens.nodes && blocks as usize * 4 <= lens.blocks;
                let untouched = result.lent.nodes.untouched_from(nodes as usize * 4)
                    && result.lent.blocks.untouched_from(blocks as usize * 4)
                    && result.lent.block.untouched_from(BLOCK_SIZE);
                (answer <= 14, roomy && untouched, result.pulled)
            });
            self.answers.note(guarded.answer);
            let told = [(true, true, guarded); 2];
            self.trial.compare((reader, lens, call), kept, told);
        }
    }

    fn guarded_result(&mut self, lens: Lens, reader: &Reader) -> Pulled {
        let [block, nodes, blocks] = &mut self.lent;
        reader_result(
            reader.clone(),
            block.lend_at_end(&vec![0xAA; lens.block]),
            nodes.lend_at_end(&vec![0xAA; lens.nodes]),
            blocks.lend_at_end(&vec![0xAA; lens.blocks]),
        )
    }

    /// Ends the trial: some states were refused and some went on to an answer.
    fn finish(self, at_least: u64, answers: &[u32]) {
        self.trial.finish(at_least);
        self.answers.finish(answers);
    }
}

/// A path with all kinds of folders.
fn folders(random: &mut Random) -> Folders {
    Folders::new(random, &Shape::in_turn(3), 1000)
}

/// Some of a pull's states: of opening, of the walk, and with the answer.
fn some_states(call: &Call) -> Vec<Reader> {
    let states = states(call);
    let last = states.len() - 1;
    [0, 1, 3, 5, last / 2, last - 2, last - 1, last]
        .map(|n| states[n].clone())
        .to_vec()
}

/// How many numbers a state has, what it asks for among them.
const NUMBERS: usize = 35;

fn number(reader: &mut Reader, at: usize) -> &mut u32 {
    match at {
        0 => &mut reader.asks,
        1 => &mut reader.block,
        _ => &mut reader.numbers[at - 2],
    }
}

/// Each bit of each number, and numbers that are 0, as great as can be, or beside what they were.
#[test]
fn numbers() {
    let mut forged = Forged::new("readers with one number changed");
    let folders = folders(&mut forged.trial.random);
    let path = folders.path();
    let call = Call::new(&folders.card.image, &path, 1000);
    for mut state in some_states(&call) {
        for at in 0..NUMBERS {
            let old = *number(&mut state, at);
            let any = forged.trial.random.number() as u32;
            let beside = [old.wrapping_add(1), old.wrapping_sub(1), 0, u32::MAX, any];
            let bits = (0..32).map(|bit| old ^ 1 << bit);
            for new in bits.chain(beside) {
                *number(&mut state, at) = new;
                forged.try_state(&call, &state);
            }
            *number(&mut state, at) = old;
        }
    }
    forged.finish(8 * 35 * 37, &[0, 4]);
}

/// A bit or all bits of a byte, anywhere behind the numbers.
#[test]
fn bytes() {
    const TRIES: u64 = 250;
    let mut forged = Forged::new("readers with one byte changed");
    let folders = folders(&mut forged.trial.random);
    let path = folders.path();
    let call = Call::new(&folders.card.image, &path, 1000);
    for state in some_states(&call) {
        for _ in 0..forged.trial.times(TRIES) {
            let random = &mut forged.trial.random;
            let mut reader = state.clone();
            let at = random.below(reader.bytes.len() as u64) as usize;
            let bits = [0xFF, 1 << random.below(8)][random.below(2) as usize];
            reader.bytes[at] ^= bits;
            forged.try_state(&call, &reader);
        }
    }
    forged.finish(8 * TRIES, &[0, 4]);
}

/// Random bytes all over, random bytes behind a state's numbers, random numbers before its bytes, and all alike.
#[test]
fn whole_states() {
    const TRIES: u64 = 300;
    let mut forged = Forged::new("readers of any bytes");
    let folders = folders(&mut forged.trial.random);
    let path = folders.path();
    let call = Call::new(&folders.card.image, &path, 1000);
    let states = some_states(&call);
    for byte in [0x00, 0x01, 0x7F, 0x80, 0xFF] {
        let alike = Reader::from_state(&[byte; size_of::<Reader>()]);
        forged.try_state(&call, &alike);
    }
    for n in 0..forged.trial.times(TRIES) {
        let any = Reader::from_state(&forged.trial.random.bytes(size_of::<Reader>()));
        let state = states[n as usize % states.len()].clone();
        let small = any.numbers.map(|number| number % 600);
        let with_bytes = Reader {
            bytes: any.bytes,
            ..state.clone()
        };
        let with_numbers = Reader {
            numbers: any.numbers,
            ..state.clone()
        };
        let with_small_numbers = Reader {
            numbers: small,
            ..state
        };
        for reader in [any, with_bytes, with_numbers, with_small_numbers] {
            forged.try_state(&call, &reader);
        }
    }
    forged.finish(TRIES * 4, &[4]);
}

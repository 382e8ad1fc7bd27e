//! Keep files that the library writes, compared with the reference's and with what the paper lays out: the result
//! numbers, and every byte of the lent room.

use crate::calls::answers::Answers;
use crate::calls::keep_parts::Parts;
use crate::calls::lent::{Pattern, Slice};
use crate::calls::pulls::{Call, Outcome};
use crate::sizes::keep_length;
use crate::trial::{Random, Trial};
use crate::{KeepFields, Kept, Pulled};

/// A longer room has up to so many bytes more than it needs.
const MOST_SPARE: u64 = 5000;
const MOST_SHIFT: u64 = 16;
/// Of the room where there is no file.
const SOME_BYTES: usize = 5000;

/// A keep file, or the answer that comes in its place.
pub type KeepFile = Result<Vec<u8>, u32>;

/// The library's writer, or the reference's.
pub type Keep = fn(&[u8], &[u8], u32, &mut [u8]) -> Kept;

pub fn reference_keep(image: &[u8], path: &[u8], index: u32, room: &mut [u8]) -> Kept {
    let kept = reference::keep::keep(image, path, index, room);
    Kept {
        answer: kept.answer,
        length: kept.length,
    }
}

/// What the library writes into a room of so many bytes.
pub fn written(call: &Call, room: usize) -> KeepFile {
    let mut file = vec![0; room];
    let kept = crate::keep(call.bytes, call.name, call.index, &mut file);
    match kept.answer {
        0 => Ok(file[..kept.length as usize].to_vec()),
        answer => Err(answer),
    }
}

/// How many bytes the file of a pull has.
pub fn length_of(call: &Call, pulled: &Pulled) -> usize {
    let path_len = call.name.len() as u32;
    keep_length(path_len, pulled.node_count, pulled.block_count) as usize
}

/// What a call returned, and the lent room after it.
#[derive(Debug, PartialEq, Eq)]
struct InRoom {
    kept: Kept,
    room: Slice,
}

impl InRoom {
    fn of(keep: Keep, call: &Call, mut room: Slice) -> InRoom {
        let kept = keep(call.bytes, call.name, call.index, room.lend());
        InRoom { kept, room }
    }

    /// By the paper: a file that fits is at the start of the room, and nothing else is written.
    fn told(file: &KeepFile, mut room: Slice) -> InRoom {
        let (answer, length) = match file {
            Ok(file) if file.len() > room.bytes().len() => (17, 0),
            Ok(file) => {
                room.lend()[..file.len()].copy_from_slice(file);
                (0, file.len())
            }
            Err(answer) => (*answer, 0),
        };
        let length = length as u32;
        InRoom {
            kept: Kept { answer, length },
            room,
        }
    }
}

/// What the paper says of a call, by a pull: its answer, the file, and what reading that gives.
struct Told {
    answer: u32,
    file: KeepFile,
    fields: Option<KeepFields>,
}

impl Told {
    fn of(call: &Call) -> Told {
        let pull = Outcome::of(crate::pull, call, call.least());
        let answer = pull.pulled.answer;
        let parts = pull.opened().then(|| Parts::of_pull(call, &pull));
        Told {
            answer,
            file: parts.as_ref().map(Parts::laid_out).ok_or(answer),
            fields: parts.as_ref().map(Parts::fields),
        }
    }
}

pub struct Keeps {
    pub trial: Trial,
    /// Of the pulls.
    answers: Answers,
}

impl Keeps {
    pub fn new(name: &'static str) -> Keeps {
        Keeps {
            trial: Trial::new(name),
            answers: Answers::default(),
        }
    }

    /// Compares the file of a pull with the reference's and with the paper's, in rooms around its length. Reading it
    /// gives it back.
    pub fn compare(&mut self, call: &Call) {
        self.check_around(call, &Told::of(call));
    }

    /// Compares also the pull's answer with the one that the paper gives.
    pub fn expect(&mut self, call: &Call, answer: u32) {
        let told = self.told(call, answer);
        self.check_around(call, &told);
    }

    /// The same in rooms of these lengths.
    pub fn expect_in(&mut self, lens: &[usize], call: &Call, answer: u32) {
        let told = self.told(call, answer);
        let patterns = [Pattern::Plain, Pattern::Inverted].into_iter().cycle();
        let rooms = lens.iter().zip(patterns);
        let rooms = rooms.map(|(&len, pattern)| Slice::new(len, pattern, 0));
        self.check(call, &told, rooms.collect());
    }

    fn told(&mut self, call: &Call, answer: u32) -> Told {
        let told = Told::of(call);
        self.trial.check(("pull", call), told.answer, answer);
        told
    }

    fn check_around(&mut self, call: &Call, told: &Told) {
        let len = told.file.as_ref().map_or(SOME_BYTES, Vec::len);
        let rooms = around(len, &mut self.trial.random);
        self.check(call, told, rooms.to_vec());
    }

    fn check(&mut self, call: &Call, told: &Told, rooms: Vec<Slice>) {
        self.answers.note(told.answer);
        self.check_read(call, told);
        let [library, reference] = [crate::keep as Keep, reference_keep].map(|keep| {
            let rooms = rooms.iter().cloned();
            rooms.map(|room| InRoom::of(keep, call, room)).collect()
        });
        let rooms = rooms.into_iter();
        let told: Vec<_> = rooms.map(|room| InRoom::told(&told.file, room)).collect();
        let library: Vec<_> = library;
        self.trial.compare(
            call,
            (&library, "by the paper", &library),
            (&reference, "by the paper", &told),
        );
    }

    fn check_read(&mut self, call: &Call, told: &Told) {
        if let Ok(file) = &told.file {
            let read = Some(crate::keep_read(file));
            self.trial.check(("read", call), read, told.fields);
        }
    }

    /// Ends the trial, in which pulls with each of these answers have to have come up.
    pub fn finish(self, at_least: u64, answers: &[u32]) {
        self.trial.finish(at_least);
        self.answers.finish(answers);
    }
}

/// Just enough, more, a byte too little, and nothing.
fn around(len: usize, random: &mut Random) -> [Slice; 4] {
    let spare = random.below(MOST_SPARE) as usize;
    let shift = random.below(MOST_SHIFT) as usize;
    [
        Slice::new(len, Pattern::Plain, 0),
        Slice::new(len + spare, Pattern::Inverted, shift),
        Slice::new(len - 1, Pattern::Inverted, 0),
        Slice::new(0, Pattern::Plain, shift),
    ]
}

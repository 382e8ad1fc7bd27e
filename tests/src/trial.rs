//! A trial compares the library with the reference on many inputs. Its random numbers come from a
//! seed that it prints, so that a failure can be run again:
//!
//!     HARPTIMBER_SEED=7 HARPTIMBER_ROUNDS=100 cargo test --release -- --nocapture

use std::fmt::Debug;

const DEFAULT_SEED: u64 = 1;
const MOST_MISMATCHES: usize = 10;

/// Splitmix64.
pub struct Random(u64);

impl Random {
    pub fn new(seed: u64) -> Random {
        Random(seed)
    }

    pub fn number(&mut self) -> u64 {
        self.0 = self.0.wrapping_add(0x9E37_79B9_7F4A_7C15);
        let mut mixed = self.0;
        mixed = (mixed ^ (mixed >> 30)).wrapping_mul(0xBF58_476D_1CE4_E5B9);
        mixed = (mixed ^ (mixed >> 27)).wrapping_mul(0x94D0_49BB_1331_11EB);
        mixed ^ (mixed >> 31)
    }

    /// A number from 0 to `bound` - 1.
    pub fn below(&mut self, bound: u64) -> u64 {
        self.number() % bound
    }

    pub fn bytes(&mut self, len: usize) -> Vec<u8> {
        (0..len).map(|_| self.number() as u8).collect()
    }
}

pub struct Trial {
    name: &'static str,
    seed: u64,
    rounds: u64,
    compared: u64,
    mismatches: Vec<String>,
    pub random: Random,
}

impl Trial {
    pub fn new(name: &'static str) -> Trial {
        let seed = setting("HARPTIMBER_SEED", DEFAULT_SEED);
        Trial {
            name,
            seed,
            rounds: setting("HARPTIMBER_ROUNDS", 1),
            compared: 0,
            mismatches: Vec::new(),
            random: Random::new(seed),
        }
    }

    /// How often to run a random part that runs `times` by default.
    pub fn times(&self, times: u64) -> u64 {
        times * self.rounds
    }

    pub fn compare<T: PartialEq + Debug>(&mut self, input: impl Debug, library: T, reference: T) {
        self.compared += 1;
        self.check(input, library, reference);
    }

    /// The same of something else that has to hold of an input. It isn't counted.
    pub fn check<T: PartialEq + Debug>(&mut self, input: impl Debug, library: T, reference: T) {
        if library != reference {
            let both = format!("library   {library:?}\n    reference {reference:?}");
            self.mismatches.push(format!("{input:?}\n    {both}"));
        }
        if self.mismatches.len() == MOST_MISMATCHES {
            self.report();
            panic!("{}: stopped after {MOST_MISMATCHES} mismatches", self.name);
        }
    }

    /// Ends the trial. `at_least` is how many inputs it was meant to compare.
    pub fn finish(self, at_least: u64) {
        self.report();
        assert!(
            self.mismatches.is_empty(),
            "{}: the library differs from the reference",
            self.name
        );
        assert!(
            self.compared >= at_least,
            "{}: fewer than {at_least} inputs",
            self.name
        );
    }

    fn report(&self) {
        println!(
            "{}: {} inputs compared, seed {}",
            self.name, self.compared, self.seed
        );
        for mismatch in &self.mismatches {
            println!("  mismatch on {mismatch}");
        }
    }
}

/// A number from the environment.
fn setting(variable: &str, default: u64) -> u64 {
    match std::env::var(variable) {
        Ok(text) => text
            .parse()
            .unwrap_or_else(|_| panic!("{variable} has to be a number, not '{text}'")),
        Err(_) => default,
    }
}

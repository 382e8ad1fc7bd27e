//! Times of contenders: in each column the same sides, say the library and the reference, on a card of
//! another size. They are the processor's times, so that other load on the machine isn't in them, and what
//! comes out is mostly ratios.

use crate::system::processor_time;
use std::hint::black_box;

/// What is timed.
pub type Contender<'a> = Box<dyn FnMut() + 'a>;

pub fn contender<'a, T>(mut call: impl FnMut() -> T + 'a) -> Contender<'a> {
    Box::new(move || {
        black_box(call());
    })
}

/// How often to time: every contender once in each round, as many calls each time.
#[derive(Clone, Copy)]
pub struct Often {
    pub rounds: usize,
    /// Calls that aren't timed, before those that are: without them only the second side might find the card in the caches.
    pub warm: usize,
    pub calls: usize,
}

pub struct Grid {
    /// By column and side, then by round.
    times: Vec<Vec<Vec<f64>>>,
}

impl Grid {
    /// The rounds time all contenders in turn, so that what slows the machine for a while slows all.
    pub fn of(often: Often, mut columns: Vec<Vec<Contender>>) -> Grid {
        let mut round = || -> Vec<Vec<f64>> {
            let column = |sides: &mut Vec<Contender>| {
                let times = sides.iter_mut().map(|side| time(often, side));
                times.collect()
            };
            columns.iter_mut().map(column).collect()
        };
        // The first round fills caches and page tables and isn't counted.
        let mut times: Vec<Vec<Vec<f64>>> = round()
            .iter()
            .map(|sides| vec![Vec::new(); sides.len()])
            .collect();
        for _ in 0..often.rounds {
            for (column, new) in times.iter_mut().zip(round()) {
                for (side, time) in column.iter_mut().zip(new) {
                    side.push(time);
                }
            }
        }
        Grid { times }
    }

    /// In each column, what one side takes as a part of what another takes.
    pub fn parts(&self, of: usize, to: usize) -> Vec<f64> {
        let part = |sides: &Vec<Vec<f64>>| median_part(&sides[of], &sides[to]);
        self.times.iter().map(part).collect()
    }

    /// In each column, what a side takes as a part of what it takes in the first one.
    pub fn growth(&self, side: usize) -> Vec<f64> {
        let first = &self.times[0][side];
        let part = |sides: &Vec<Vec<f64>>| median_part(&sides[side], first);
        self.times.iter().map(part).collect()
    }

    /// In each column but the first, what a side takes more than in the first, as a part of what another
    /// takes more.
    pub fn added(&self, of: usize, to: usize) -> Vec<f64> {
        let later = 1..self.times.len();
        later
            .map(|column| self.more(column, of) / self.more(column, to))
            .collect()
    }

    /// In each column but the first, what a side takes more than in the first for each that the size is
    /// greater, as a part of the same in the last column. It is 1 where time grows as size does.
    pub fn steepness(&self, side: usize, sizes: &[u32]) -> Vec<f64> {
        let steep = |column: usize| {
            let more = f64::from(sizes[column] - sizes[0]);
            self.more(column, side) / more
        };
        let last = steep(self.times.len() - 1);
        let later = 1..self.times.len();
        later.map(|column| steep(column) / last).collect()
    }

    /// In each column, what a side takes in a round, in seconds.
    pub fn medians(&self, side: usize) -> Vec<f64> {
        let median = |sides: &Vec<Vec<f64>>| median(sides[side].clone());
        self.times.iter().map(median).collect()
    }

    /// What a side takes more in a column than in the first one.
    fn more(&self, column: usize, side: usize) -> f64 {
        let times = self.times[column][side].iter().zip(&self.times[0][side]);
        median(times.map(|(later, first)| later - first).collect())
    }
}

fn time(often: Often, contender: &mut Contender) -> f64 {
    (0..often.warm).for_each(|_| contender());
    let start = processor_time();
    (0..often.calls).for_each(|_| contender());
    // A clock that hasn't moved must not divide by zero.
    (processor_time() - start).max(1e-6)
}

fn median_part(of: &[f64], to: &[f64]) -> f64 {
    median(of.iter().zip(to).map(|(of, to)| of / to).collect())
}

fn median(mut values: Vec<f64>) -> f64 {
    values.sort_by(f64::total_cmp);
    values[values.len() / 2]
}

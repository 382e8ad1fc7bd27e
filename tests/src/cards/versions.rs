//! The versions of a card's two packs, and which of them is in use. After FFFFFFFFFFFFFFFF comes 0.

use crate::calls::answers::Answers;
use crate::cards::image::Image;
use crate::cards::random::pick;
use crate::trial::Random;

/// At this difference neither of two versions is newer.
pub const HALF: u64 = 1 << 63;

/// Which of two packs that pass is in use: "The kernel takes the 64-bit difference, wrapped, as a signed
/// number: the second pack wins exactly if second minus first is above zero." Here it is counted in steps
/// up from the first to the second: above zero are 1 to 2^63 - 1 of them.
pub fn of_two([first, second]: [u64; 2]) -> usize {
    let round = 1 << 64;
    let steps_up = (round + u128::from(second) - u128::from(first)) % round;
    usize::from((1..round / 2).contains(&steps_up))
}

/// The same of the packs that are there.
pub fn of_those_there(versions: [Option<u64>; 2]) -> Option<usize> {
    match versions {
        [Some(first), Some(second)] => Some(of_two([first, second])),
        [first, second] => first.map(|_| 0).or(second.map(|_| 1)),
    }
}

/// How many there are below.
pub const PAIRS: u64 = 26;

/// Versions of two packs, and which of the two they choose: the papers' own, and others beside them.
pub const CHOSEN: [([u64; 2], usize); PAIRS as usize] = [
    // "Versions 5 and 5: first pack."
    ([5, 5], 0),
    ([5, 6], 1),
    ([6, 5], 0),
    ([0xFFFF_FFFF_FFFF_FFFF, 0xFFFF_FFFF_FFFF_FFFF], 0),
    // "Versions FFFFFFFFFFFFFFFF and 0 choose the 0."
    ([0xFFFF_FFFF_FFFF_FFFF, 0], 1),
    ([0, 0xFFFF_FFFF_FFFF_FFFF], 0),
    ([0xFFFF_FFFF_FFFF_FFFF, 1], 1),
    ([1, 0xFFFF_FFFF_FFFF_FFFF], 0),
    // "A difference of exactly 2^63 keeps the first pack."
    ([0, 0x8000_0000_0000_0000], 0),
    ([0x8000_0000_0000_0000, 0], 0),
    ([5, 0x8000_0000_0000_0005], 0),
    ([0x8000_0000_0000_0005, 5], 0),
    ([0x7FFF_FFFF_FFFF_FFFF, 0xFFFF_FFFF_FFFF_FFFF], 0),
    ([0xFFFF_FFFF_FFFF_FFFF, 0x7FFF_FFFF_FFFF_FFFF], 0),
    // One less than that, and one more.
    ([5, 0x8000_0000_0000_0004], 1),
    ([0x8000_0000_0000_0004, 5], 0),
    ([5, 0x8000_0000_0000_0006], 0),
    ([0x8000_0000_0000_0006, 5], 1),
    // Where a signed number goes on from its greatest to its least.
    ([0x7FFF_FFFF_FFFF_FFFF, 0x8000_0000_0000_0000], 1),
    ([0x8000_0000_0000_0000, 0x7FFF_FFFF_FFFF_FFFF], 0),
    // In 32 bits the difference would be below zero, zero, or above.
    ([0, 0x8000_0000], 1),
    ([0, 0x0000_0001_0000_0000], 1),
    ([0x0000_0001_0000_0000, 1], 0),
    // The halves of 32 bits say the opposite of each other.
    ([0x0000_0001_0000_0002, 0x0000_0002_0000_0001], 1),
    ([0x0000_0002_0000_0001, 0x0000_0001_0000_0002], 0),
    ([0x0000_0001_FFFF_FFFF, 0x0000_0002_0000_0000], 1),
];

/// How the versions of two packs lie to each other.
#[derive(Clone, Copy, Debug, PartialEq, Eq, PartialOrd, Ord)]
pub enum Apart {
    Same,
    Half {
        second_greater: bool,
    },
    /// Over the wrap the newer one is the smaller number.
    Newer {
        which: usize,
        wrapped: bool,
    },
}

impl Apart {
    pub const ALL: [Apart; 7] = [
        Apart::Same,
        Apart::half(false),
        Apart::half(true),
        Apart::newer(0, false),
        Apart::newer(0, true),
        Apart::newer(1, false),
        Apart::newer(1, true),
    ];

    const fn half(second_greater: bool) -> Apart {
        Apart::Half { second_greater }
    }

    const fn newer(which: usize, wrapped: bool) -> Apart {
        Apart::Newer { which, wrapped }
    }

    pub fn of(versions: [u64; 2]) -> Apart {
        let [first, second] = versions;
        match first ^ second {
            0 => Apart::Same,
            HALF => Apart::half(second > first),
            _ => {
                let which = of_two(versions);
                Apart::newer(which, versions[which] < versions[1 - which])
            }
        }
    }

    /// Any such versions, often at an end of where they can be.
    pub fn any(self, random: &mut Random) -> [u64; 2] {
        let (steps, wrapped) = match self {
            Apart::Same => (0, false),
            Apart::Half { second_greater } => (HALF, !second_greater),
            Apart::Newer { wrapped, .. } => (near_an_end(random, 1, HALF - 1), wrapped),
        };
        let last = u64::MAX - steps;
        let older = match wrapped {
            true => near_an_end(random, last + 1, u64::MAX),
            false => near_an_end(random, 0, last),
        };
        let mut versions = [older, older.wrapping_add(steps)];
        if let Apart::Newer { which: 0, .. } = self {
            versions.reverse();
        }
        versions
    }
}

/// A number from `least` to `most`, mostly near one of the two.
fn near_an_end(random: &mut Random, least: u64, most: u64) -> u64 {
    let steps = most - least;
    let near = random.below(4).min(steps);
    let any = random.below(steps.saturating_add(1));
    pick(random, &[least + near, most - near, least + any])
}

impl Answers<Apart> {
    /// Of a card with two packs, how their versions lie to each other.
    pub fn note_versions(&mut self, image: &Image) {
        if let [Some(first), Some(second)] = image.versions() {
            self.note(Apart::of([first, second]));
        }
    }
}

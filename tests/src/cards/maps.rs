//! Maps of a directory's slots: which of them are in use.

use std::ops::Range;

use crate::cards::layout::dentry::BEFORE_ENTRIES;
use crate::trial::Random;

/// Bits of a map and of the reserved bytes behind it. Those behind the last slot's belong to none.
pub const BITS: usize = 8 * BEFORE_ENTRIES;

/// Whether each slot is in use.
pub type Map = Vec<bool>;

/// So many slots in use, so many free, and so on, or the other way round.
pub fn striped(slots: usize, width: usize, first: bool) -> Map {
    let stripe = |slot: usize| (slot / width % 2 == 0) == first;
    (0..slots).map(stripe).collect()
}

/// Just the slots of a run are in use, or just they aren't.
pub fn with_run(slots: usize, run: Range<usize>, used: bool) -> Map {
    (0..slots).map(|slot| run.contains(&slot) == used).collect()
}

/// All free, all in use, and in turns by the slot, by the byte, and by words of 32 and 64 bits.
pub fn plain(slots: usize) -> Vec<Map> {
    [slots, 1, 8, 32, 64]
        .into_iter()
        .flat_map(|width| [true, false].map(|first| striped(slots, width, first)))
        .collect()
}

/// Where a byte of the map ends, or all of it, and the slots beside.
pub fn byte_edges(slots: usize) -> Vec<usize> {
    edges(slots, 8)
}

/// The same of words of 64 bits.
pub fn word_edges(slots: usize) -> Vec<usize> {
    edges(slots, 64)
}

fn edges(slots: usize, bits: usize) -> Vec<usize> {
    (0..=slots)
        .filter(|slot| [0, 1, bits - 1].contains(&(slot % bits)) || slot + 2 > slots)
        .collect()
}

/// Each run from one of these slots to before another one, which rise.
pub fn runs(ends: &[usize]) -> impl Iterator<Item = Range<usize>> + '_ {
    let from = ends.iter().enumerate();
    from.flat_map(move |(nth, &from)| ends[nth + 1..].iter().map(move |&to| from..to))
}

/// One in so many slots is in use.
pub fn random_map(random: &mut Random, slots: usize, one_in: u64) -> Map {
    (0..slots).map(|_| random.below(one_in) == 0).collect()
}

/// How many slots are in use.
pub fn in_use(map: &Map) -> usize {
    map.iter().filter(|&&used| used).count()
}

/// How many runs of free slots there are.
pub fn free_runs(map: &Map) -> usize {
    map.split(|&used| used)
        .filter(|run| !run.is_empty())
        .count()
}

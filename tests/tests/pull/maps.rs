//! Pull: maps of every shape in the blocks of a root directory, over entries of one slot, and random blocks.

use harptimber_tests::calls::pulls::Pulls;
use harptimber_tests::cards::card::ROOT;
use harptimber_tests::cards::deep::{all_blocks, Deep};
use harptimber_tests::cards::dentry::Dentry;
use harptimber_tests::cards::dentry_block::{aside, leftovers, DentryBlock, Mixture};
use harptimber_tests::cards::directory::{in_slot, DirLevel};
use harptimber_tests::cards::layout::dentry::{IN_BLOCK, NAME_LEN};
use harptimber_tests::cards::maps::*;
use harptimber_tests::cards::one_file::NAME;

const SLOTS: usize = IN_BLOCK.slots;
/// Both blocks of the name's bucket in each of three hash levels.
const LEVELS: u32 = 3;
const BLOCKS: usize = 6;
/// Pulls for a map, and for a map with the name in one of the blocks.
const MISSING: u64 = 1;
const LINKED: u64 = 3;

fn three_levels(pulls: &mut Pulls, dir_level: DirLevel) -> Deep {
    let blocks = all_blocks(dir_level, NAME).into_iter().take(BLOCKS);
    let blocks: Vec<(u32, u32)> = blocks.map(|(level, index)| (level, index as u32)).collect();
    let mut deep = Deep::with(&mut pulls.trial.random, dir_level, 0, NAME, &blocks);
    deep.set_depth(LEVELS);
    deep.card.image.settle("a depth of three");
    deep
}

/// Writes a block over one of the search.
fn put(deep: &mut Deep, bucket: usize, block: &DentryBlock) {
    let at = deep.buckets[bucket].block;
    let image = &mut deep.card.image;
    image.put("directory block", at, 0, block.bytes());
}

/// All blocks of the search have this map, with every bit set behind it. First they are without the name, then one of
/// them has it in its last slot in use, or in the very last if none is, and then that slot is malformed.
fn try_map(pulls: &mut Pulls, deep: &mut Deep, map: &Map, left: &Dentry, with_name: &[usize]) {
    let mut block = DentryBlock::with_map(IN_BLOCK, map, &aside(NAME, ROOT), left);
    block.set_bits(SLOTS..BITS, true);
    for bucket in 0..BLOCKS {
        put(deep, bucket, &block);
    }
    deep.expect_missing(pulls, BLOCKS);
    let slot = map.iter().rposition(|&used| used).unwrap_or(SLOTS - 1);
    for &bucket in with_name {
        let mark = deep.card.image.mark();
        let at = deep.buckets[bucket].block;
        deep.link_in(at, slot, deep.ino);
        deep.expect_found(pulls, bucket);
        deep.card.image.set(at, in_slot(NAME_LEN, slot), 0);
        deep.expect_stopped(pulls, bucket + 1, 14);
        deep.card.image.undo(mark);
    }
    deep.card.image.undo(0);
}

/// The name in each block, behind blocks that are empty, full and in between.
#[test]
fn plain_maps() {
    let mut pulls = Pulls::new("pull by plain maps");
    for level in [0, 3] {
        let mut deep = three_levels(&mut pulls, DirLevel(level));
        for map in plain(SLOTS) {
            for left in leftovers(NAME, ROOT) {
                try_map(&mut pulls, &mut deep, &map, &left, &[0, 1, 2, 3, 4, 5]);
            }
        }
    }
    pulls.finish(2 * 10 * 4 * (MISSING + 6 * LINKED), &[0, 2, 14]);
}

/// The first block's map is another one than that of the others.
#[test]
fn first_block_by_itself() {
    let mut pulls = Pulls::new("pull by plain maps in the first block");
    let mut deep = three_levels(&mut pulls, DirLevel(0));
    let aside = aside(NAME, ROOT);
    for first in plain(SLOTS) {
        for others in plain(SLOTS) {
            for left in leftovers(NAME, ROOT) {
                for bucket in 0..BLOCKS {
                    let map = if bucket == 0 { &first } else { &others };
                    let block = DentryBlock::with_map(IN_BLOCK, map, &aside, &left);
                    put(&mut deep, bucket, &block);
                }
                deep.expect_missing(&mut pulls, BLOCKS);
                deep.link(1, deep.ino);
                deep.expect_found(&mut pulls, 1);
                deep.card.image.undo(0);
            }
        }
    }
    pulls.finish(10 * 10 * 4 * 3, &[0, 2]);
}

/// One slot in use, or one that is free.
#[test]
fn one_slot() {
    let mut pulls = Pulls::new("pull by one slot of the map");
    let mut deep = three_levels(&mut pulls, DirLevel(0));
    let lefts = leftovers(NAME, ROOT);
    for slot in 0..SLOTS {
        for used in [true, false] {
            let map = with_run(SLOTS, slot..slot + 1, used);
            let bucket = slot % BLOCKS;
            try_map(&mut pulls, &mut deep, &map, &lefts[slot % 4], &[bucket]);
        }
    }
    pulls.finish(214 * 2 * (MISSING + LINKED), &[0, 2, 14]);
}

#[test]
fn runs_at_edges() {
    let mut pulls = Pulls::new("pull by runs of slots at the edges of words");
    let mut deep = three_levels(&mut pulls, DirLevel(1));
    for run in runs(&word_edges(SLOTS)) {
        for used in [true, false] {
            let map = with_run(SLOTS, run.clone(), used);
            for left in leftovers(NAME, ROOT) {
                try_map(&mut pulls, &mut deep, &map, &left, &[1, 4]);
            }
        }
    }
    pulls.finish(78 * 2 * 4 * (MISSING + 2 * LINKED), &[0, 2, 14]);
}

/// A random block in each place of the search, of entries of any lengths.
#[test]
fn random_blocks() {
    let mut pulls = Pulls::new("pull by random directory blocks");
    for _ in 0..pulls.trial.times(4) {
        let mut deep = three_levels(&mut pulls, DirLevel(0));
        for mixture in Mixture::all() {
            for bucket in 0..BLOCKS {
                let block = mixture.block(IN_BLOCK, &mut pulls.trial.random, NAME, deep.ino);
                put(&mut deep, bucket, &block);
            }
            pulls.compare(&deep.card.image, NAME, 0);
            deep.card.image.undo(0);
        }
    }
    pulls.finish(4 * 60, &[0, 2, 14]);
}

//! Scan: maps of every shape, over entries of one slot. What stands in the free slots isn't looked at.

use crate::cards::dentry::Dentry;
use crate::cards::dentry_block::{aside, leftovers, DentryBlock};
use crate::cards::layout::dentry::{Layout, IN_BLOCK, IN_INODE, LAYOUTS, LONGEST_NAME};
use crate::cards::maps::*;
use crate::scans::{found, malformed, missing, Scans, INO, NAME};

/// How many turns a scan for a missing name takes.
fn turns(map: &Map) -> usize {
    in_use(map) + free_runs(map)
}

fn expect_missing(scans: &mut Scans, layout: Layout, map: &Map, left: &Dentry) {
    let block = DentryBlock::with_map(layout, map, &aside(NAME, INO), left);
    scans.expect(&block, NAME, missing(turns(map)));
}

#[test]
fn plain_maps() {
    let mut scans = Scans::new("scan by plain maps");
    for layout in LAYOUTS {
        for map in plain(layout.slots) {
            for left in leftovers(NAME, INO) {
                expect_missing(&mut scans, layout, &map, &left);
            }
        }
    }
    scans.finish(2 * 10 * 4, &[2]);
}

/// All slots are free: one run, and so one turn.
#[test]
fn one_run_over_all_slots() {
    let mut scans = Scans::new("scan by one run over all slots");
    for layout in LAYOUTS {
        for byte in [0, 0xFF] {
            scans.expect(&DentryBlock::free(layout, byte), NAME, missing(1));
        }
        let mut block = DentryBlock::free(layout, 0);
        block.put(layout.slots - 1, &Dentry::new(NAME, INO));
        scans.expect(&block, NAME, found(INO, 2));
    }
    scans.finish(2 * 3, &[0, 2]);
}

/// In the one slot is another entry, the one sought, or one that is malformed.
#[test]
fn one_slot_in_use() {
    let mut scans = Scans::new("scan by one slot in use");
    let sought = Dentry::new(NAME, INO);
    for (layout, slot) in every_slot() {
        let map = with_run(layout.slots, slot..slot + 1, true);
        let before = usize::from(slot > 0);
        for left in leftovers(NAME, !INO) {
            expect_missing(&mut scans, layout, &map, &left);
            let mut block = DentryBlock::with_map(layout, &map, &sought, &left);
            scans.expect(&block, NAME, found(INO, before + 1));
            for len in [0, LONGEST_NAME + 1, 0xFFFF] {
                block.set_len(slot, len);
                scans.expect(&block, NAME, malformed(before + 1));
            }
        }
    }
    scans.finish((214 + 182) * 4 * 5, &[0, 2, 14]);
}

fn every_slot() -> impl Iterator<Item = (Layout, usize)> {
    let slots = |layout: Layout| (0..layout.slots).map(move |slot| (layout, slot));
    LAYOUTS.into_iter().flat_map(slots)
}

#[test]
fn one_free_slot() {
    let mut scans = Scans::new("scan by one free slot");
    for (layout, slot) in every_slot() {
        for left in leftovers(NAME, INO) {
            let map = with_run(layout.slots, slot..slot + 1, false);
            expect_missing(&mut scans, layout, &map, &left);
        }
    }
    scans.finish((214 + 182) * 4, &[2]);
}

/// At every distance, from every slot. The second one is now another entry and now the one sought.
#[test]
fn two_slots_in_use() {
    let mut scans = Scans::new("scan by two slots in use");
    let lefts = leftovers(NAME, !INO);
    for (layout, first) in every_slot() {
        for second in first + 1..layout.slots {
            let mut map = with_run(layout.slots, first..first + 1, true);
            map[second] = true;
            let left = &lefts[(first + second) % 4];
            let mut block = DentryBlock::with_map(layout, &map, &aside(NAME, INO), left);
            scans.expect(&block, NAME, missing(turns(&map)));
            block.write(second, &Dentry::new(NAME, INO));
            let behind = usize::from(second + 1 < layout.slots);
            scans.expect(&block, NAME, found(INO, turns(&map) - behind));
        }
    }
    scans.finish(214 * 213 + 182 * 181, &[0, 2]);
}

/// Every run of free slots in a full block, and every run in use in an empty one.
#[test]
fn every_run() {
    let mut scans = Scans::new("scan by every run of slots");
    let lefts = leftovers(NAME, INO);
    for layout in LAYOUTS {
        let ends: Vec<usize> = (0..=layout.slots).collect();
        for run in runs(&ends) {
            let left = &lefts[(run.start + run.end) % 4];
            for used in [true, false] {
                let map = with_run(layout.slots, run.clone(), used);
                expect_missing(&mut scans, layout, &map, left);
            }
        }
    }
    scans.finish(215 * 214 + 183 * 182, &[2]);
}

/// At the edges of bytes and words, over all that may stand in the free slots; and the entry sought is right behind the
/// run, or the run's last slot.
#[test]
fn runs_at_edges() {
    let mut scans = Scans::new("scan by runs at the edges of bytes and words");
    let (aside, sought) = (aside(NAME, !INO), Dentry::new(NAME, INO));
    for layout in LAYOUTS {
        for run in runs(&byte_edges(layout.slots)) {
            let [free, used] = [false, true].map(|used| with_run(layout.slots, run.clone(), used));
            for left in leftovers(NAME, !INO) {
                let mut block = DentryBlock::with_map(layout, &used, &aside, &left);
                block.write(run.end - 1, &sought);
                let before = usize::from(run.start > 0);
                scans.expect(&block, NAME, found(INO, before + run.len()));
                if run.end < layout.slots {
                    let mut block = DentryBlock::with_map(layout, &free, &aside, &left);
                    block.write(run.end, &sought);
                    scans.expect(&block, NAME, found(INO, run.start + 2));
                }
            }
        }
    }
    // Of the 82 edges and the 70, with the last one no slot is behind the run.
    scans.finish(4 * (82 * 81 - 81 + 70 * 69 - 69), &[0]);
}

/// Bits 214 and 215, or 182 and 183, and the reserved bytes belong to no slot, whatever would be their entries.
fn expect_behind(scans: &mut Scans, layout: Layout, map: &Map) {
    let slots = layout.slots;
    let mapped = 8 * layout.map_bytes;
    let single = (slots..BITS).map(|bit| bit..bit + 1);
    let behind: Vec<_> = single
        .chain([slots..mapped, mapped..BITS, slots..BITS, slots..slots])
        .collect();
    for no_entry in leftovers(NAME, INO) {
        let mut block = DentryBlock::with_map(layout, map, &aside(NAME, INO), &no_entry);
        for slot in [slots, slots + 1] {
            block.write(slot, &no_entry);
        }
        for set in &behind {
            let mut block = block.clone();
            block.set_bits(slots..BITS, false);
            block.set_bits(set.clone(), true);
            scans.expect(&block, NAME, missing(turns(map)));
        }
    }
}

#[test]
fn bits_behind_the_slots() {
    let mut scans = Scans::new("scan by bits behind the slots");
    for (layout, ends, starts) in [
        (IN_BLOCK, [207, 208, 212, 213, 214], [208, 213]),
        (IN_INODE, [175, 176, 180, 181, 182], [176, 181]),
    ] {
        let slots = layout.slots;
        let by_runs = ends.map(|end| [true, false].map(|used| with_run(slots, 100..end, used)));
        let to_the_end = starts.map(|start| with_run(slots, start..slots, true));
        for map in plain(slots)
            .into_iter()
            .chain(by_runs.concat())
            .chain(to_the_end)
        {
            expect_behind(&mut scans, layout, &map);
        }
    }
    scans.finish((10 + 10 + 2) * 4 * (30 + 62), &[2]);
}

#[test]
fn random_maps() {
    let mut scans = Scans::new("scan by random maps");
    let lefts = leftovers(NAME, INO);
    for _ in 0..scans.trial.times(500) {
        for layout in LAYOUTS {
            for one_in in [1, 2, 3, 5, 9, 20, 60, 214] {
                let random = &mut scans.trial.random;
                let map = random_map(random, layout.slots, one_in);
                let left = &lefts[random.below(4) as usize];
                expect_missing(&mut scans, layout, &map, left);
            }
        }
    }
    scans.finish(2 * 500 * 8, &[2]);
}

//! Scan: "A block's scan counts its turns, one an entry looked at and one a run skipped: at most 2e + 1 for e entries."

use crate::cards::dentry::Dentry;
use crate::cards::dentry_block::{aside, DentryBlock};
use crate::cards::layout::dentry::{Layout, IN_BLOCK, IN_INODE};
use crate::scans::{found, missing, Scans, INO, NAME};

/// So many entries of so many slots, each behind so many free ones.
fn apart(layout: Layout, entries: usize, slots: usize, free: usize) -> DentryBlock {
    let mut block = DentryBlock::free(layout, 0xFF);
    for nth in 0..entries {
        let mut dentry = aside(NAME, INO);
        dentry.len = 8 * slots - 1;
        block.put(nth * (free + slots) + free, &dentry);
    }
    block
}

/// With a free slot before, between and behind its entries, a scan takes all of the 2e + 1 turns: fewer aren't enough.
/// So it is for none, and for each number that fits.
#[test]
fn bound_is_met() {
    let mut scans = Scans::new("scan that takes the most turns");
    // Slots of an entry, and how many such fit.
    let in_block = [(1, 106), (2, 71), (5, 35), (32, 6)];
    let in_inode = [(1, 90), (2, 60), (5, 30), (32, 5)];
    for (layout, entries) in [(IN_BLOCK, in_block), (IN_INODE, in_inode)] {
        for (slots, most) in entries {
            for (entries, free) in (0..=most).flat_map(|n| [1, 2, 3].map(|free| (n, free))) {
                if entries * (free + slots) < layout.slots {
                    let block = apart(layout, entries, slots, free);
                    scans.expect(&block, NAME, missing(2 * entries + 1));
                }
            }
            let one_more = (most + 1) * (1 + slots);
            assert!(layout.slots < one_more + 1, "{most} is the most");
        }
    }
    scans.finish(107 + 72 + 36 + 7 + 91 + 61 + 31 + 6, &[2]);
}

/// Fewer where the scan ends at the name, or where the first slot or the last is in use; where all are there are just
/// the entries.
#[test]
fn below_the_bound() {
    let mut scans = Scans::new("scan that takes fewer turns");
    for (layout, most) in [(IN_BLOCK, 106), (IN_INODE, 90)] {
        let slots = layout.slots;
        for entries in 1..=most {
            let mut block = apart(layout, entries, 1, 1);
            block.write(2 * entries - 1, &Dentry::new(NAME, INO));
            scans.expect(&block, NAME, found(INO, 2 * entries));
            let mut block = apart(layout, entries, 1, 1);
            block.put(0, &aside(NAME, INO));
            scans.expect(&block, NAME, missing(2 * (entries + 1) - 1));
            let mut block = apart(layout, entries - 1, 1, 1);
            block.put(slots - 1, &aside(NAME, INO));
            scans.expect(&block, NAME, missing(2 * entries));
        }
        scans.expect(&apart(layout, slots, 1, 0), NAME, missing(slots));
    }
    scans.finish((106 + 90) * 3 + 2, &[0, 2]);
}

//! Scan: entries of every length, with any bits in the map for the slots that they take after their first.

use crate::cards::dentry::Dentry;
use crate::cards::dentry_block::{aside, DentryBlock};
use crate::cards::layout::dentry::{Layout, LAYOUTS, LONGEST_NAME, SLOT_LEN};
use crate::cards::names::{colliding_names, good_name};
use crate::scans::{found, malformed, missing, Scans, INO, NAME};
use crate::trial::Random;

/// Puts an entry, and sets or clears the bits of the slots that it takes after its first.
fn put_whole(block: &mut DentryBlock, slot: usize, dentry: &Dentry, inside: impl FnMut() -> bool) {
    block.put(slot, dentry);
    let further = slot + 1..block.layout.slots.min(slot + dentry.slots());
    for (slot, set) in further.zip(std::iter::repeat_with(inside)) {
        block.set_bit(slot, set);
    }
}

/// Whether there are free slots.
fn run(slots: std::ops::Range<usize>) -> usize {
    usize::from(!slots.is_empty())
}

/// A name at the first slots, at the last slot that it fits, and one further.
fn expect_name(scans: &mut Scans, layout: Layout, name: &[u8], absent: &[u8]) {
    let dentry = Dentry::new(name, INO);
    let last = layout.slots - dentry.slots();
    for slot in [0, 1, 64.min(last), last] {
        let turns = run(0..slot) + 1;
        let behind = run(slot + dentry.slots()..layout.slots);
        for (byte, set) in [(0, true), (0xFF, true), (0, false), (0xFF, false)] {
            let mut block = DentryBlock::free(layout, byte);
            put_whole(&mut block, slot, &dentry, || set);
            scans.expect(&block, name, found(INO, turns));
            scans.expect(&block, absent, missing(turns + behind));
        }
    }
    let mut block = DentryBlock::free(layout, 0);
    if last + 1 < layout.slots {
        put_whole(&mut block, last + 1, &dentry, || true);
        scans.expect(&block, name, malformed(2));
    }
}

#[test]
fn every_length() {
    let mut scans = Scans::new("scan by name length");
    for len in 1..=LONGEST_NAME {
        let name = good_name(&mut scans.trial.random, len);
        let absent = good_name(&mut scans.trial.random, 256 - len);
        for layout in LAYOUTS {
            expect_name(&mut scans, layout, &name, &absent);
        }
    }
    scans.finish(2 * (255 * 4 * 4 * 2 + 247), &[0, 2, 14]);
}

/// Lengths that no name has, at every slot, in front of the one sought.
#[test]
fn malformed_lengths() {
    let mut scans = Scans::new("scan by lengths that no name has");
    for layout in LAYOUTS {
        for slot in 0..layout.slots {
            for len in [0, 256, 257, 264, 511, 512, 4096, 0x8001, 0xFF08, 0xFFFF] {
                let mut block = DentryBlock::free(layout, 0);
                if slot + 1 < layout.slots {
                    block.put(slot + 1, &Dentry::new(NAME, INO));
                }
                let dentry = aside(NAME, INO);
                block.put(slot, &Dentry { len, ..dentry });
                scans.expect(&block, NAME, malformed(run(0..slot) + 1));
            }
        }
    }
    scans.finish((214 + 182) * 10, &[14]);
}

/// An entry that takes so many slots and ends with the last, or is one byte too long for that, behind a run and so many
/// others.
fn expect_at_end(scans: &mut Scans, layout: Layout, slots: usize, others: usize) {
    let slot = layout.slots - slots;
    let most = (SLOT_LEN * slots).min(LONGEST_NAME);
    let mut block = DentryBlock::free(layout, 0xFF);
    for other in slot - others..slot {
        block.put(other, &aside(NAME, INO));
    }
    let turns = run(0..slot - others) + others + 1;
    for len in [SLOT_LEN * slots - 7, most, most + 1] {
        let name = good_name(&mut scans.trial.random, len);
        block.put(slot, &Dentry::new(&name, INO));
        let sought = &name[..len.min(LONGEST_NAME)];
        let paper = if len > most {
            malformed(turns)
        } else {
            found(INO, turns)
        };
        scans.expect(&block, sought, paper);
    }
}

#[test]
fn ends_of_the_block() {
    let mut scans = Scans::new("scan by entries at the last slots");
    for layout in LAYOUTS {
        for slots in 1..=32 {
            let before = layout.slots - slots;
            for others in [0, 1, before / 2, before] {
                expect_at_end(&mut scans, layout, slots, others);
            }
        }
    }
    scans.finish(2 * 32 * 4 * 3, &[0, 14]);
}

/// The slots behind an entry's first aren't looked at: neither the entry sought nor a malformed one.
#[test]
fn slots_inside_an_entry() {
    let mut scans = Scans::new("scan by slots inside an entry");
    for slots in 2..=32 {
        let long = Dentry::new(&good_name(&mut scans.trial.random, 8 * slots - 1), !INO);
        for (slot, inside) in [1, slots / 2, slots - 1].map(|by| (60, 60 + by)) {
            for (layout, set) in LAYOUTS
                .map(|layout| [(layout, true), (layout, false)])
                .concat()
            {
                let mut block = DentryBlock::free(layout, 0);
                put_whole(&mut block, slot, &long, || set);
                block.write(inside, &Dentry::new(NAME, !INO));
                scans.expect(&block, NAME, missing(3));
                block.set_len(inside, 0);
                scans.expect(&block, NAME, missing(3));
                block.put(slot + slots, &Dentry::new(NAME, INO));
                scans.expect(&block, NAME, found(INO, 3));
            }
        }
    }
    scans.finish(31 * 3 * 4 * 3, &[0, 2]);
}

/// Two names of the same length and hash.
#[test]
fn collisions() {
    let mut scans = Scans::new("scan for names with the same hash");
    for len in [4, 8, 16, 17] {
        let [one, other] = colliding_names(&mut scans.trial.random, len);
        for layout in LAYOUTS {
            let mut block = DentryBlock::free(layout, 0);
            block.put(70, &Dentry::new(&other, !INO));
            scans.expect(&block, &one, missing(3));
            block.put(130, &Dentry::new(&one, INO));
            scans.expect(&block, &one, found(INO, 4));
            scans.expect(&block, &other, found(!INO, 2));
        }
    }
    scans.finish(2 * 4 * 3, &[0, 2]);
}

#[test]
fn near_matches() {
    let mut scans = Scans::new("scan by entries that nearly match");
    for len in (1..=20).chain([64, 254, 255]) {
        let name = good_name(&mut scans.trial.random, len);
        let right = Dentry::new(&name, INO);
        for near in right.near(&mut scans.trial.random) {
            for layout in LAYOUTS {
                let mut block = DentryBlock::free(layout, 0);
                block.put(3, &near);
                scans.expect(&block, &name, missing(3));
                block.put(60, &right);
                scans.expect(&block, &name, found(INO, 4));
            }
        }
    }
    scans.finish(2 * 2 * 23 * 33, &[0, 2]);
}

/// The inode number is handed out as it stands, and the first of two entries decides.
#[test]
fn inode_numbers() {
    let mut scans = Scans::new("scan by inode numbers");
    for layout in LAYOUTS {
        let mut block = DentryBlock::free(layout, 0);
        for slot in (0..layout.slots).rev() {
            for ino in [0, 1, slot as u32, 1 << 31, u32::MAX] {
                block.put(slot, &Dentry::new(NAME, ino));
                scans.expect(&block, NAME, found(ino, run(0..slot) + 1));
            }
        }
    }
    scans.finish((214 + 182) * 5, &[0]);
}

/// A name in a block, its inode number, and the turns up to it.
type Placed = (Vec<u8>, u32, usize);

/// Names of up to so many bytes, each behind up to so many free slots. Returns the turns for all of the block too.
fn laid_out(
    random: &mut Random,
    block: &mut DentryBlock,
    longest: u64,
    most_free: u64,
) -> (Vec<Placed>, usize) {
    let slots = block.layout.slots;
    let bits = random.below(3);
    let (mut names, mut slot, mut turns) = (Vec::<Placed>::new(), 0, 0);
    loop {
        let len = 1 + random.below(longest) as usize;
        let start = slot + random.below(most_free + 1) as usize;
        if start + len.div_ceil(SLOT_LEN) > slots {
            return (names, turns + run(slot..slots));
        }
        let name = good_name(random, len);
        if names.iter().any(|(other, _, _)| *other == name) {
            continue;
        }
        let dentry = Dentry::new(&name, random.number() as u32);
        put_whole(block, start, &dentry, || random.below(2) < bits);
        turns += run(slot..start) + 1;
        slot = start + dentry.slots();
        names.push((name, dentry.ino, turns));
    }
}

/// Each name is sought, and one that isn't there.
fn expect_mixed(scans: &mut Scans, layout: Layout, longest: u64, most_free: u64) {
    let mut block = DentryBlock::free(layout, [0, 0xFF][longest as usize % 2]);
    let random = &mut scans.trial.random;
    let (names, turns) = laid_out(random, &mut block, longest, most_free);
    for (name, ino, turns) in &names {
        scans.expect(&block, name, found(*ino, *turns));
    }
    let absent = good_name(&mut scans.trial.random, LONGEST_NAME);
    scans.expect(&block, &absent, missing(turns));
}

/// From full blocks to nearly empty ones.
#[test]
fn mixed_lengths() {
    let mut scans = Scans::new("scan by names of mixed lengths");
    for _ in 0..scans.trial.times(40) {
        for layout in LAYOUTS {
            for longest in [8, 9, 40, 255] {
                for most_free in [0, 1, 2, 10, 80] {
                    expect_mixed(&mut scans, layout, longest, most_free);
                }
            }
        }
    }
    scans.finish(2 * 40 * 20 * 2, &[0, 2]);
}

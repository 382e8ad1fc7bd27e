//! Random sound cards, and random choices.

use std::ops::RangeInclusive;

use crate::cards::knobs::{Knobs, Pack};
use crate::cards::layout::checkpoint::{ALL_UNREAD, CP_COMPACT_SUM_FLAG};
use crate::cards::layout::journal::{JournalEntry, MOST_ENTRIES};
use crate::cards::layout::nat::NatEntry;
use crate::cards::layout::SEGMENT_BLOCKS;
use crate::cards::versions::Apart;
use crate::sizes::CARD_BLOCKS_MOST;
use crate::trial::Random;

pub fn pick<T: Copy>(random: &mut Random, choices: &[T]) -> T {
    choices[random.below(choices.len() as u64) as usize]
}

pub fn shuffle<T>(random: &mut Random, items: &mut [T]) {
    for last in (1..items.len()).rev() {
        items.swap(last, random.below(last as u64 + 1) as usize);
    }
}

/// A number from `least` to `most`, often one of the two.
pub fn between(random: &mut Random, least: u32, most: u32) -> u32 {
    let any = least + random.below(u64::from(most - least) + 1) as u32;
    pick(random, &[least, most, any, any])
}

/// Any number of the range.
pub fn within(random: &mut Random, range: &RangeInclusive<u64>) -> u64 {
    range.start() + random.below(range.end() - range.start() + 1)
}

/// Everything that the knobs leave open is junk.
pub fn sound_knobs(random: &mut Random) -> Knobs {
    let there = [[true, true], [true, false], [false, true]];
    let copies = pick(random, &there);
    let packs = sound_packs(random);
    Knobs {
        log_sectorsize: between(random, 9, 12),
        segs_per_sec: between(random, 1, u32::MAX),
        secs_per_zone: between(random, 1, u32::MAX),
        segment0: between(random, 2, SEGMENT_BLOCKS),
        ckpt_segments: 2,
        sit_segments: 2 * between(random, 1, 2),
        nat_segments: 2 * between(random, 1, 2),
        ssa_segments: between(random, 0, 1),
        main_segments: between(random, 0, 2),
        spare_segments: between(random, 0, 1),
        spare_blocks: between(random, 0, 3),
        spare_image_blocks: between(random, 0, 3),
        copies,
        packs,
        junk: Some(random.number()),
    }
}

/// The same on a card of more than 1 GiB, whose volume is anywhere on it and as large as it likes.
pub fn large_knobs(random: &mut Random) -> Knobs {
    let small = sound_knobs(random);
    let least = small.image_blocks() - small.segment0;
    // Most of them pass 2^32 bytes.
    let blocks = match random.below(4) {
        0 => 262_145,
        1 => CARD_BLOCKS_MOST,
        _ => 1_048_577 + random.below(u64::from(CARD_BLOCKS_MOST - 1_048_577)) as u32,
    };
    let knobs = Knobs {
        segment0: between(random, 2, blocks - least),
        ..small
    };
    let room = (blocks - knobs.image_blocks()) / SEGMENT_BLOCKS;
    let main_segments = knobs.main_segments + between(random, 0, room);
    knobs.with_segments(main_segments).in_image_of(blocks)
}

/// Every other time two, whose versions lie to each other in any way.
fn sound_packs(random: &mut Random) -> [Option<Pack>; 2] {
    let both = [true, true];
    let there = pick(random, &[both, both, [true, false], [false, true]]);
    let versions = pick(random, &Apart::ALL).any(random);
    [0, 1].map(|which| there[which].then(|| sound_pack(random, versions[which])))
}

fn sound_pack(random: &mut Random, version: u64) -> Pack {
    // Any flags but those that make a pack unreadable.
    let flags = random.number() as u32 & !ALL_UNREAD;
    let compact = flags & CP_COMPACT_SUM_FLAG != 0;
    let total = between(random, if compact { 3 } else { 8 }, SEGMENT_BLOCKS);
    Pack {
        total,
        flags,
        start_sum: if compact {
            between(random, 1, total - 2)
        } else {
            random.number() as u32
        },
        nat_map: random.bytes(256),
        journal: sound_journal(random),
        ..Pack::compact(version)
    }
}

/// Up to full, mostly with small numbers. Each stands there once.
fn sound_journal(random: &mut Random) -> Vec<JournalEntry> {
    let entries = between(random, 0, MOST_ENTRIES as u32) as usize;
    let mut journal: Vec<JournalEntry> = Vec::new();
    while journal.len() < entries {
        let next = journal_entry(random);
        if journal.iter().all(|entry| entry.nid != next.nid) {
            journal.push(next);
        }
    }
    journal
}

fn journal_entry(random: &mut Random) -> JournalEntry {
    let any = random.number() as u32;
    let small = random.below(40) as u32;
    JournalEntry {
        nid: pick(random, &[small, small, any]),
        entry: nat_entry(random),
    }
}

pub fn nat_entry(random: &mut Random) -> NatEntry {
    NatEntry::read(&random.bytes(crate::cards::layout::nat::ENTRY_SIZE))
}

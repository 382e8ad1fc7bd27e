//! Random entries of a card's segments, in its table and in its journal.

use crate::cards::knobs::Knobs;
use crate::cards::layout::sit::{SitEntry, MAP_SIZE, VER_BITMAP_BYTES};
use crate::cards::layout::sit_journal::{SitJournalEntry, MOST_ENTRIES};
use crate::cards::random::pick;
use crate::cards::segments::SegmentCard;
use crate::trial::Random;

/// A card, each of its segments' entries in the table, and its journal.
pub struct RandomSegments {
    pub card: SegmentCard,
    pub table: Vec<SitEntry>,
    pub journal: Vec<SitJournalEntry>,
}

/// Also its map is random. The copies that aren't in use have junk.
pub fn random_segments(random: &mut Random, mut knobs: Knobs) -> RandomSegments {
    for pack in knobs.packs.iter_mut().flatten() {
        pack.sit_map = random.bytes(VER_BITMAP_BYTES);
        pack.sit_journal = Some(sit_journal(random, knobs.main_segments));
    }
    let mut card = SegmentCard::new(&knobs);
    let entries = (0..knobs.main_segments).map(|_| sit_entry(random));
    let table: Vec<SitEntry> = entries.collect();
    for (segno, entry) in (0..).zip(&table) {
        card.set_entry(segno, entry);
    }
    card.image.settle("random entries");
    let (_, pack) = knobs.pack_in_use();
    RandomSegments {
        card,
        table,
        journal: pack.sit_journal.clone().expect("a journal"),
    }
}

/// Often sound; else with a count that is near, or any.
pub fn sit_entry(random: &mut Random) -> SitEntry {
    let bits = [(0xFF, 0x00), (0x11, 0x00), (0xFF, 0xEE), (0, 0), (0, 0xFF)];
    let (and, or) = pick(random, &bits);
    let mut map = [0; MAP_SIZE];
    map.fill_with(|| random.number() as u8 & and | or);
    let sound = SitEntry::of(map);
    let near = [sound.count.max(1) - 1, sound.count + 1];
    let any = random.below(1024) as u16;
    SitEntry {
        count: pick(random, &[sound.count, sound.count, near[0], near[1], any]),
        seg_type: random.below(64) as u16,
        mtime: random.number(),
        ..sound
    }
}

pub fn sit_journal(random: &mut Random, main_segments: u32) -> Vec<SitJournalEntry> {
    let entries = random.below(MOST_ENTRIES as u64 + 1);
    let entry = |_| SitJournalEntry {
        segno: journalled_segment(random, main_segments),
        entry: sit_entry(random),
    };
    (0..entries).map(entry).collect()
}

/// Mostly one that is there, often of the first or the last, so that some have two entries.
fn journalled_segment(random: &mut Random, main_segments: u32) -> u32 {
    let inside = random.below(u64::from(main_segments) + 2) as u32;
    let small = random.below(3) as u32;
    let last = main_segments.wrapping_sub(1 + small);
    let any = random.number() as u32;
    let outside = pick(random, &[main_segments, u32::MAX, any]);
    pick(random, &[inside, inside, small, last, outside])
}

/// The entry of each segment that decides, and whether the journal has it: of two there the first.
pub fn in_use(table: &[SitEntry], journal: &[SitJournalEntry]) -> Vec<(SitEntry, bool)> {
    let decides = |(segno, in_table): (u32, &SitEntry)| {
        let journalled = journal.iter().find(|journalled| journalled.segno == segno);
        journalled.map_or((*in_table, false), |journalled| (journalled.entry, true))
    };
    (0..).zip(table).map(decides).collect()
}

//! The segment table of a card: its entries, both copies of its blocks, the map between them, and the
//! journal.

use crate::cards::image::Image;
use crate::cards::knobs::{Areas, Knobs, Pack};
use crate::cards::layout::checkpoint::SIT_NAT_VERSION_BITMAP;
use crate::cards::layout::sit::{SitEntry, ENTRIES_PER_BLOCK, ENTRY_SIZE};
use crate::cards::layout::sit_journal::{self, SitJournalEntry, MOST_ENTRIES, N_SITS, SEGNO};
use crate::cards::layout::{Field, SEGMENT_BLOCKS};
use crate::cards::random::pick;
use crate::trial::Random;

impl Image {
    /// Where a copy of a table block lies: all first copies, then all second ones.
    pub fn sit_block(&self, table_block: u32, copy: u32) -> u32 {
        let blocks = (self.areas.nat - self.areas.sit) / 2;
        self.areas.sit + copy * blocks + table_block
    }

    /// The block that has a segment's entry, and the entry's first byte there.
    pub fn sit_place(&self, segno: u32, copy: u32) -> (u32, usize) {
        let slot = (segno % ENTRIES_PER_BLOCK) as usize;
        let block = self.sit_block(segno / ENTRIES_PER_BLOCK, copy);
        (block, slot * ENTRY_SIZE)
    }

    pub fn sit_entry(&self, segno: u32, copy: u32) -> SitEntry {
        let (block, at) = self.sit_place(segno, copy);
        SitEntry::read(&self.block(block)[at..])
    }

    pub fn set_sit_entry(&mut self, segno: u32, copy: u32, entry: &SitEntry) {
        let (block, at) = self.sit_place(segno, copy);
        self.put("SIT entry", block, at, &entry.stored());
    }

    pub fn put_sit_journal(&mut self, block: u32, at: usize, entries: &[SitJournalEntry]) {
        self.set(block, N_SITS.moved(at), entries.len() as u64);
        let stored: Vec<u8> = entries.iter().flat_map(|entry| entry.stored()).collect();
        self.put("SIT journal entries", block, at + N_SITS.size, &stored);
    }
}

/// Where a sound card has what its segments are judged by. Damage to the card doesn't move it, so that it
/// can be struck again.
#[derive(Clone, Debug)]
pub struct Sit {
    pub main_segments: u32,
    /// The first block of the pack in use, which has the SIT map.
    pub first_block: u32,
    /// The block of the journal in use, and the journal's first byte there.
    pub journal: (u32, usize),
    pack: Pack,
}

impl Sit {
    pub fn of(image: &Image) -> Sit {
        let which = image.pack_in_use();
        let (first_block, pack) = (image.first_block(which), image.pack(which));
        let (block, at) = pack.sit_journal_place().expect("a journal");
        Sit {
            main_segments: (image.areas.main_end - image.areas.main) / SEGMENT_BLOCKS,
            first_block,
            journal: (first_block + block, at),
            pack,
        }
    }

    pub fn map(&self) -> &[u8] {
        &self.pack.sit_map
    }

    /// Which copy of the table has a segment's entry in use.
    pub fn copy_of(&self, segno: u32) -> u32 {
        self.pack.sit_copy(segno / ENTRIES_PER_BLOCK)
    }

    /// The journal's count, and the block that has it.
    pub fn journal_count(&self) -> (u32, Field) {
        let (block, at) = self.journal;
        (block, N_SITS.moved(at))
    }

    /// Changes a byte that a report reads, or could read in place of the right one. The checkpoint block
    /// mostly gets its checksum.
    pub fn strike(&self, image: &mut Image, random: &mut Random) {
        let (block, at) = self.place_to_strike(image, random);
        let flipped = image.block(block)[at] ^ 1 << random.below(8);
        let any = random.number() as u8;
        let byte = pick(random, &[0, 1, 5, 6, 7, 0xFF, flipped, flipped, any]);
        image.put("byte", block, at, &[byte]);
        if block == self.first_block && random.below(4) > 0 {
            image.seal(block);
        }
    }

    /// The journal's count, mostly its low byte, a byte of its entries, of the table in either copy, or of
    /// the map.
    fn place_to_strike(&self, image: &Image, random: &mut Random) -> (u32, usize) {
        let byte_of = |random: &mut Random, bytes: usize| random.below(bytes as u64) as usize;
        let (journal, start) = self.journal;
        match random.below(4) {
            0 => (journal, start + pick(random, &[0, 0, 0, 1])),
            1 => {
                let byte = byte_of(random, MOST_ENTRIES * sit_journal::ENTRY_SIZE);
                (journal, start + N_SITS.size + byte)
            }
            2 => {
                // Those with the bits of table blocks in use, and one more.
                let in_use = (self.main_segments / ENTRIES_PER_BLOCK / 8) as usize + 1;
                let byte = byte_of(random, in_use + 1);
                (self.first_block, SIT_NAT_VERSION_BITMAP + byte)
            }
            _ => {
                let segno = random.below(u64::from(self.main_segments) + 1) as u32;
                let (table, entry) = image.sit_place(segno, random.below(2) as u32);
                (table, entry + byte_of(random, ENTRY_SIZE))
            }
        }
    }
}

/// A card whose segment table is known. What a report has no business with is junk in the checkpoint area
/// and the table, and never really there in the main area, so that a large one costs little.
pub struct SegmentCard {
    pub image: Image,
    pub sit: Sit,
}

impl SegmentCard {
    /// With empty segments, as far as the packs' journals say nothing else.
    pub fn new(knobs: &Knobs) -> SegmentCard {
        let mut image = Image::new(&Knobs {
            packs: [None, None],
            ..knobs.clone()
        });
        put_junk(&mut image);
        for (which, pack) in knobs.packs.iter().enumerate() {
            if let Some(pack) = pack {
                image.add_pack(which, &pack.clone().with_sit(), knobs);
            }
        }
        let mut card = SegmentCard::read(image);
        for segno in 0..knobs.main_segments {
            card.set_entry(segno, &SitEntry::filled(0));
        }
        card.image.settle(&format!("packs {:?}", knobs.packs));
        card
    }

    /// An image that wasn't built here, and is sound.
    pub fn read(image: Image) -> SegmentCard {
        SegmentCard {
            sit: Sit::of(&image),
            image,
        }
    }

    /// Where the entry in use of a segment starts: its block, and its first byte there.
    pub fn entry_place(&self, segno: u32) -> (u32, usize) {
        let (block, count) = self.sit.journal_count();
        let entries = self.image.get(block, count) as usize;
        let mut journalled = (0..entries).map(|n| count.at + n * sit_journal::ENTRY_SIZE);
        let is_of = |&at: &usize| self.image.get(block, SEGNO.moved(at)) == segno.into();
        match journalled.find(is_of) {
            Some(at) => (block, at + SEGNO.at + SEGNO.size),
            None => self.image.sit_place(segno, self.sit.copy_of(segno)),
        }
    }

    /// Writes a table entry in the copy in use.
    pub fn set_entry(&mut self, segno: u32, entry: &SitEntry) {
        let copy = self.sit.copy_of(segno);
        self.image.set_sit_entry(segno, copy, entry);
    }

    pub fn set_map(&mut self, map: &[u8]) {
        let first = self.sit.first_block;
        self.image
            .put("SIT map", first, SIT_NAT_VERSION_BITMAP, map);
        self.image.seal(first);
    }

    pub fn put_journal(&mut self, entries: &[SitJournalEntry]) {
        let (block, at) = self.sit.journal;
        self.image.put_sit_journal(block, at, entries);
    }

    /// Whatever entries are there.
    pub fn set_journal_count(&mut self, count: u64) {
        let (block, field) = self.sit.journal_count();
        self.image.set(block, field, count);
    }
}

/// In the checkpoint area, and wherever in the table an entry may be sought by a wrong rule.
fn put_junk(image: &mut Image) {
    let Areas { cp, sit, nat, .. } = image.areas;
    image.put_junk(cp..sit, cp.into());
    for start in (sit..nat).step_by(128) {
        image.put_junk(start..start + 32, start.into());
    }
}

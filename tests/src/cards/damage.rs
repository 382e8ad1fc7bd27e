//! Random damage to the numbers that a rule consults.

use std::ops::Range;

use crate::cards::image::Image;
use crate::cards::layout::checkpoint::*;
use crate::cards::layout::journal::{self, JournalEntry, N_NATS};
use crate::cards::layout::nat::NatEntry;
use crate::cards::layout::{superblock, Field};
use crate::cards::random::pick;
use crate::trial::Random;

/// Numbers at or beside a bound of some rule.
const BOUNDS: [u64; 16] = [
    1, 2, 3, 4, 5, 7, 8, 38, 39, 64, 191, 192, 512, 513, 4091, 4092,
];

/// Of all that is consulted little leads to 6.
const FEATURES: [Field; 2] = [superblock::FEATURE, superblock::CP_PAYLOAD];

/// Where a sound image can be damaged.
pub struct Damage {
    /// First and last blocks of the packs.
    checkpoints: Vec<u32>,
    /// The block of each pack's journal, and the journal's first byte.
    journals: Vec<(u32, usize)>,
    /// Where the maps are in a pack's first block.
    maps: Range<usize>,
}

impl Damage {
    pub fn of(image: &Image) -> Damage {
        let mut damage = Damage {
            checkpoints: Vec::new(),
            journals: Vec::new(),
            maps: SIT_NAT_VERSION_BITMAP..SIT_NAT_VERSION_BITMAP,
        };
        for which in image.packs() {
            damage.add_pack(image, which);
        }
        damage
    }

    fn add_pack(&mut self, image: &Image, which: usize) {
        let first = image.first_block(which);
        self.checkpoints.extend([first, image.last_block(which)]);
        let number = |field| image.get(first, field) as u32;
        let sizes = number(SIT_VER_BITMAP_BYTESIZE) + number(NAT_VER_BITMAP_BYTESIZE);
        self.maps.end = self.maps.start + sizes as usize;
        self.journals.push(image.journal_place(which));
    }

    /// Gives one number a new value, sets a flag, or makes a twin in a journal.
    pub fn strike(&self, image: &mut Image, random: &mut Random) {
        let places = match random.below(12) {
            0 => return self.strike_flags(image, random),
            1 => return self.strike_journal(image, random),
            2 => in_each(&[0, 1], pick(random, &FEATURES)),
            _ => self.places(random),
        };
        self.strike_numbers(image, places, random);
    }

    /// Sets a flag in a checkpoint block, mostly one with which the pack isn't read.
    fn strike_flags(&self, image: &mut Image, random: &mut Random) {
        let any = 1 << random.below(32);
        let flag = pick(random, &[CP_ERROR_FLAG, CP_FSCK_FLAG, any]);
        image.add_flags(pick(random, &self.checkpoints), flag);
    }

    /// Copies an entry's number, or all of it, to a place in its journal: mostly to one that is counted.
    fn strike_journal(&self, image: &mut Image, random: &mut Random) {
        let most = journal::MOST_ENTRIES as u64;
        let (block, at) = pick(random, &self.journals);
        let counted = image.get(block, N_NATS.moved(at)).clamp(2, most);
        let places = pick(random, &[counted, counted, most]);
        let [from, to] = [places, places].map(|places| {
            let place = random.below(places) as usize;
            at + N_NATS.size + place * journal::ENTRY_SIZE
        });
        let len = pick(random, &[journal::NID.size, journal::ENTRY_SIZE]);
        let copied = image.block(block)[from..from + len].to_vec();
        image.put("twin", block, to, &copied);
    }

    /// Gives one number, in one or several of the blocks that have it, a new value. The checksums
    /// of most checkpoint blocks are made right again.
    fn strike_numbers(&self, image: &mut Image, places: Vec<(u32, Field)>, random: &mut Random) {
        let sure = pick(random, &places);
        let value = damaged(image, sure, random);
        for place in places {
            if place == sure || random.below(2) == 0 {
                let (block, field) = place;
                image.set(block, field, value);
                if self.checkpoints.contains(&block) && random.below(4) > 0 {
                    image.seal(block);
                }
            }
        }
    }

    /// A random number that a rule consults, in each block that has it.
    fn places(&self, random: &mut Random) -> Vec<(u32, Field)> {
        match random.below(8) {
            0..=2 => in_each(&[0, 1], pick(random, superblock::ALL)),
            3..=5 => in_each(&self.checkpoints, pick(random, ALL)),
            6 => in_each(&self.checkpoints, self.map_byte(random)),
            _ => self.in_journals(random),
        }
    }

    fn map_byte(&self, random: &mut Random) -> Field {
        Field {
            name: "byte of a map",
            at: self.maps.start + random.below(self.maps.len() as u64) as usize,
            size: 1,
        }
    }

    /// The count, or a number of some entry.
    fn in_journals(&self, random: &mut Random) -> Vec<(u32, Field)> {
        let entry = random.below(journal::MOST_ENTRIES as u64) as usize;
        let field = match pick(random, journal::ALL) {
            N_NATS => N_NATS,
            field => field.moved(entry * journal::ENTRY_SIZE),
        };
        let place = |&(block, at): &(u32, usize)| (block, field.moved(at));
        self.journals.iter().map(place).collect()
    }
}

/// Harms a pack that passes: it still does, and isn't read if it is chosen.
pub type Harm = fn(&mut Image, usize);

/// Each flag that says that a volume is damaged, both, and a number twice in the journal, which has to have room for
/// two more.
pub const HARMS: [Harm; 5] = [
    |image, which| image.add_flags(image.first_block(which), CP_ERROR_FLAG),
    |image, which| image.add_flags(image.first_block(which), CP_FSCK_FLAG),
    |image, which| image.add_flags(image.first_block(which), CP_ERROR_FLAG | CP_FSCK_FLAG),
    |image, which| add_twins(image, which, [9, 9]),
    |image, which| add_twins(image, which, [9, 8]),
];

/// Entries for a number that is there in every table; nothing needs it.
fn add_twins(image: &mut Image, which: usize, inodes: [u32; 2]) {
    let twin = |ino| {
        let entry = NatEntry {
            version: 0,
            ino,
            block_addr: 0,
        };
        JournalEntry { nid: 9, entry }
    };
    let twins = inodes.map(twin);
    let journal = [image.journal(which).as_slice(), &twins].concat();
    image.set_journal(which, &journal);
}

/// Gives a card with one pack, its first, a fault for each answer from 8 down to 5. Returns the marks to
/// undo to, one after the other, and the answer that each of them leads to.
pub fn all_faults(image: &mut Image) -> [(usize, u32); 3] {
    let first = image.first_block(0);
    image.set_sealed(first, CKPT_FLAGS, u64::from(CP_LARGE_NAT_BITMAP_FLAG));
    faults_before_8(image, 0)
}

/// The same from 7 on, beside a fault for 8.
pub fn faults_before_8(image: &mut Image, which: usize) -> [(usize, u32); 3] {
    let unreadable = image.mark();
    image.set(image.first_block(which), CHECKSUM_OFFSET, 0);
    let no_pack = image.mark();
    for copy in [0, 1] {
        image.set(copy, superblock::FEATURE, 1);
    }
    let feature = image.mark();
    for copy in [0, 1] {
        image.set(copy, superblock::MAGIC, 0);
    }
    [(feature, 6), (no_pack, 7), (unreadable, 8)]
}

fn in_each(blocks: &[u32], field: Field) -> Vec<(u32, Field)> {
    blocks.iter().map(|&block| (block, field)).collect()
}

/// A new value for a number of a superblock, a checkpoint or a journal.
fn damaged(image: &Image, (block, field): (u32, Field), random: &mut Random) -> u64 {
    let siblings = if block < 2 { superblock::ALL } else { ALL };
    let of_sibling = image.get(block, pick(random, siblings));
    let likely = [of_sibling, pick(random, &BOUNDS)];
    altered(random, image.get(block, field), field, &likely)
}

/// A new value for a number, of a kind that rules may take wrongly; one in three is a likely one.
pub fn altered(random: &mut Random, old: u64, field: Field, likely: &[u64]) -> u64 {
    match random.below(12) {
        0 => 0,
        1 => field.greatest(),
        2 => old.wrapping_add(1),
        3 => old.wrapping_sub(1),
        4 => old ^ 1 << random.below(8 * field.size as u64),
        5 => random.number(),
        // 512 times this wraps to 512 times the old value in 32 bits.
        6 => old.wrapping_add((1 + random.below(511)) << 23),
        7 => random.below(600),
        _ => pick(random, likely),
    }
}

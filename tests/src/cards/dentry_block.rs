//! The block with a directory's slots by itself, with any map: one of the directory's own, or its inode.

use std::ops::Range;

use crate::cards::dentry::Dentry;
use crate::cards::layout::dentry::*;
use crate::cards::layout::{Field, BLOCK_SIZE};
use crate::cards::maps::Map;
use crate::trial::Random;

#[derive(Clone)]
pub struct DentryBlock {
    pub layout: Layout,
    bytes: Vec<u8>,
}

impl DentryBlock {
    /// Every slot is free. All bytes beside the map are this one.
    pub fn free(layout: Layout, byte: u8) -> DentryBlock {
        let mut bytes = vec![byte; BLOCK_SIZE];
        bytes[layout.start..][..layout.map_bytes].fill(0);
        DentryBlock { layout, bytes }
    }

    pub fn junk(layout: Layout, random: &mut Random) -> DentryBlock {
        let bytes = random.bytes(BLOCK_SIZE);
        DentryBlock { layout, bytes }
    }

    /// One entry in each slot that is in use, and another in each that is free. They take one slot each.
    pub fn with_map(layout: Layout, map: &Map, used: &Dentry, left: &Dentry) -> DentryBlock {
        let mut block = DentryBlock::free(layout, 0);
        for (slot, &in_use) in map.iter().enumerate() {
            block.write(slot, if in_use { used } else { left });
            block.set_bit(slot, in_use);
        }
        block
    }

    pub fn bytes(&self) -> &[u8] {
        &self.bytes
    }

    /// All that may be in use: the map, the entries and the names.
    pub fn slot_bytes(&self) -> &[u8] {
        &self.bytes[self.layout.start..self.layout.name_at(self.layout.slots)]
    }

    /// A bit of the map, or of what lies behind it.
    pub fn set_bit(&mut self, slot: usize, set: bool) {
        let byte = &mut self.bytes[self.layout.map_byte(slot).at];
        *byte &= !(1 << (slot % 8));
        *byte |= u8::from(set) << (slot % 8);
    }

    pub fn set_bits(&mut self, slots: Range<usize>, set: bool) {
        for slot in slots {
            self.set_bit(slot, set);
        }
    }

    /// Writes an entry, also one for a slot that isn't there, and as much of its name as there is room for before the
    /// block's end. The map stays as it is.
    pub fn write(&mut self, slot: usize, dentry: &Dentry) {
        for (field, number) in [(HASH_CODE, dentry.hash), (INO, dentry.ino)] {
            self.set(field, slot, number);
        }
        self.set_len(slot, dentry.len);
        let at = self.layout.name_at(slot).min(BLOCK_SIZE);
        let room = &mut self.bytes[at..];
        let len = dentry.name.len().min(room.len());
        room[..len].copy_from_slice(&dentry.name[..len]);
    }

    pub fn set_len(&mut self, slot: usize, len: usize) {
        self.set(NAME_LEN, slot, len as u32);
    }

    /// Writes an entry, and sets the bit of its first slot alone.
    pub fn put(&mut self, slot: usize, dentry: &Dentry) {
        self.write(slot, dentry);
        self.set_bit(slot, true);
    }

    fn set(&mut self, field: Field, slot: usize, number: u32) {
        let Field { at, size, .. } = self.layout.in_slot(field, slot);
        self.bytes[at..][..size].copy_from_slice(&number.to_le_bytes()[..size]);
    }
}

/// An entry that a search for the name has to pass: another name, of the same length and hash.
pub fn aside(name: &[u8], ino: u32) -> Dentry {
    let mut other = name.to_vec();
    if let Some(last) = other.last_mut() {
        *last ^= 1;
    }
    Dentry::new(&other, ino).under_hash_of(name)
}

/// What may stand in a slot that is free: zeros, ones, an entry of two slots that is passed, and one with the name.
pub fn leftovers(name: &[u8], ino: u32) -> [Dentry; 4] {
    let filled = |byte: u8| {
        let four = u32::from_le_bytes([byte; 4]);
        Dentry {
            hash: four,
            ino: four,
            len: four as usize & 0xFFFF,
            name: vec![byte; SLOT_LEN],
        }
    };
    let deleted = Dentry::new(b"deleted long ago", ino);
    [filled(0), filled(!0), deleted, Dentry::new(name, ino)]
}

/// One in so many of a block's slots is in use, has the name, is malformed; names have up to so many bytes.
#[derive(Clone, Copy, Debug)]
pub struct Mixture {
    pub used: u64,
    pub named: u64,
    pub malformed: u64,
    pub longest: u64,
}

impl Mixture {
    pub fn all() -> Vec<Mixture> {
        let mut all = Vec::new();
        for used in [1, 2, 4, 12, 60] {
            for named in [20, 1 << 32] {
                for malformed in [40, 1 << 32] {
                    all.extend([8, 30, 255].map(|longest| Mixture {
                        used,
                        named,
                        malformed,
                        longest,
                    }));
                }
            }
        }
        all
    }

    /// A block of such slots. The bits that belong to no slot are junk.
    pub fn block(self, layout: Layout, random: &mut Random, name: &[u8], ino: u32) -> DentryBlock {
        let mut block = DentryBlock::junk(layout, random);
        for slot in 0..layout.slots {
            let longest = self.longest.min((SLOT_LEN * (layout.slots - slot)) as u64);
            let mut dentry = aside(name, random.number() as u32);
            dentry.len = 1 + random.below(longest) as usize;
            if random.below(self.malformed) == 0 {
                dentry.len = [0, LONGEST_NAME + 1][random.below(2) as usize];
            } else if random.below(self.named) == 0 {
                dentry = Dentry::new(name, ino);
            }
            block.write(slot, &dentry);
            block.set_bit(slot, random.below(self.used) == 0);
        }
        block
    }
}

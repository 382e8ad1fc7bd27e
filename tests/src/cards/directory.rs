//! A directory of a card: entries, and the blocks of its hash levels.

use crate::cards::card::Card;
use crate::cards::image::Image;
use crate::cards::layout::dentry::*;
use crate::cards::layout::inode::{INLINE_DENTRY, I_DIR_LEVEL, I_INLINE};
use crate::cards::layout::Field;
use crate::cards::tree::last_index;

pub use crate::cards::dentry::{in_slot, map_byte, Dentry};

/// Blocks of a bucket in each hash level that has a block below the last index of a file.
pub const BUCKET_BLOCKS: u32 = 2;
/// A directory that is deeper isn't read.
pub const MOST_DEPTH: u32 = 63;

/// A directory's own level, which makes its hash levels larger.
#[derive(Clone, Copy, Debug, PartialEq, Eq)]
pub struct DirLevel(pub u32);

impl DirLevel {
    /// Those that are read.
    pub fn all() -> impl Iterator<Item = DirLevel> {
        (0..=30).map(DirLevel)
    }

    /// Buckets of a hash level.
    pub fn buckets(self, level: u32) -> u64 {
        1 << (self.0 + level).min(30)
    }

    /// Blocks of each of its buckets.
    pub fn bucket_blocks(level: u32) -> u32 {
        match level {
            0..31 => BUCKET_BLOCKS,
            _ => 4,
        }
    }

    /// The first block of a hash level, not added up one by one as in the reference.
    pub fn start(self, level: u32) -> u64 {
        // Hash level 0 has 2^(level + 1) blocks, and up to 2^30 buckets each other one has twice those of the one before.
        let doubling = level.min(31 - self.0);
        let doubled = ((1 << doubling) - 1) << (self.0 + 1);
        // The others have 2^30 buckets, of two blocks and then of four.
        let of_two = u64::from(level.min(31) - doubling);
        let of_four = u64::from(level - level.min(31));
        doubled + (of_two << 31) + (of_four << 32)
    }

    /// The index of a block of the bucket that a hash leads to.
    pub fn index(self, level: u32, hash: u32, nth: u32) -> u64 {
        let bucket = u64::from(hash) % self.buckets(level);
        self.start(level) + u64::from(DirLevel::bucket_blocks(level)) * bucket + u64::from(nth)
    }

    /// How many hash levels have a block below the last index of a file. Hash level 29 - level starts at
    /// 2^30 - 2^(level + 1), which is at most 1,057,053,388 from level 23 on.
    pub fn in_reach(self) -> u32 {
        match self.0 {
            0..=22 => 29 - self.0,
            23..=29 => 30 - self.0,
            _ => 1,
        }
    }
}

/// The same in a directory without a level of its own.
pub fn bucket_index(level: u32, hash: u32, nth: u32) -> u32 {
    DirLevel(0).index(level, hash, nth) as u32
}

/// A directory's slots: the block that has them, and where they stand there.
#[derive(Clone, Copy, Debug)]
pub struct Slots {
    pub block: u32,
    pub layout: Layout,
}

/// A number alone is that of a directory block.
impl From<u32> for Slots {
    fn from(block: u32) -> Slots {
        Slots {
            block,
            layout: IN_BLOCK,
        }
    }
}

impl Image {
    /// Clears every slot. The map's last bits, which belong to no slot, are set.
    pub fn clear_slots(&mut self, slots: impl Into<Slots>) {
        let Slots { block, layout } = slots.into();
        let mut map = vec![0; layout.map_bytes];
        map[layout.map_bytes - 1] = !0 << (layout.slots % 8);
        self.put("directory map", block, layout.start, &map);
    }

    pub fn slot_bit(&self, slots: impl Into<Slots>, slot: usize) -> bool {
        let Slots { block, layout } = slots.into();
        self.get(block, layout.map_byte(slot)) >> (slot % 8) & 1 == 1
    }

    pub fn set_slot_bit(&mut self, slots: impl Into<Slots>, slot: usize, set: bool) {
        let Slots { block, layout } = slots.into();
        let bit = 1 << (slot % 8);
        let others = self.get(block, layout.map_byte(slot)) & !bit;
        let byte = if set { others | bit } else { others };
        self.set(block, layout.map_byte(slot), byte);
    }

    /// Sets or clears the bit of each slot of an entry, as Linux does.
    pub fn set_slot_bits(&mut self, of: impl Into<Slots>, slot: usize, slots: usize, set: bool) {
        let of = of.into();
        for slot in slot..of.layout.slots.min(slot + slots) {
            self.set_slot_bit(of, slot, set);
        }
    }

    /// Writes an entry with its bits. Of a name that is too long for its slots only the start is written.
    pub fn put_dentry(&mut self, slots: impl Into<Slots>, slot: usize, dentry: &Dentry) {
        let slots = slots.into();
        let Slots { block, layout } = slots;
        for (field, number) in [
            (HASH_CODE, u64::from(dentry.hash)),
            (INO, u64::from(dentry.ino)),
            (NAME_LEN, dentry.len as u64),
        ] {
            self.set(block, layout.in_slot(field, slot), number);
        }
        self.set_slot_bits(slots, slot, dentry.slots().max(1), true);
        let room = (layout.slots - slot) * SLOT_LEN;
        let name = &dentry.name[..dentry.name.len().min(room)];
        self.put("name", block, layout.name_at(slot), name);
    }

    /// The entries in slots that are in use.
    pub fn entries_in(&self, slots: impl Into<Slots>) -> Vec<Linked> {
        let slots = slots.into();
        let mut found = Vec::new();
        let mut slot = 0;
        while slot < slots.layout.slots {
            if self.slot_bit(slots, slot) {
                let linked = Linked::at(slots, slot);
                found.push(linked);
                let len = self.get(linked.block, linked.field(NAME_LEN)) as usize;
                slot += len.div_ceil(SLOT_LEN).max(1);
            } else {
                slot += 1;
            }
        }
        found
    }

    /// The first of so many free slots in a row.
    fn free_slot(&self, of: Slots, slots: usize) -> Option<usize> {
        let free = |slot: usize| (slot..slot + slots).all(|slot| !self.slot_bit(of, slot));
        (0..=of.layout.slots - slots).find(|&slot| free(slot))
    }
}

/// Where an entry was put.
#[derive(Clone, Copy, Debug)]
pub struct Linked {
    pub block: u32,
    pub layout: Layout,
    pub slot: usize,
}

impl Linked {
    fn at(slots: Slots, slot: usize) -> Linked {
        let Slots { block, layout } = slots;
        Linked {
            block,
            layout,
            slot,
        }
    }

    /// The slots that it is one of.
    pub fn of(&self) -> Slots {
        let Linked { block, layout, .. } = *self;
        Slots { block, layout }
    }

    /// A field of the entry.
    pub fn field(&self, field: Field) -> Field {
        self.layout.in_slot(field, self.slot)
    }
}

/// The directory that was entered last; at first that is the root.
impl Card {
    /// Entries go into this directory from now on.
    pub fn enter(&mut self, folder: u32) {
        let left = std::mem::take(&mut self.directory);
        self.left.insert(self.folder, left);
        self.directory = self.left.remove(&folder).unwrap_or_default();
        self.folder = folder;
    }

    /// Its own level, as its inode says now.
    pub fn dir_level(&self) -> DirLevel {
        DirLevel(self.image.get(self.inode_block(self.folder), I_DIR_LEVEL) as u32)
    }

    /// A block of the bucket that a hash leads to; an empty one where there is none yet.
    pub fn bucket_block(&mut self, level: u32, hash: u32, nth: u32) -> u32 {
        let index = self.dir_level().index(level, hash, nth);
        let last = last_index(self.addresses(self.folder));
        assert!(index <= last.into(), "block {index} is past {last}");
        self.directory_block(index as u32)
    }

    /// A block of it; an empty one where there is none yet.
    pub fn directory_block(&mut self, index: u32) -> u32 {
        if let Some(&block) = self.directory.get(&index) {
            return block;
        }
        let block = self.add_block(self.folder, index);
        self.image.clear_slots(block);
        self.directory.insert(index, block);
        block
    }

    /// Its block at an index, if it has one there.
    pub fn block_at(&self, index: u64) -> Option<(u32, u32)> {
        let index = u32::try_from(index).ok()?;
        let block = self.directory.get(&index)?;
        Some((index, *block))
    }

    /// Its slots in its inode, if they stand there.
    pub fn inline_slots(&self) -> Option<Slots> {
        let block = self.inode_block(self.folder);
        let inline = self.image.get(block, I_INLINE) & INLINE_DENTRY != 0;
        inline.then_some(Slots {
            block,
            layout: IN_INODE,
        })
    }

    /// Puts an entry in a block of its bucket, or in the inode of an inline directory: in the first free slots.
    pub fn link(&mut self, level: u32, nth: u32, dentry: &Dentry) -> Linked {
        let slots = match self.inline_slots() {
            Some(slots) => slots,
            None => self.bucket_block(level, dentry.hash, nth).into(),
        };
        let slot = self.image.free_slot(slots, dentry.slots());
        let slot = slot.expect("free slots in the directory");
        self.image.put_dentry(slots, slot, dentry);
        Linked::at(slots, slot)
    }
}

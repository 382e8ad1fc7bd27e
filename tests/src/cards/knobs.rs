//! What a card is built from.

use std::ops::Range;

use crate::cards::layout::checkpoint::*;
use crate::cards::layout::journal::{self, JournalEntry};
use crate::cards::layout::nat::{BLOCKS_PER_SEGMENT, ENTRIES_PER_BLOCK, MAP_BYTES_PER_SEGMENT};
use crate::cards::layout::sit::VER_BITMAP_BYTES;
use crate::cards::layout::sit_journal::{self, SitJournalEntry};
use crate::cards::layout::superblock::*;
use crate::cards::layout::{Field, SEGMENT_BLOCKS};
use crate::cards::versions;
use crate::sizes::CARD_BLOCKS_MOST;

/// A checkpoint pack.
#[derive(Clone, Debug)]
pub struct Pack {
    pub version: u64,
    pub total: u32,
    pub flags: u32,
    /// The journal's block in a compact pack.
    pub start_sum: u32,
    /// As stored, so that bit 0 is a byte's top bit. What is missing is 0.
    pub nat_map: Vec<u8>,
    pub journal: Vec<JournalEntry>,
    /// The same of segments. What is missing isn't written: most calls don't consult it.
    pub sit_map: Vec<u8>,
    pub sit_journal: Option<Vec<SitJournalEntry>>,
}

impl Pack {
    /// As Linux leaves it at a clean unmount.
    pub fn compact(version: u64) -> Pack {
        Pack {
            version,
            total: 6,
            flags: CP_COMPACT_SUM_FLAG | CP_UMOUNT_FLAG,
            start_sum: 1,
            nat_map: Vec::new(),
            journal: Vec::new(),
            sit_map: Vec::new(),
            sit_journal: None,
        }
    }

    /// With plain summaries and any flags but the compact one; enough blocks for each of them.
    pub fn plain(version: u64, flags: u32) -> Pack {
        Pack {
            total: 9,
            flags,
            start_sum: 0,
            ..Pack::compact(version)
        }
    }

    /// With these flags and enough blocks for them.
    pub fn flagged(flags: u32) -> Pack {
        match flags & CP_COMPACT_SUM_FLAG {
            0 => Pack::plain(1, flags),
            _ => Pack {
                flags,
                ..Pack::compact(1)
            },
        }
    }

    /// One of each kind, with its journals elsewhere than the others have them.
    pub fn kinds() -> [Pack; 4] {
        [
            Pack::compact(1),
            Pack::plain(1, CP_UMOUNT_FLAG),
            Pack::plain(1, CP_FASTBOOT_FLAG),
            Pack::plain(1, 0),
        ]
    }

    /// The same whose SIT map and journal are there: first copies and no entries, unless it says else.
    pub fn with_sit(mut self) -> Pack {
        if self.sit_map.is_empty() {
            self.sit_map = vec![0; VER_BITMAP_BYTES];
        }
        self.sit_journal.get_or_insert_default();
        self
    }

    /// The journal's block, counted in the pack, and its first byte there; none if out of place.
    pub fn journal_place(&self) -> Option<(u32, usize)> {
        if self.flags & CP_COMPACT_SUM_FLAG != 0 {
            let inside = self.start_sum > 0 && self.start_sum < self.total.saturating_sub(1);
            return inside.then_some((self.start_sum, journal::IN_COMPACT_BLOCK));
        }
        // A clean pack also has the three node summaries.
        let clean = self.flags & (CP_UMOUNT_FLAG | CP_FASTBOOT_FLAG) != 0;
        let from_end = if clean { 7 } else { 4 };
        (self.total > from_end).then(|| (self.total - from_end, journal::IN_PLAIN_BLOCK))
    }

    /// The same of the SIT journal.
    pub fn sit_journal_place(&self) -> Option<(u32, usize)> {
        let (nat_block, _) = self.journal_place()?;
        if self.flags & CP_COMPACT_SUM_FLAG != 0 {
            return Some((nat_block, sit_journal::IN_COMPACT_BLOCK));
        }
        let block = nat_block + sit_journal::BLOCKS_AFTER_NAT;
        Some((block, sit_journal::IN_PLAIN_BLOCK))
    }

    /// Which copy of a table block its map says is in use.
    pub fn nat_copy(&self, table_block: u32) -> u32 {
        bit(&self.nat_map, table_block)
    }

    /// Says of a table block that its other copy is in use.
    pub fn turn_nat_copy(&mut self, table_block: u32) {
        let byte = table_block as usize / 8;
        let len = self.nat_map.len().max(byte + 1);
        self.nat_map.resize(len, 0);
        self.nat_map[byte] ^= 0x80 >> (table_block % 8);
    }

    pub fn sit_copy(&self, table_block: u32) -> u32 {
        bit(&self.sit_map, table_block)
    }

    /// The numbers of its first block, but for the checksum.
    pub fn fields(&self, knobs: &Knobs) -> Vec<(Field, u64)> {
        let map_size = |segments| u64::from(MAP_BYTES_PER_SEGMENT * segments);
        vec![
            (CHECKPOINT_VER, self.version),
            (CKPT_FLAGS, u64::from(self.flags)),
            (CP_PACK_TOTAL_BLOCK_COUNT, u64::from(self.total)),
            (CP_PACK_START_SUM, u64::from(self.start_sum)),
            (SIT_VER_BITMAP_BYTESIZE, map_size(knobs.sit_segments)),
            (NAT_VER_BITMAP_BYTESIZE, map_size(knobs.nat_segments)),
            (CHECKSUM_OFFSET, CHECKSUM.at as u64),
        ]
    }
}

/// A map's bits count from the top of a byte.
fn bit(map: &[u8], n: u32) -> u32 {
    let byte = map.get(n as usize / 8).unwrap_or(&0);
    u32::from(byte >> (7 - n % 8) & 1)
}

/// A card whose areas follow each other, whatever the counts.
#[derive(Clone, Debug)]
pub struct Knobs {
    pub log_sectorsize: u32,
    pub segs_per_sec: u32,
    pub secs_per_zone: u32,
    /// Where segment 0 starts, and with it the checkpoint area.
    pub segment0: u32,
    pub ckpt_segments: u32,
    pub sit_segments: u32,
    pub nat_segments: u32,
    pub ssa_segments: u32,
    pub main_segments: u32,
    /// Segments after the main area.
    pub spare_segments: u32,
    /// Blocks that the block count has after the last segment.
    pub spare_blocks: u32,
    /// Blocks that the image has beyond the block count.
    pub spare_image_blocks: u32,
    /// Which superblock copies are there.
    pub copies: [bool; 2],
    pub packs: [Option<Pack>; 2],
    /// Bytes that nothing above decides are random from this seed; without one they are 0. Of a large card
    /// only those in `junk_blocks` are.
    pub junk: Option<u64>,
}

/// A card with more blocks is a large one: it would take too much memory, were it full of junk.
const FULL_OF_JUNK: u32 = 64 * SEGMENT_BLOCKS;
/// In a large one so many blocks are junk. If its tables are short, these are all before the main area.
const JUNK_IN_LARGE: u32 = 12 * SEGMENT_BLOCKS;

impl Knobs {
    /// A card with room everywhere, so that a small change breaks one rule and no other.
    pub fn roomy() -> Knobs {
        Knobs {
            segment0: 5,
            spare_segments: 2,
            spare_blocks: 600,
            spare_image_blocks: 600,
            ..Knobs::sound()
        }
    }

    /// A sound card of 16 MB without any room to spare, with one pack.
    pub fn sound() -> Knobs {
        Knobs {
            log_sectorsize: 9,
            segs_per_sec: 1,
            secs_per_zone: 1,
            segment0: 2,
            ckpt_segments: 2,
            sit_segments: 2,
            nat_segments: 2,
            ssa_segments: 1,
            main_segments: 1,
            spare_segments: 0,
            spare_blocks: 0,
            spare_image_blocks: 0,
            copies: [true, true],
            packs: [Some(Pack::compact(1)), None],
            junk: None,
        }
    }

    /// A sound card of the most blocks, with so many segments of node table. Its main area ends with it.
    pub fn largest(nat_segments: u32) -> Knobs {
        let knobs = Knobs {
            segment0: SEGMENT_BLOCKS,
            nat_segments,
            ..Knobs::sound()
        };
        let rest = CARD_BLOCKS_MOST - knobs.areas().main;
        knobs.with_segments(rest / SEGMENT_BLOCKS)
    }

    /// The same with so many main segments.
    pub fn with_segments(self, main_segments: u32) -> Knobs {
        Knobs {
            main_segments,
            ..self
        }
    }

    /// The same in an image of so many blocks.
    pub fn in_image_of(self, blocks: u32) -> Knobs {
        Knobs {
            spare_image_blocks: blocks - self.areas().block_count,
            ..self
        }
    }

    /// The same with this pack alone.
    pub fn with_pack(self, which: usize, pack: Pack) -> Knobs {
        let mut packs = [None, None];
        packs[which] = Some(pack);
        Knobs { packs, ..self }
    }

    /// The pack in use, and which it is.
    pub fn pack_in_use(&self) -> (usize, &Pack) {
        let there = self.packs.each_ref().map(Option::as_ref);
        let versions = there.map(|pack| pack.map(|pack| pack.version));
        let which = versions::of_those_there(versions).expect("a pack");
        (which, there[which].expect("a pack"))
    }

    pub fn areas(&self) -> Areas {
        let after = |start: u32, segments: u32| start + SEGMENT_BLOCKS * segments;
        let cp = self.segment0;
        let sit = after(cp, self.ckpt_segments);
        let nat = after(sit, self.sit_segments);
        let ssa = after(nat, self.nat_segments);
        let main = after(ssa, self.ssa_segments);
        let main_end = after(main, self.main_segments);
        Areas {
            cp,
            sit,
            nat,
            ssa,
            main,
            main_end,
            block_count: after(main_end, self.spare_segments) + self.spare_blocks,
        }
    }

    pub fn image_blocks(&self) -> u32 {
        self.areas().block_count + self.spare_image_blocks
    }

    /// The blocks that are junk, if there is a seed.
    pub fn junk_blocks(&self) -> Range<u32> {
        let Areas { cp, main, .. } = self.areas();
        match self.image_blocks() {
            all @ ..=FULL_OF_JUNK => 0..all,
            _ => cp..main.min(cp + JUNK_IN_LARGE),
        }
    }

    /// The first number past the node table.
    pub fn node_numbers(&self) -> u32 {
        ENTRIES_PER_BLOCK * BLOCKS_PER_SEGMENT * self.nat_segments
    }

    fn segment_count(&self) -> u32 {
        self.ckpt_segments
            + self.sit_segments
            + self.nat_segments
            + self.ssa_segments
            + self.main_segments
            + self.spare_segments
    }

    /// The numbers of a superblock copy.
    pub fn superblock_fields(&self) -> Vec<(Field, u64)> {
        let areas = self.areas();
        let small = [
            (LOG_SECTORSIZE, self.log_sectorsize),
            (LOG_SECTORS_PER_BLOCK, 12 - self.log_sectorsize),
            (LOG_BLOCKSIZE, 12),
            (LOG_BLOCKS_PER_SEG, 9),
            (SEGS_PER_SEC, self.segs_per_sec),
            (SECS_PER_ZONE, self.secs_per_zone),
            (BLOCK_COUNT, areas.block_count),
            (SEGMENT_COUNT, self.segment_count()),
            (SEGMENT_COUNT_CKPT, self.ckpt_segments),
            (SEGMENT_COUNT_SIT, self.sit_segments),
            (SEGMENT_COUNT_NAT, self.nat_segments),
            (SEGMENT_COUNT_SSA, self.ssa_segments),
            (SEGMENT_COUNT_MAIN, self.main_segments),
            (SEGMENT0_BLKADDR, areas.cp),
            (CP_BLKADDR, areas.cp),
            (SIT_BLKADDR, areas.sit),
            (NAT_BLKADDR, areas.nat),
            (SSA_BLKADDR, areas.ssa),
            (MAIN_BLKADDR, areas.main),
            (ROOT_INO, 3),
            (NODE_INO, 1),
            (META_INO, 2),
            (CP_PAYLOAD, 0),
            (FEATURE, 0),
        ];
        let numbers = small.map(|(field, value)| (field, u64::from(value)));
        [&[(MAGIC, F2FS_SUPER_MAGIC)], numbers.as_slice()].concat()
    }
}

/// The block at which each area of a card starts, and the ends.
#[derive(Clone, Copy, Debug, PartialEq, Eq)]
pub struct Areas {
    pub cp: u32,
    pub sit: u32,
    pub nat: u32,
    pub ssa: u32,
    pub main: u32,
    pub main_end: u32,
    pub block_count: u32,
}

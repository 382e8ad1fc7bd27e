//! Opening an image: its shape, superblock, features, checkpoint pack, maps and journal.

use std::ops::Range;

use crate::bytes::{block, le16, le32, le64, BLOCK_SIZE, SEGMENT_BLOCKS};
use crate::checksum::checksum;

const UNMOUNT: u32 = 0x1;
const COMPACT: u32 = 0x4;
const ERROR: u32 = 0x8;
const NEEDS_CHECK: u32 = 0x10;
const FASTBOOT: u32 = 0x20;
const LARGE_NAT_MAP: u32 = 0x400;

/// Where the checksum of a checkpoint block stands, and so where its maps must end.
const CHECKSUM_AT: usize = 4092;
const MAPS_AT: u64 = 192;

/// "13-byte entries: number, then a NAT entry"
pub const JOURNAL_ENTRY_SIZE: usize = 13;
/// "a 16-bit count, at most 38"
const JOURNAL_MOST: usize = 38;

/// "Raise the image limit to 4,194,304 blocks (16 GiB)."
const MOST_IMAGE_BLOCKS: u64 = 4_194_304;

/// What an image that opens is read by.
#[derive(Debug, Clone, Copy)]
pub struct Volume<'a> {
    pub image: &'a [u8],
    /// First block of the main area.
    pub main_start: u32,
    /// First block after the main area.
    pub main_end: u32,
    pub main_segments: u32,
    pub sit_address: u32,
    pub sit_segments: u32,
    pub sit_map: &'a [u8],
    /// The rest of a block from the SIT journal's count on. Opening leaves the count unchecked:
    /// its 8 "is only for calls that read SIT entries".
    pub sit_journal: &'a [u8],
    pub nat_address: u32,
    pub nat_segments: u32,
    pub nat_map: &'a [u8],
    /// The NAT journal's entries, 13 bytes each, without the count before them. No two of them
    /// have the same number.
    pub journal: &'a [u8],
}

impl<'a> Volume<'a> {
    /// "The main area bounds are the main block address and the main end": the second is the first
    /// block behind.
    pub fn main_area(&self) -> Range<u32> {
        self.main_start..self.main_end
    }

    pub fn in_main_area(&self, address: u32) -> bool {
        self.main_area().contains(&address)
    }

    /// A block of the image, which holds every block of the areas.
    pub fn block(&self, number: u32) -> &'a [u8] {
        block(self.image, u64::from(number))
    }
}

/// "An image opens if its length is in shape and none of 5 to 8 applies to it." The error is the
/// answer number, the first that applies.
pub fn open(image: &[u8]) -> Result<Volume<'_>, u32> {
    if !is_image_length(image.len()) {
        return Err(4);
    }
    let superblock = superblock_in_use(image).ok_or(5u32)?;
    if superblock.has_features() {
        return Err(6);
    }
    let pack = chosen_pack(image, &superblock).ok_or(7u32)?;
    let first = block(image, pack.start);
    if is_marked_damaged(first) {
        return Err(8);
    }
    let (sit_map, nat_map) = maps(first, &superblock).ok_or(8u32)?;
    let (nat_place, sit_place) = journal_places(image, &pack).ok_or(8u32)?;
    let journal = nat_journal(nat_place).ok_or(8u32)?;
    Ok(Volume {
        image,
        main_start: superblock.main_address,
        // At most the image's blocks, so it fits.
        main_end: superblock.main_end() as u32,
        main_segments: superblock.main_segments,
        sit_address: superblock.sit_address,
        sit_segments: superblock.sit_segments,
        sit_map,
        sit_journal: sit_place,
        nat_address: superblock.nat_address,
        nat_segments: superblock.nat_segments,
        nat_map,
        journal,
    })
}

/// "An image has whole blocks, 2 to [the limit] of them." "4,194,304 is in shape, one more is 4".
pub fn is_image_length(length: usize) -> bool {
    length % BLOCK_SIZE == 0 && is_block_count((length / BLOCK_SIZE) as u64)
}

/// Whether an image or a card may have so many blocks.
pub(crate) fn is_block_count(blocks: u64) -> bool {
    (2..=MOST_IMAGE_BLOCKS).contains(&blocks)
}

/// One superblock copy, as stored.
#[derive(Debug, Clone, Copy, PartialEq, Eq)]
pub struct Superblock {
    pub log_sector_size: u32,
    pub log_sectors_per_block: u32,
    pub log_block_size: u32,
    pub log_blocks_per_segment: u32,
    pub segments_per_section: u32,
    pub sections_per_zone: u32,
    pub block_count: u64,
    pub segment_count: u32,
    pub checkpoint_segments: u32,
    pub sit_segments: u32,
    pub nat_segments: u32,
    pub ssa_segments: u32,
    pub main_segments: u32,
    pub segment0_address: u32,
    pub checkpoint_address: u32,
    pub sit_address: u32,
    pub nat_address: u32,
    pub ssa_address: u32,
    pub main_address: u32,
    pub root_inode: u32,
    pub node_inode: u32,
    pub meta_inode: u32,
    pub payload: u32,
    pub feature: u32,
}

/// "At byte 1,024 of block 0; only if that copy doesn't pass, of block 1."
pub fn superblock_in_use(image: &[u8]) -> Option<Superblock> {
    let image_blocks = (image.len() / BLOCK_SIZE) as u64;
    (0..2).find_map(|copy| Superblock::passing(block(image, copy), image_blocks))
}

impl Superblock {
    /// The copy in this block, if it passes on a card of so many blocks.
    pub(crate) fn passing(block: &[u8], card_blocks: u64) -> Option<Superblock> {
        Superblock::read(block).filter(|superblock| superblock.passes(card_blocks))
    }

    /// "feature word not 0, or payload not 0"
    pub(crate) fn has_features(&self) -> bool {
        self.feature != 0 || self.payload != 0
    }

    /// The copy in this block, if it carries the mark.
    fn read(block: &[u8]) -> Option<Superblock> {
        let copy = block.get(1024..)?;
        // "The first four bytes must be 10 20 F5 F2."
        if !copy.starts_with(&[0x10, 0x20, 0xF5, 0xF2]) {
            return None;
        }
        Some(Superblock {
            log_sector_size: le32(copy, 8),
            log_sectors_per_block: le32(copy, 12),
            log_block_size: le32(copy, 16),
            log_blocks_per_segment: le32(copy, 20),
            segments_per_section: le32(copy, 24),
            sections_per_zone: le32(copy, 28),
            block_count: le64(copy, 36),
            segment_count: le32(copy, 48),
            checkpoint_segments: le32(copy, 52),
            sit_segments: le32(copy, 56),
            nat_segments: le32(copy, 60),
            ssa_segments: le32(copy, 64),
            main_segments: le32(copy, 68),
            segment0_address: le32(copy, 72),
            checkpoint_address: le32(copy, 76),
            sit_address: le32(copy, 80),
            nat_address: le32(copy, 84),
            ssa_address: le32(copy, 88),
            main_address: le32(copy, 92),
            root_inode: le32(copy, 96),
            node_inode: le32(copy, 100),
            meta_inode: le32(copy, 104),
            payload: le32(copy, 1664),
            feature: le32(copy, 2180),
        })
    }

    /// "that address + 512 × main segments"
    pub fn main_end(&self) -> u64 {
        area_end(self.main_address, self.main_segments)
    }

    fn passes(&self, image_blocks: u64) -> bool {
        self.units_pass() && self.counts_pass() && self.areas_pass(image_blocks)
    }

    fn units_pass(&self) -> bool {
        // "block log 12, segment log 9"
        self.log_block_size == 12
            && self.log_blocks_per_segment == 9
            // "sector log 9 to 12 and the two sector logs sum to 12"
            && (9..=12).contains(&self.log_sector_size)
            && u64::from(self.log_sector_size) + u64::from(self.log_sectors_per_block) == 12
            // "sections and zones at least 1"
            && self.segments_per_section >= 1
            && self.sections_per_zone >= 1
    }

    fn counts_pass(&self) -> bool {
        let even_pair = |segments: u32| segments >= 2 && segments % 2 == 0;
        // "inodes 3, 1, 2": root, node and meta
        (self.root_inode, self.node_inode, self.meta_inode) == (3, 1, 2)
            // "checkpoint segments 2"
            && self.checkpoint_segments == 2
            // "SIT and NAT counts even and at least 2"
            && even_pair(self.sit_segments)
            && even_pair(self.nat_segments)
    }

    fn areas_pass(&self, image_blocks: u64) -> bool {
        let follows = |address: u32, before: u32, segments: u32| {
            u64::from(address) == area_end(before, segments)
        };
        let segments_end = area_end(self.segment0_address, self.segment_count);
        // "segment 0 = checkpoint address, at least 2 (both copies lie before it)"
        self.segment0_address == self.checkpoint_address
            && self.segment0_address >= 2
            // "each area starts where the one before ends"
            && follows(self.sit_address, self.checkpoint_address, self.checkpoint_segments)
            && follows(self.nat_address, self.sit_address, self.sit_segments)
            && follows(self.ssa_address, self.nat_address, self.nat_segments)
            && follows(self.main_address, self.ssa_address, self.ssa_segments)
            // "main end ≤ segment 0 + 512 × segment count ≤ block count ≤ image blocks"
            && self.main_end() <= segments_end
            && segments_end <= self.block_count
            && self.block_count <= image_blocks
    }
}

/// "Sums are exact, never wrapped": 64 bits hold the largest.
fn area_end(address: u32, segments: u32) -> u64 {
    u64::from(address) + SEGMENT_BLOCKS * u64::from(segments)
}

/// A checkpoint pack.
#[derive(Debug, Clone, Copy, PartialEq, Eq)]
pub struct Pack {
    /// Its first block.
    pub start: u64,
    /// How many blocks it has.
    pub total: u64,
    pub version: u64,
}

/// The pack that the image is read by, if one passes.
pub fn chosen_pack(image: &[u8], superblock: &Superblock) -> Option<Pack> {
    let [first, second] = pack_starts(superblock).map(|start| passing_pack(image, start));
    chosen_of(first, second, |pack| pack.version)
}

/// "Of two that pass" the second is chosen if its version wins, else the first.
pub(crate) fn chosen_of<P>(
    first: Option<P>,
    second: Option<P>,
    version: fn(&P) -> u64,
) -> Option<P> {
    match (first, second) {
        (Some(first), Some(second)) if second_wins(version(&first), version(&second)) => {
            Some(second)
        }
        (Some(first), _) => Some(first),
        (None, second) => second,
    }
}

/// "Packs start at the checkpoint address and 512 blocks on."
pub(crate) fn pack_starts(superblock: &Superblock) -> [u64; 2] {
    let start = u64::from(superblock.checkpoint_address);
    [start, start + SEGMENT_BLOCKS]
}

/// "The kernel takes the 64-bit difference, wrapped, as a signed number: the second pack wins
/// exactly if second minus first is above zero." A difference of exactly 2^63 is below zero.
fn second_wins(first: u64, second: u64) -> bool {
    let difference = second.wrapping_sub(first) as i64;
    difference > 0
}

/// "A pack passes if its first block passes, its total (offset 136) is 2 to 512, and block
/// total − 1 passes and has the same version (64 bits, offset 0)."
fn passing_pack(image: &[u8], start: u64) -> Option<Pack> {
    let pack = begun_pack(block(image, start), start)?;
    pack.ends_with(block(image, pack.last())).then_some(pack)
}

/// The pack that starts with this block, if that passes and so does the total. Whether the pack
/// passes is then up to its last block.
pub(crate) fn begun_pack(first: &[u8], start: u64) -> Option<Pack> {
    if !checkpoint_block_passes(first) {
        return None;
    }
    let total = u64::from(le32(first, 136));
    let version = le64(first, 0);
    (2..=512).contains(&total).then_some(Pack { start, total, version })
}

impl Pack {
    /// "block total − 1"
    pub(crate) fn last(&self) -> u64 {
        self.start + self.total - 1
    }

    pub(crate) fn ends_with(&self, last: &[u8]) -> bool {
        checkpoint_block_passes(last) && le64(last, 0) == self.version
    }
}

/// "A block passes if its checksum offset (164) is 4,092 and the number there is the [checksum]
/// over the first 4,092 bytes."
fn checkpoint_block_passes(block: &[u8]) -> bool {
    let Some(covered) = block.get(..CHECKSUM_AT) else {
        return false;
    };
    le32(block, 164) as usize == CHECKSUM_AT && le32(block, CHECKSUM_AT) == checksum(covered)
}

/// "Answer 8 also if the chosen pack's flags hold error (8) or needs-check (10 hex)"
pub(crate) fn is_marked_damaged(first: &[u8]) -> bool {
    le32(first, 132) & (ERROR | NEEDS_CHECK) != 0
}

/// The SIT and NAT maps in the chosen pack's first block; `None` if they make the pack unreadable.
pub(crate) fn maps<'a>(first: &'a [u8], superblock: &Superblock) -> Option<(&'a [u8], &'a [u8])> {
    // "Answer 8 if the large map is set"
    if le32(first, 132) & LARGE_NAT_MAP != 0 {
        return None;
    }
    // "the SIT map size (156) isn't 32 × SIT segments or the NAT map size (160) isn't 32 × NAT
    // segments"
    let sit_size = u64::from(le32(first, 156));
    let nat_size = u64::from(le32(first, 160));
    if sit_size != 32 * u64::from(superblock.sit_segments)
        || nat_size != 32 * u64::from(superblock.nat_segments)
    {
        return None;
    }
    // "192 + both sizes > 4,092"
    if MAPS_AT + sit_size + nat_size > CHECKSUM_AT as u64 {
        return None;
    }
    // "The SIT map starts at 192, the NAT map after it."
    let both = first.get(MAPS_AT as usize..(MAPS_AT + sit_size + nat_size) as usize)?;
    both.split_at_checked(sit_size as usize)
}

/// The bytes of the chosen pack that start with the NAT journal and those that start with the SIT
/// journal; `None` if the journal block is out of place.
fn journal_places<'a>(image: &'a [u8], pack: &Pack) -> Option<(&'a [u8], &'a [u8])> {
    let first = block(image, pack.start);
    let (nat_block, nat_at) = journal_place(first, pack.total)?;
    let (sit_block, sit_at) = sit_journal_place(first, nat_block);
    let nat = block(image, pack.start + nat_block).get(nat_at..)?;
    let sit = block(image, pack.start + sit_block).get(sit_at..)?;
    Some((nat, sit))
}

/// The NAT journal's entries; `None` if it counts too many or names a number twice.
pub(crate) fn nat_journal(journal: &[u8]) -> Option<&[u8]> {
    // "A journal is a 16-bit count, at most 38 (else 8), then 13-byte entries"
    let count = usize::from(le16(journal, 0));
    if count > JOURNAL_MOST {
        return None;
    }
    let entries = journal.get(2..2 + count * JOURNAL_ENTRY_SIZE)?;
    // "Answer 8 also if [...] the NAT journal names one number twice."
    (!names_one_twice(entries)).then_some(entries)
}

/// Whether two of the entries have the same number, valid or not. What else they say is not
/// consulted.
fn names_one_twice(entries: &[u8]) -> bool {
    let numbers = || entries.chunks_exact(JOURNAL_ENTRY_SIZE).map(|entry| le32(entry, 0));
    numbers()
        .enumerate()
        .any(|(position, number)| numbers().skip(position + 1).any(|later| later == number))
}

/// The NAT journal's block within the pack and its first byte there.
pub(crate) fn journal_place(first: &[u8], total: u64) -> Option<(u64, usize)> {
    let flags = le32(first, 132);
    // "Compact: the journal block is the start-of-summaries number (140), 1 to total − 2; NAT
    // journal at its byte 0."
    if flags & COMPACT != 0 {
        let summaries = u64::from(le32(first, 140));
        return (1..=total - 2).contains(&summaries).then_some((summaries, 0));
    }
    // "Else it is block total − 7 with unmount or fastboot, total − 4 without, and at least 1;
    // journal at its byte 3,584."
    let back = if flags & (UNMOUNT | FASTBOOT) != 0 { 7 } else { 4 };
    let summary = total.checked_sub(back)?;
    (summary >= 1).then_some((summary, 3584))
}

/// The same for the SIT journal: "Compact packs hold that journal at byte 507, others at 3,584 of
/// the summary two blocks after hot data." Hot data's summary is the journal block. Plain packs
/// have it at total − 4 or before, so two blocks on is still in the pack.
fn sit_journal_place(first: &[u8], journal_block: u64) -> (u64, usize) {
    if le32(first, 132) & COMPACT != 0 {
        (journal_block, 507)
    } else {
        (journal_block + 2, 3584)
    }
}

#[cfg(test)]
mod tests {
    use super::*;
    use crate::path::MOST_ROOMS;
    use crate::sample::{Lent, Sample, DAMAGE, FIRST_PACK, NAME, SECOND_PACK};

    /// Opening's answer, or 0. The pull has it too, and so has a reader.
    fn answer(sample: &Sample) -> u32 {
        let answer = open(&sample.bytes).err().unwrap_or(0);
        let pulled = Lent::with_buffer(4096, MOST_ROOMS).pull(sample, NAME, 0).answer;
        assert_eq!(if (4..=8).contains(&pulled) { pulled } else { 0 }, answer);
        answer
    }

    /// The first block of the chosen pack.
    fn chosen(sample: &Sample) -> Option<usize> {
        let superblock = superblock_in_use(&sample.bytes).unwrap();
        chosen_pack(&sample.bytes, &superblock).map(|pack| pack.start as usize)
    }

    #[test]
    fn empty_one_block_and_too_many_blocks_are_4() {
        assert_eq!(open(&[]).err(), Some(4));
        assert_eq!(open(&[0; 4096]).err(), Some(4));
        assert_eq!(open(&[0; 4097]).err(), Some(4));
        assert!(!is_image_length(4_194_305 * 4096));
        assert!(is_image_length(4_194_304 * 4096));
        assert_eq!(open(&[0; 8192]).err(), Some(5));
    }

    #[test]
    fn lengths_up_to_the_limit_and_over_it() {
        // Around document 01's own limit, byte 2^32 and the limit that holds now.
        let in_shape = [262_144, 262_145, 1_048_575, 1_048_576, 1_048_577, 4_194_303, 4_194_304];
        for blocks in in_shape {
            assert!(is_image_length(blocks * 4096), "{blocks} blocks");
            for length in [blocks * 4096 - 1, blocks * 4096 + 1, blocks * 4096 + 4095] {
                assert!(!is_image_length(length), "{length} bytes");
            }
        }
        // Cut to 32 bits, the second and the last would be 2 blocks long.
        for blocks in [4_194_305, 4_194_306, 8_388_608, (1 << 32) + 2] {
            assert!(!is_image_length(blocks * 4096), "{blocks} blocks");
        }
        assert!(!is_image_length(usize::MAX));
    }

    /// The superblock alone, since its image would be too much to lend here.
    #[test]
    fn superblock_of_the_largest_card() {
        let mut sample = Sample::new();
        for (at, value) in [(36, 4_194_304), (48, 8191), (68, 8184)] {
            sample.put32(0, 1024 + at, value);
        }
        let superblock = Superblock::read(block(&sample.bytes, 0)).unwrap();
        assert_eq!(superblock.main_end(), 4_194_304);
        assert!(superblock.passes(4_194_304));
        assert!(!superblock.passes(4_194_303));
    }

    #[test]
    fn tour_volume_of_100_mb() {
        let mut sample = Sample::new();
        sample.resize_main(42);
        let superblock = superblock_in_use(&sample.bytes).unwrap();
        assert_eq!((superblock.main_address, superblock.main_end()), (4096, 25600));
        assert_eq!(answer(&sample), 0);
        sample.put32(0, 1024 + 2180, 0x8);
        assert_eq!(answer(&sample), 6);
    }

    #[test]
    fn second_copy_only_if_the_first_does_not_pass() {
        let mut sample = Sample::new();
        sample.copy_block(0, 1);
        sample.put32(0, 1024, 0);
        assert_eq!(answer(&sample), 0);
        sample.put32(1, 1024 + 1664, 1);
        assert_eq!(answer(&sample), 6);
        sample.put32(1, 1024 + 16, 13);
        assert_eq!(answer(&sample), 5);
    }

    #[test]
    fn superblock_rules() {
        let wrong = [
            (8, 8), (8, 13), (12, 4), (20, 8), (24, 0), (28, 0), (36, 1), (48, 6), (52, 3),
            (56, 3), (60, 0), (68, u32::MAX), (72, 511), (84, 2559), (96, 4), (100, 2), (104, 1),
        ];
        for (at, value) in wrong {
            let mut sample = Sample::new();
            sample.put32(0, 1024 + at, value);
            assert_eq!(answer(&sample), 5, "offset {at} value {value}");
        }
    }

    #[test]
    fn pack_on_its_first_block_alone_does_not_pass() {
        let mut sample = Sample::new();
        assert_eq!(answer(&sample), 0);
        sample.put32(FIRST_PACK + 7, 0, 4);
        sample.seal(FIRST_PACK + 7);
        assert_eq!(answer(&sample), 7);
    }

    #[test]
    fn the_wrapped_difference_is_above_zero() {
        let half = 1 << 63;
        let wins = [
            (0, false),
            (1, true),
            (half - 1, true),
            (half, false),
            (half + 1, false),
            (u64::MAX, false),
        ];
        // Wherever the first version stands, the difference alone decides.
        for first in [0, 1, 5, half - 1, half, half + 1, u64::MAX - 1, u64::MAX] {
            for (difference, expected) in wins {
                let second = first.wrapping_add(difference);
                assert_eq!(second_wins(first, second), expected, "{first:x} {second:x}");
            }
        }
    }

    #[test]
    fn versions_choose_the_pack() {
        let mut sample = Sample::new();
        let choices = [
            // "Versions 5 and 5: first pack."
            (5, 5, FIRST_PACK),
            (u64::MAX, u64::MAX, FIRST_PACK),
            (5, 6, SECOND_PACK),
            (6, 5, FIRST_PACK),
            // "Versions FFFFFFFFFFFFFFFF and 0 choose the 0."
            (0xFFFF_FFFF_FFFF_FFFF, 0, SECOND_PACK),
            (0, 0xFFFF_FFFF_FFFF_FFFF, FIRST_PACK),
            // "A difference of exactly 2^63 keeps the first pack."
            (0, 0x8000_0000_0000_0000, FIRST_PACK),
            (0x8000_0000_0000_0000, 0, FIRST_PACK),
            (5, 0x8000_0000_0000_0005, FIRST_PACK),
            (0x8000_0000_0000_0005, 5, FIRST_PACK),
            // One less and one more than that.
            (5, 0x8000_0000_0000_0004, SECOND_PACK),
            (0x8000_0000_0000_0004, 5, FIRST_PACK),
            (5, 0x8000_0000_0000_0006, FIRST_PACK),
            (0x8000_0000_0000_0006, 5, SECOND_PACK),
            // One apart where a signed version would turn.
            (0x7FFF_FFFF_FFFF_FFFF, 0x8000_0000_0000_0000, SECOND_PACK),
            (0x8000_0000_0000_0000, 0x7FFF_FFFF_FFFF_FFFF, FIRST_PACK),
            // All 64 bits count.
            (0, 0x8000_0000, SECOND_PACK),
            (0, 0x1_0000_0000, SECOND_PACK),
            (0x1_0000_0000, 1, FIRST_PACK),
        ];
        for (first, second, expected) in choices {
            sample.put_pack(FIRST_PACK, first, 8);
            sample.put_pack(SECOND_PACK, second, 8);
            assert_eq!(chosen(&sample), Some(expected), "{first:x} {second:x}");
        }
    }

    #[test]
    fn a_pack_that_does_not_pass_is_not_chosen() {
        let mut sample = Sample::new();
        let spoil: [fn(&mut Sample, usize); 3] = [
            |sample, pack| sample.put32(pack, 4092, 0),
            |sample, pack| sample.put32(pack + 7, 4092, 0),
            |sample, pack| {
                sample.put64(pack + 7, 0, 7);
                sample.seal(pack + 7);
            },
        ];
        for (first, second) in [(5, 5), (5, 6), (6, 5), (u64::MAX, 0), (0, 1 << 63)] {
            for spoil in spoil {
                for (spoiled, other) in [(FIRST_PACK, SECOND_PACK), (SECOND_PACK, FIRST_PACK)] {
                    sample.put_pack(FIRST_PACK, first, 8);
                    sample.put_pack(SECOND_PACK, second, 8);
                    spoil(&mut sample, spoiled);
                    assert_eq!(chosen(&sample), Some(other), "{first:x} {second:x}");
                    spoil(&mut sample, other);
                    assert_eq!(chosen(&sample), None, "{first:x} {second:x}");
                }
            }
        }
    }

    #[test]
    fn the_chosen_pack_is_read() {
        let mut sample = Sample::new();
        sample.put_journal_at(FIRST_PACK + 1, 3584, &[(5, 5, 4100)]);
        sample.put_journal_at(SECOND_PACK + 1, 3584, &[(5, 5, 4100), (6, 6, 4101)]);
        for (first, second, entries) in [(u64::MAX, 0, 2), (0, u64::MAX, 1)] {
            sample.put_pack(FIRST_PACK, first, 8);
            sample.put_pack(SECOND_PACK, second, 8);
            let volume = open(&sample.bytes).unwrap();
            assert_eq!(volume.journal.len(), entries * 13, "{first:x} {second:x}");
        }
    }

    #[test]
    fn journal_count_38_is_read_39_is_8() {
        let mut sample = Sample::new();
        let entries: Vec<_> = (0..39).map(|number| (number, number, 4100)).collect();
        sample.put_journal(&entries[..38]);
        assert_eq!(open(&sample.bytes).unwrap().journal.len(), 38 * 13);
        sample.put_journal(&entries);
        assert_eq!(answer(&sample), 8);
    }

    #[test]
    fn journal_places() {
        let mut first = vec![0; 4096];
        assert_eq!(journal_place(&first, 5), Some((1, 3584)));
        assert_eq!(journal_place(&first, 4), None);
        assert_eq!(journal_place(&first, 2), None);
        first[132] = 0x20;
        assert_eq!(journal_place(&first, 8), Some((1, 3584)));
        assert_eq!(journal_place(&first, 7), None);
        first[132] = 0x05;
        first[140] = 4;
        assert_eq!(journal_place(&first, 6), Some((4, 0)));
        assert_eq!(journal_place(&first, 5), None);
        first[140] = 0;
        assert_eq!(journal_place(&first, 2), None);
    }

    #[test]
    fn sit_journal_places() {
        let mut first = vec![0; 4096];
        assert_eq!(sit_journal_place(&first, 4), (6, 3584));
        first[132] = 0x21;
        assert_eq!(sit_journal_place(&first, 1), (3, 3584));
        first[132] = 0x25;
        assert_eq!(sit_journal_place(&first, 1), (1, 507));
    }

    #[test]
    fn sit_map_before_the_nat_map() {
        let mut sample = Sample::new();
        sample.put(FIRST_PACK, 192 + 63, &[1, 2]);
        sample.seal(FIRST_PACK);
        let volume = open(&sample.bytes).unwrap();
        assert_eq!((volume.sit_map.len(), volume.sit_map[63]), (64, 1));
        assert_eq!((volume.nat_map.len(), volume.nat_map[0]), (64, 2));
    }

    #[test]
    fn unreadable_maps_are_8() {
        for (at, value) in [(132, 0x401), (156, 96), (160, 32)] {
            let mut sample = Sample::new();
            sample.put32(FIRST_PACK, at, value);
            sample.seal(FIRST_PACK);
            assert_eq!(answer(&sample), 8, "offset {at}");
        }
    }

    #[test]
    fn error_and_needs_check_are_8_with_any_others() {
        let mut sample = Sample::new();
        // The start of summaries, which only compact packs consult.
        sample.put32(FIRST_PACK, 140, 1);
        // The last are all but these two and the large map.
        for others in [0x00, 0x01, 0x04, 0x05, 0x20, 0x21, 0x24, 0x25, 0xFFFF_FBE7] {
            sample.put_flags(others);
            assert_eq!(answer(&sample), 0, "flags {others:x}");
            for marks in [0x08, 0x10, 0x18, 0x408, 0x410] {
                sample.put_flags(others | marks);
                assert_eq!(answer(&sample), 8, "flags {others:x} and {marks:x}");
            }
        }
    }

    #[test]
    fn each_flag_alone() {
        let mut sample = Sample::new();
        sample.put32(FIRST_PACK, 140, 1);
        for bit in 0..32 {
            let flag = 1 << bit;
            sample.put_flags(flag);
            let expected = if [0x08, 0x10, 0x400].contains(&flag) { 8 } else { 0 };
            assert_eq!(answer(&sample), expected, "flag {flag:x}");
        }
    }

    #[test]
    fn flags_of_the_last_block_are_not_consulted() {
        let mut sample = Sample::new();
        sample.put32(FIRST_PACK + 7, 132, 0x19);
        sample.seal(FIRST_PACK + 7);
        assert_eq!(answer(&sample), 0);
    }

    #[test]
    fn a_damaged_pack_is_8_if_chosen_and_chosen_as_before() {
        for (first, second) in [(5, 5), (5, 6), (6, 5), (u64::MAX, 0), (0, 1 << 63)] {
            for damage in DAMAGE {
                let mut sample = Sample::new();
                sample.put_pack(FIRST_PACK, first, 8);
                sample.put_pack(SECOND_PACK, second, 8);
                let read = chosen(&sample).unwrap();
                let other = FIRST_PACK + SECOND_PACK - read;
                damage(&mut sample, other);
                assert_eq!(chosen(&sample), Some(read), "{first:x} {second:x}");
                assert_eq!(answer(&sample), 0, "{first:x} {second:x}");
                damage(&mut sample, read);
                assert_eq!(chosen(&sample), Some(read), "{first:x} {second:x}");
                assert_eq!(answer(&sample), 8, "{first:x} {second:x}");
                // An undamaged other pack doesn't help.
                sample.put16(other + 1, 3584, 0);
                sample.put_pack(other, if other == FIRST_PACK { first } else { second }, 8);
                assert_eq!(chosen(&sample), Some(read), "{first:x} {second:x}");
                assert_eq!(answer(&sample), 8, "{first:x} {second:x}");
                // Unless the damaged one doesn't even pass.
                sample.put32(read, 4092, 0);
                assert_eq!(answer(&sample), 0, "{first:x} {second:x}");
            }
        }
    }

    #[test]
    fn damage_comes_after_4_to_7() {
        for damage in DAMAGE {
            let mut sample = Sample::new();
            damage(&mut sample, FIRST_PACK);
            assert_eq!(answer(&sample), 8);
            sample.put32(FIRST_PACK + 7, 4092, 0);
            assert_eq!(answer(&sample), 7);
            sample.put32(0, 1024 + 2180, 1);
            assert_eq!(answer(&sample), 6);
            sample.put32(0, 1024, 0);
            assert_eq!(answer(&sample), 5);
            sample.bytes.pop();
            assert_eq!(answer(&sample), 4);
        }
    }

    /// The bytes of a NAT journal with these numbers, no two of their NAT entries equal.
    fn journal(numbers: &[u32]) -> Vec<u8> {
        let mut journal = (numbers.len() as u16).to_le_bytes().to_vec();
        for (position, number) in numbers.iter().enumerate() {
            journal.extend(number.to_le_bytes());
            journal.extend([position as u8; 9]);
        }
        journal
    }

    #[test]
    fn a_number_twice_at_any_two_places() {
        let distinct: Vec<u32> = (100..138).collect();
        assert!(nat_journal(&journal(&distinct)).is_some());
        for second in 1..38 {
            for first in 0..second {
                let mut numbers = distinct.clone();
                numbers[second] = numbers[first];
                let mut journal = journal(&numbers);
                assert_eq!(nat_journal(&journal), None, "places {first} and {second}");
                // The second is the last that is counted, then the first that isn't.
                journal[0] = second as u8 + 1;
                assert_eq!(nat_journal(&journal), None, "places {first} and {second}");
                journal[0] = second as u8;
                assert!(nat_journal(&journal).is_some(), "places {first} and {second}");
            }
        }
    }

    #[test]
    fn any_number_twice() {
        // 0, valid numbers from the first to the last, and numbers out of range.
        let numbers = [0, 1, 3, 0x100, 455 * 512 - 1, 455 * 512, 0x100_0000, 1 << 31, u32::MAX];
        assert!(nat_journal(&journal(&numbers)).is_some());
        for number in numbers {
            assert!(nat_journal(&journal(&[number])).is_some(), "number {number}");
            assert_eq!(nat_journal(&journal(&[number; 2])), None, "number {number}");
            assert_eq!(nat_journal(&journal(&[number; 38])), None, "number {number}");
            assert_eq!(nat_journal(&journal(&[7, number, 8, number])), None, "number {number}");
        }
        assert_eq!(nat_journal(&journal(&[])), Some(&[][..]));
    }

    #[test]
    fn equal_and_unequal_entries() {
        let mut equal = journal(&[5, 5]);
        equal[15 + 4..].fill(0);
        assert_eq!(nat_journal(&equal), None);
        for at in 4..13 {
            let mut unequal = equal.clone();
            unequal[15 + at] = 1;
            assert_eq!(nat_journal(&unequal), None, "byte {at}");
        }
        // The number alone tells them apart, each of its bytes.
        for at in 0..4 {
            let mut other = equal.clone();
            other[15 + at] = 1;
            assert!(nat_journal(&other).is_some(), "byte {at}");
        }
    }

    #[test]
    fn a_number_twice_in_plain_and_compact_packs() {
        let places = [
            (0x00, 0, 4, 3584), (0x01, 0, 1, 3584), (0x20, 0, 1, 3584), (0x21, 0, 1, 3584),
            (0x04, 1, 1, 0), (0x05, 6, 6, 0), (0x24, 2, 2, 0), (0x25, 4, 4, 0),
        ];
        for (flags, summaries, block, at) in places {
            let mut sample = Sample::new();
            // In every place that holds a journal in some pack; only this pack's own counts.
            for block in 1..7 {
                for at in [0, 507, 3584] {
                    sample.put_journal_at(FIRST_PACK + block, at, &[(5, 5, 4100), (5, 5, 4100)]);
                }
            }
            sample.put32(FIRST_PACK, 140, summaries);
            sample.put_flags(flags);
            assert_eq!(answer(&sample), 8, "flags {flags:x}");
            sample.put16(FIRST_PACK + block, at, 1);
            assert_eq!(answer(&sample), 0, "flags {flags:x}");
            let entries = [(5, 5, 4100), (6, 6, 4101), (5, 7, 4102)];
            sample.put_journal_at(FIRST_PACK + block, at, &entries[..2]);
            assert_eq!(answer(&sample), 0, "flags {flags:x}");
            sample.put_journal_at(FIRST_PACK + block, at, &entries);
            assert_eq!(answer(&sample), 8, "flags {flags:x}");
        }
    }
}

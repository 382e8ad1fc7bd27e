//! Opening a card. What of it needs no checksum is the reference's; its own goes bit by bit, which isn't fair to time.

use reference::bytes::{block, le16, le32, le64};
use reference::open::{superblock_in_use, Volume, JOURNAL_ENTRY_SIZE};
use std::cmp::Reverse;

use super::crc32::checksum;

const CHECKSUM_AT: usize = 4092;
const MAPS_AT: usize = 192;
const UNMOUNT: u32 = 0x1;
const COMPACT: u32 = 0x4;
const FASTBOOT: u32 = 0x20;
/// Error, needs-check, large NAT map.
const NOT_READ: u32 = 0x418;

pub fn open(image: &[u8]) -> Option<Volume<'_>> {
    let superblock = superblock_in_use(image)?;
    let start = u64::from(superblock.checkpoint_address);
    let mut packs = [start, start + 512];
    packs.sort_by_key(|&first| Reverse(le64(block(image, first), 0)));
    let first = packs.into_iter().find(|&first| passes(image, first))?;
    let pack = block(image, first);
    if le32(pack, 132) & NOT_READ != 0 {
        return None;
    }
    let nat_map_at = MAPS_AT + le32(pack, 156) as usize;
    Some(Volume {
        image,
        main_start: superblock.main_address,
        main_end: superblock.main_end() as u32,
        main_segments: superblock.main_segments,
        sit_address: superblock.sit_address,
        sit_segments: superblock.sit_segments,
        sit_map: &[],
        sit_journal: &[],
        nat_address: superblock.nat_address,
        nat_segments: superblock.nat_segments,
        nat_map: &pack[nat_map_at..nat_map_at + le32(pack, 160) as usize],
        journal: journal(image, first),
    })
}

/// Whether a pack's first and last block have their checksums and one version.
fn passes(image: &[u8], first: u64) -> bool {
    let sound = |number| {
        let block = block(image, number);
        le32(block, CHECKSUM_AT) == checksum(&block[..CHECKSUM_AT])
    };
    let last = first + u64::from(le32(block(image, first), 136)) - 1;
    le64(block(image, first), 0) == le64(block(image, last), 0) && sound(first) && sound(last)
}

/// The entries of the NAT journal.
fn journal(image: &[u8], first: u64) -> &[u8] {
    let pack = block(image, first);
    let (flags, total) = (le32(pack, 132), u64::from(le32(pack, 136)));
    let (number, at) = if flags & COMPACT != 0 {
        (first + u64::from(le32(pack, 140)), 0)
    } else if flags & (UNMOUNT | FASTBOOT) != 0 {
        (first + total - 7, 3584)
    } else {
        (first + total - 4, 3584)
    };
    let journal = &block(image, number)[at..];
    &journal[2..2 + JOURNAL_ENTRY_SIZE * le16(journal, 0) as usize]
}

//! What is read of an inode: its kind and size, and where a file's bytes or a directory's slots
//! stand.

use crate::bytes::{le16, le32, le64, BLOCK_SIZE};
use crate::levels::{hash_levels, HashLevel};
use crate::place::{file_place, Place, Way, ADDRESSES, ADDRESSES_WITH_XATTR};

/// "top four bits 4 directory, 8 regular"
const DIRECTORY: u16 = 4;
const REGULAR: u16 = 8;

/// The bits of "inline byte 3" that are consulted; bit 8 hex and the others are not.
const ATTRIBUTES: u8 = 0x01;
const INLINE_DATA: u8 = 0x02;
const INLINE_DIRECTORY: u8 = 0x04;
const NEVER_READ: u8 = 0x20;

/// "addresses from 360", and K4: "Both start one address word into the address area."
pub const INLINE_AT: usize = 364;

/// "With 50 words kept for attributes that is 3,488 bytes, without them 3,688"
const ROOM_BESIDE_ATTRIBUTES: u64 = 3488;
const ROOM: u64 = 3688;

/// An inode that was read and belongs where it was looked for.
#[derive(Clone, Copy)]
pub struct Inode<'a> {
    pub number: u32,
    pub block: &'a [u8],
}

/// Where the bytes of a regular file stand.
#[derive(Debug, PartialEq, Eq)]
pub enum FileBytes<'a> {
    /// All of them in the inode, and here.
    Inline(&'a [u8]),
    Blocks,
}

/// Where one block of a regular file stands.
pub enum FileBlock<'a> {
    /// In the inode, and here.
    Inline(&'a [u8]),
    /// At the end of this way.
    Below(Way),
}

/// Where the slots of a directory stand.
#[derive(Debug, PartialEq, Eq)]
pub enum DirectorySlots {
    /// All of them in the inode: "scanned at any depth up to 63", so without hash levels.
    Inline,
    Blocks(Vec<HashLevel>),
}

impl<'a> Inode<'a> {
    /// "size 16 (64 bits)"
    pub fn size(&self) -> u64 {
        le64(self.block, 16)
    }

    /// "Inline bit 1 set: A = 873 addresses, else A = 923."
    pub fn addresses(&self) -> u32 {
        if self.has(ATTRIBUTES) {
            ADDRESSES_WITH_XATTR
        } else {
            ADDRESSES
        }
    }

    /// Whether any of these inline bits is set.
    fn has(&self, bits: u8) -> bool {
        self.block.get(3).is_some_and(|inline| inline & bits != 0)
    }

    /// A regular file's bytes, or 12.
    pub fn file_bytes(&self) -> Result<FileBytes<'a>, u32> {
        self.expect_kind(REGULAR, INLINE_DIRECTORY)?;
        if !self.has(INLINE_DATA) {
            return Ok(FileBytes::Blocks);
        }
        let room = if self.has(ATTRIBUTES) { ROOM_BESIDE_ATTRIBUTES } else { ROOM };
        let size = self.expect_size_within(room)?;
        let bytes = self.block.get(INLINE_AT..INLINE_AT + size).unwrap_or(&[]);
        Ok(FileBytes::Inline(bytes))
    }

    /// Block `index` of a regular file, with its byte count; or 12, then 3.
    pub fn file_block(&self, index: u32) -> Result<(u32, FileBlock<'a>), u32> {
        let bytes = self.file_bytes()?;
        // "Answer 3 if index × 4,096 ≥ size or the index is larger."
        let start = u64::from(index) * BLOCK_SIZE as u64;
        if start >= self.size() {
            return Err(3);
        }
        // "Count: the smaller of 4,096 and size − 4,096 × index."
        let count = (self.size() - start).min(BLOCK_SIZE as u64) as u32;
        let place = match bytes {
            // No inline file has 4,096 bytes, so the index is 0 and the block is all of them.
            FileBytes::Inline(bytes) => FileBlock::Inline(bytes),
            FileBytes::Blocks => match file_place(self.addresses(), index) {
                Place::Way(way) => FileBlock::Below(way),
                Place::BadAddresses | Place::Past => return Err(3),
            },
        };
        Ok((count, place))
    }

    /// A directory's slots if there are any to search: "Then size 0: 2; size isn't consulted
    /// otherwise."
    pub fn slots_to_search(&self) -> Result<DirectorySlots, u32> {
        let slots = self.directory_slots()?;
        if self.size() == 0 {
            return Err(2);
        }
        Ok(slots)
    }

    /// A directory's slots, or 12. What the directory's depth or level refuses, it refuses for
    /// inline slots too, although these don't go by them.
    pub fn directory_slots(&self) -> Result<DirectorySlots, u32> {
        self.expect_kind(DIRECTORY, INLINE_DATA)?;
        let levels = self.hash_levels()?;
        if !self.has(INLINE_DIRECTORY) {
            return Ok(DirectorySlots::Blocks(levels));
        }
        // "an inline directory always keeps the 50, attribute bit or not"
        self.expect_size_within(ROOM_BESIDE_ATTRIBUTES)?;
        Ok(DirectorySlots::Inline)
    }

    /// "The root must be a directory and the file regular, [...] else 12." K7: "Each name but the
    /// last must be a directory, else 12." Of the inline bits 20 hex stays with that 12. K4: "Bits 2
    /// and 4 leave 12 in document 01 otherwise; both together, 2 on a directory, and 4 on a regular
    /// file stay 12." So each kind has one bit that is foreign to it, and both together are foreign
    /// to both.
    fn expect_kind(&self, kind: u16, foreign: u8) -> Result<(), u32> {
        let mode = le16(self.block, 0);
        if mode >> 12 != kind || self.has(foreign | NEVER_READ) {
            return Err(12);
        }
        Ok(())
    }

    /// "A size above the room is 12." A size up to it is given as a length.
    fn expect_size_within(&self, room: u64) -> Result<usize, u32> {
        if self.size() > room {
            return Err(12);
        }
        Ok(self.size() as usize)
    }

    /// The hash levels of a directory, or 12 for its depth or level: "depth 72, directory level 347
    /// (one byte)". A file's level isn't consulted.
    pub fn hash_levels(&self) -> Result<Vec<HashLevel>, u32> {
        let level = self.block.get(347).copied().unwrap_or(0);
        hash_levels(level, le32(self.block, 72))
    }
}

#[cfg(test)]
mod tests {
    use super::*;
    use crate::sample::Sample;

    /// Sizes around both rooms; the later ones would fit if cut to 32 bits.
    const SIZES: [u64; 13] = [
        0, 1, 3487, 3488, 3489, 3687, 3688, 3689, 4096, 1 << 32, (1 << 32) + 1, 1 << 63, u64::MAX,
    ];

    /// An inode by itself. From 360 on each byte holds how far it is from 364, its low 8 bits.
    fn inode(mode: u16, inline: u8, size: u64) -> Sample {
        let mut sample = Sample { bytes: vec![0; 4096] };
        sample.put16(0, 0, mode);
        sample.put(0, 3, &[inline]);
        sample.put64(0, 16, size);
        for at in 360..4072 {
            sample.put(0, at, &[(at + 256 - 364) as u8]);
        }
        sample
    }

    fn file_bytes(sample: &Sample) -> Result<FileBytes<'_>, u32> {
        Inode { number: 7, block: &sample.bytes }.file_bytes()
    }

    fn directory_slots(sample: &Sample) -> Result<DirectorySlots, u32> {
        Inode { number: 3, block: &sample.bytes }.directory_slots()
    }

    /// All inline bytes, so every mix of bits 1, 2, 4, 8 and 20 hex among them, on all kinds.
    #[test]
    fn bits_and_kinds() {
        let hundred: Vec<u8> = (0..100).collect();
        for (kind, inline) in (0..16u16).flat_map(|kind| (0..=255).map(move |bits| (kind, bits))) {
            let sample = inode(kind << 12 | 0x1ED, inline, 100);
            let [data, slots, never] = [2, 4, 0x20].map(|bit| inline & bit != 0);
            let as_file = match (kind, data, slots, never) {
                (8, true, false, false) => Ok(FileBytes::Inline(&hundred)),
                (8, false, false, false) => Ok(FileBytes::Blocks),
                _ => Err(12),
            };
            assert_eq!(file_bytes(&sample), as_file, "kind {kind} bits {inline:x}");
            let as_directory = match (kind, data, slots, never) {
                (4, false, true, false) => Ok(DirectorySlots::Inline),
                (4, false, false, false) => Ok(DirectorySlots::Blocks(Vec::new())),
                _ => Err(12),
            };
            assert_eq!(directory_slots(&sample), as_directory, "kind {kind} bits {inline:x}");
        }
    }

    /// With and without the attribute bit; bit 8 hex isn't consulted.
    #[test]
    fn sizes_of_files() {
        for (inline, room) in [(2, 3688), (3, 3488), (0x0A, 3688), (0x0B, 3488)] {
            for size in SIZES {
                let sample = inode(0x81A4, inline, size);
                if size > room {
                    assert_eq!(file_bytes(&sample), Err(12), "bits {inline:x} size {size}");
                    continue;
                }
                let bytes: Vec<u8> = (0..size).map(|at| at as u8).collect();
                let expected = Ok(FileBytes::Inline(&bytes));
                assert_eq!(file_bytes(&sample), expected, "bits {inline:x} size {size}");
            }
        }
        // Not inline, any size is read.
        for (inline, size) in [0, 1, 8].iter().flat_map(|bits| SIZES.map(|size| (bits, size))) {
            let sample = inode(0x81A4, *inline, size);
            assert_eq!(file_bytes(&sample), Ok(FileBytes::Blocks), "bits {inline:x} size {size}");
        }
    }

    /// "an inline directory always keeps the 50, attribute bit or not"
    #[test]
    fn sizes_of_directories() {
        for (inline, size) in [4, 5, 0x0C, 0x0D].iter().flat_map(|b| SIZES.map(|size| (b, size))) {
            let sample = inode(0x41ED, *inline, size);
            let expected = if size <= 3488 { Ok(DirectorySlots::Inline) } else { Err(12) };
            assert_eq!(directory_slots(&sample), expected, "bits {inline:x} size {size}");
        }
        for (inline, size) in [0, 1, 8].iter().flat_map(|bits| SIZES.map(|size| (bits, size))) {
            let sample = inode(0x41ED, *inline, size);
            assert!(matches!(directory_slots(&sample), Ok(DirectorySlots::Blocks(_))));
        }
    }

    #[test]
    fn depth_and_level_of_directories() {
        for (depth, level) in [0, 1, 63, 64, u32::MAX].iter().flat_map(|depth| {
            [0, 1, 30, 31, 255].map(|level| (*depth, level))
        }) {
            let mut sample = inode(0x41ED, 4, 3488);
            sample.put32(0, 72, depth);
            sample.put(0, 347, &[level]);
            let read = depth <= 63 && level <= 30;
            let expected = if read { Ok(DirectorySlots::Inline) } else { Err(12) };
            assert_eq!(directory_slots(&sample), expected, "depth {depth} level {level}");
            // The same without the bit, with as many hash levels as the depth says.
            sample.put(0, 3, &[0]);
            match directory_slots(&sample) {
                Ok(DirectorySlots::Blocks(levels)) => assert_eq!(levels.len(), depth as usize),
                other => assert!(!read && other == Err(12), "depth {depth} level {level}"),
            }
            // A file has neither.
            sample.put16(0, 0, 0x81A4);
            assert_eq!(file_bytes(&sample), Ok(FileBytes::Blocks));
        }
    }

    #[test]
    fn addresses_by_the_attribute_bit() {
        for inline in 0..=255 {
            let sample = inode(0x81A4, inline, 0);
            let expected = if inline % 2 == 1 { 873 } else { 923 };
            assert_eq!(Inode { number: 7, block: &sample.bytes }.addresses(), expected);
        }
    }
}

//! Little-endian numbers and whole blocks out of byte slices.
//!
//! "Numbers are little-endian. A block is 4,096 bytes, a segment 512 blocks."

use std::ops::Range;

pub const BLOCK_SIZE: usize = 4096;
pub const SEGMENT_BLOCKS: u64 = 512;

/// The `N` bytes at `at`, or zeros where the slice is too short. Callers read inside blocks, so
/// the zeros are never seen; they only keep every read free of panics.
fn taken<const N: usize>(bytes: &[u8], at: usize) -> [u8; N] {
    bytes
        .get(at..)
        .and_then(|rest| rest.first_chunk::<N>())
        .copied()
        .unwrap_or([0; N])
}

pub fn le16(bytes: &[u8], at: usize) -> u16 {
    u16::from_le_bytes(taken(bytes, at))
}

pub fn le32(bytes: &[u8], at: usize) -> u32 {
    u32::from_le_bytes(taken(bytes, at))
}

pub fn le64(bytes: &[u8], at: usize) -> u64 {
    u64::from_le_bytes(taken(bytes, at))
}

/// Block `number` of the image; empty if the image has no such block.
pub fn block(image: &[u8], number: u64) -> &[u8] {
    byte_range(number).and_then(|range| image.get(range)).unwrap_or(&[])
}

/// Where block `number` lies in an image; `None` if no image on this computer reaches that far.
fn byte_range(number: u64) -> Option<Range<usize>> {
    let start = usize::try_from(number).ok()?.checked_mul(BLOCK_SIZE)?;
    Some(start..start.checked_add(BLOCK_SIZE)?)
}

#[cfg(test)]
mod tests {
    use super::*;

    #[test]
    fn numbers_are_little_endian() {
        let bytes = [0x10, 0x20, 0xF5, 0xF2, 0, 0, 0, 0x80];
        assert_eq!(le16(&bytes, 0), 0x2010);
        assert_eq!(le32(&bytes, 0), 0xF2F5_2010);
        assert_eq!(le64(&bytes, 0), 0x8000_0000_F2F5_2010);
        assert_eq!(le32(&bytes, 5), 0);
    }

    #[test]
    fn blocks_have_4096_bytes() {
        let image = vec![7; 2 * BLOCK_SIZE];
        assert_eq!(block(&image, 1).len(), 4096);
        assert!(block(&image, 2).is_empty());
        assert!(block(&image, u64::MAX).is_empty());
    }

    /// A card that long is too much to lend here, so this asks where its blocks lie.
    #[test]
    fn blocks_beyond_byte_2_to_the_32() {
        assert_eq!(byte_range(1_048_575), Some(0xFFFF_F000..0x1_0000_0000));
        assert_eq!(byte_range(1_048_576), Some(0x1_0000_0000..0x1_0000_1000));
        assert_eq!(byte_range(4_194_303), Some(0x3_FFFF_F000..0x4_0000_0000));
        assert_eq!(byte_range(1 << 32), Some(1 << 44..(1 << 44) + 4096));
        // The last start that 64 bits hold, with its end beyond them, and the first they don't.
        assert_eq!(byte_range((1 << 52) - 1), None);
        assert_eq!(byte_range(1 << 52), None);
        // With the number or its byte cut to 32 or 64 bits these would be blocks 0 and 1.
        let image = vec![7; 2 * BLOCK_SIZE];
        for number in [1_048_576, 1_048_577, 1 << 32, (1 << 32) + 1, 1 << 52, (1 << 52) + 1] {
            assert!(block(&image, number).is_empty(), "block {number}");
        }
    }
}

//! Node lookup: the journal first, then the table.

use crate::bytes::{block, le32};
use crate::open::{open, Volume, JOURNAL_ENTRY_SIZE};

/// "A NAT block has 455 entries of 9 bytes: version, inode, address."
const ENTRIES_PER_BLOCK: u32 = 455;
const ENTRY_SIZE: usize = 9;

/// "4 to 8 as a pull, 9 if out of range, else 0 with the table's inode and address as stored."
pub fn node_lookup(image: &[u8], number: u32) -> Result<(u32, u32), u32> {
    lookup_in(&open(image)?, number)
}

/// "That 9, or these two numbers without the version byte, is the number's table answer."
pub type TableAnswer = Result<(u32, u32), u32>;

/// The number's table answer in an opened volume: inode and address, or 9.
pub fn lookup_in(volume: &Volume, number: u32) -> TableAnswer {
    let nat = Nat {
        address: volume.nat_address,
        segments: volume.nat_segments,
        map: volume.nat_map,
        journal: volume.journal,
    };
    match nat.entry_place(number)? {
        EntryPlace::Journal(inode, address) => Ok((inode, address)),
        EntryPlace::Table(address) => Ok(table_entry(block(volume.image, address), number)),
    }
}

/// What tells where a number's NAT entry stands.
#[derive(Clone, Copy)]
pub(crate) struct Nat<'a> {
    pub address: u32,
    pub segments: u32,
    pub map: &'a [u8],
    pub journal: &'a [u8],
}

/// Where the NAT entry of a valid number stands.
pub(crate) enum EntryPlace {
    /// In the journal, with this inode and address.
    Journal(u32, u32),
    /// In this block of the table.
    Table(u64),
}

impl Nat<'_> {
    /// The error is 9, for a number out of range.
    pub(crate) fn entry_place(&self, number: u32) -> Result<EntryPlace, u32> {
        // "Valid numbers are 1 to 455 × 256 × NAT segments − 1."
        let numbers = u64::from(ENTRIES_PER_BLOCK) * 256 * u64::from(self.segments);
        if number == 0 || u64::from(number) >= numbers {
            return Err(9);
        }
        // The journal comes before the table. That of an opened volume names no number twice.
        let mut entries = self.journal.chunks_exact(JOURNAL_ENTRY_SIZE);
        if let Some(entry) = entries.find(|entry| le32(entry, 0) == number) {
            let (inode, address) = inode_and_address(&entry[4..]);
            return Ok(EntryPlace::Journal(inode, address));
        }
        // "Otherwise table block b = number / 455"
        let b = number / ENTRIES_PER_BLOCK;
        let address = table_block_address(self.address, b, map_bit(self.map, b));
        Ok(EntryPlace::Table(address))
    }
}

/// What a table block holds for a number that belongs into it.
pub(crate) fn table_entry(table_block: &[u8], number: u32) -> (u32, u32) {
    let at = (number % ENTRIES_PER_BLOCK) as usize * ENTRY_SIZE;
    inode_and_address(table_block.get(at..).unwrap_or(&[]))
}

/// "it lies at NAT address + 2b − (b mod 512), plus 512 if bit b of the NAT map is set"
pub fn table_block_address(nat_address: u32, b: u32, bit: bool) -> u64 {
    let b = u64::from(b);
    let second_copy = if bit { 512 } else { 0 };
    u64::from(nat_address) + 2 * b - b % 512 + second_copy
}

/// "bit 0 is the top bit of a byte"
pub fn map_bit(map: &[u8], b: u32) -> bool {
    let byte = map.get(b as usize / 8).copied().unwrap_or(0);
    byte & (0x80 >> (b % 8)) != 0
}

/// The two numbers of a NAT entry after its version byte.
fn inode_and_address(entry: &[u8]) -> (u32, u32) {
    (le32(entry, 1), le32(entry, 5))
}

#[cfg(test)]
mod tests {
    use super::*;
    use crate::sample::{Sample, DAMAGE, FIRST_PACK};

    #[test]
    fn table_blocks_of_a_nat_at_2560() {
        let both = |b| (table_block_address(2560, b, false), table_block_address(2560, b, true));
        assert_eq!(both(0), (2560, 3072));
        assert_eq!(both(511), (3071, 3583));
        assert_eq!(both(512), (3584, 4096));
    }

    #[test]
    fn byte_80_is_entry_0_of_a_nat_map() {
        assert!(map_bit(&[0x80], 0));
        assert!((1..8).all(|b| !map_bit(&[0x80], b)));
    }

    #[test]
    fn number_454_is_in_table_block_0_and_455_in_1() {
        let mut sample = Sample::new();
        sample.put32(2560, 454 * 9 + 1, 77);
        sample.put32(2561, 1, 78);
        assert_eq!(node_lookup(&sample.bytes, 454), Ok((77, 0)));
        assert_eq!(node_lookup(&sample.bytes, 455), Ok((78, 0)));
    }

    #[test]
    fn range_of_two_nat_segments() {
        let sample = Sample::new();
        assert_eq!(node_lookup(&sample.bytes, 0), Err(9));
        assert_eq!(node_lookup(&sample.bytes, 455 * 512 - 1), Ok((0, 0)));
        assert_eq!(node_lookup(&sample.bytes, 455 * 512), Err(9));
        assert_eq!(node_lookup(&sample.bytes, u32::MAX), Err(9));
    }

    #[test]
    fn set_bit_reads_the_second_copy() {
        let mut sample = Sample::new();
        sample.put_nat(2560, 5, 5, 4100);
        sample.put_nat(3072, 5, 5, 4200);
        assert_eq!(node_lookup(&sample.bytes, 5), Ok((5, 4100)));
        sample.bytes[FIRST_PACK * 4096 + 192 + 64] = 0x80;
        sample.seal(FIRST_PACK);
        assert_eq!(node_lookup(&sample.bytes, 5), Ok((5, 4200)));
    }

    #[test]
    fn the_journal_decides_over_the_table() {
        let mut sample = Sample::new();
        sample.put_nat(2560, 5, 5, 4100);
        sample.put_nat(2560, 6, 6, 4101);
        sample.put_journal(&[(9, 9, 1), (5, 6, 2), (0, 1, 1), (u32::MAX, 1, 1)]);
        assert_eq!(node_lookup(&sample.bytes, 5), Ok((6, 2)));
        assert_eq!(node_lookup(&sample.bytes, 6), Ok((6, 4101)));
        assert_eq!(node_lookup(&sample.bytes, 9), Ok((9, 1)));
        assert_eq!(node_lookup(&sample.bytes, 0), Err(9));
        assert_eq!(node_lookup(&sample.bytes, u32::MAX), Err(9));
    }

    #[test]
    fn a_second_entry_with_the_number() {
        let mut sample = Sample::new();
        sample.put_journal(&[(9, 9, 1), (5, 6, 2), (5, 7, 3)]);
        assert_eq!(node_lookup(&sample.bytes, 5), Err(8));
        assert_eq!(node_lookup(&sample.bytes, 9), Err(8));
        // What stands behind the count is no entry.
        sample.put16(FIRST_PACK + 1, 3584, 2);
        assert_eq!(node_lookup(&sample.bytes, 5), Ok((6, 2)));
    }

    #[test]
    fn damage_is_8_for_every_number() {
        for damage in DAMAGE {
            let mut sample = Sample::new();
            damage(&mut sample, FIRST_PACK);
            for number in [0, 5, 20, u32::MAX] {
                assert_eq!(node_lookup(&sample.bytes, number), Err(8), "number {number}");
            }
        }
    }
}

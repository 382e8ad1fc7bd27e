//! Segment report: the main segments whose SIT entry contradicts itself.

use crate::bytes::{block, le16, le32};
use crate::lookup::map_bit;
use crate::open::{open, Volume};

/// "55 to a block, 74 bytes: 16-bit word [...], 64 bytes of map, time"
const ENTRIES_PER_BLOCK: u32 = 55;
const ENTRY_SIZE: usize = 74;
const MAP_AT: usize = 2;
const MAP_SIZE: usize = 64;

/// "78-byte entries, at most 6": a segment number before each SIT entry
const JOURNAL_ENTRY_SIZE: usize = 78;
const JOURNAL_MOST: usize = 6;

/// The result numbers of a segment report; after a refusal all but the answer are 0.
#[derive(Debug, Clone, Copy, PartialEq, Eq, Default)]
pub struct Segments {
    pub answer: u32,
    /// How many segments are listed.
    pub count: u32,
    /// The ones in all maps.
    pub valid_blocks: u32,
}

/// Lists each main segment whose count isn't the number of ones in its map. The list is lent as
/// bytes, four to a number.
pub fn segment_report(image: &[u8], list: &mut [u8]) -> Segments {
    report(image, list).unwrap_or_else(|answer| Segments { answer, ..Segments::default() })
}

/// The report, or the answer number of a refusal, which is met before anything is written.
fn report(image: &[u8], list: &mut [u8]) -> Result<Segments, u32> {
    let volume = open(image)?;
    let sit = Sit::new(volume)?;
    // "a lent list with one 32-bit number a main segment (shorter is 4, after 5 to 8)"
    if list.len() / 4 < volume.main_segments as usize {
        return Err(4);
    }
    Ok(list_wrong_counts(&sit, list))
}

/// Fills the list's first entries, rising as the segments do; later entries stay.
fn list_wrong_counts(sit: &Sit, list: &mut [u8]) -> Segments {
    let mut free = list.chunks_exact_mut(4);
    let mut segments = Segments::default();
    for segment in 0..sit.volume.main_segments {
        let entry = sit.entry(segment);
        segments.valid_blocks += entry.ones;
        if entry.valid_count != entry.ones {
            segments.count += 1;
            // The list has room for every main segment.
            if let Some(next) = free.next() {
                next.copy_from_slice(&segment.to_le_bytes());
            }
        }
    }
    segments
}

/// What a SIT entry says of its segment. Type and time aren't consulted.
#[derive(Debug, Clone, Copy, PartialEq, Eq)]
pub struct SitEntry {
    /// 0 to 1,023, as stored.
    pub valid_count: u32,
    /// The ones in the map, 0 to 512.
    pub ones: u32,
}

impl SitEntry {
    fn read(entry: &[u8]) -> SitEntry {
        let map = entry.get(MAP_AT..MAP_AT + MAP_SIZE).unwrap_or(&[]);
        SitEntry {
            // "16-bit word with the count in bits 0 to 9 and the type above"
            valid_count: u32::from(le16(entry, 0) & 0x3FF),
            ones: map.iter().map(|byte| byte.count_ones()).sum(),
        }
    }
}

/// The SIT of an opened volume: its journal, which is in shape, before its table.
#[derive(Debug, Clone, Copy)]
pub struct Sit<'a> {
    volume: Volume<'a>,
    /// The SIT journal's entries, 78 bytes each, without the count before them.
    journal: &'a [u8],
}

impl<'a> Sit<'a> {
    /// The error is the answer 8: "at most 6; more is 8".
    pub fn new(volume: Volume<'a>) -> Result<Sit<'a>, u32> {
        let count = usize::from(le16(volume.sit_journal, 0));
        if count > JOURNAL_MOST {
            return Err(8);
        }
        let entries = volume.sit_journal.get(2..2 + count * JOURNAL_ENTRY_SIZE);
        let journal = entries.ok_or(8u32)?;
        Ok(Sit { volume, journal })
    }

    /// The SIT entry of a main segment.
    pub fn entry(&self, segment: u32) -> SitEntry {
        // "from the SIT journal [...] if it is there [...]; the first of equals decides"
        let mut journalled = self.journal.chunks_exact(JOURNAL_ENTRY_SIZE);
        match journalled.find(|entry| le32(entry, 0) == segment) {
            Some(entry) => SitEntry::read(&entry[4..]),
            None => self.table_entry(segment),
        }
    }

    /// "else from the table copy the SIT map names"
    fn table_entry(&self, segment: u32) -> SitEntry {
        let volume = &self.volume;
        let b = segment / ENTRIES_PER_BLOCK;
        let bit = map_bit(volume.sit_map, b);
        let address = sit_block_address(volume.sit_address, volume.sit_segments, b, bit);
        let at = (segment % ENTRIES_PER_BLOCK) as usize * ENTRY_SIZE;
        SitEntry::read(block(volume.image, address).get(at..).unwrap_or(&[]))
    }
}

/// "table block b, plus 256 × SIT segments if its bit is set": the second copies follow the whole
/// first half.
pub fn sit_block_address(sit_address: u32, sit_segments: u32, b: u32, bit: bool) -> u64 {
    let second_copy = if bit { 256 * u64::from(sit_segments) } else { 0 };
    u64::from(sit_address) + u64::from(b) + second_copy
}

#[cfg(test)]
mod tests {
    use super::*;
    use crate::lookup::node_lookup;
    use crate::sample::{sit_entry, Sample, DAMAGE, FIRST_PACK, SECOND_PACK};

    /// The table's first block, in the first and in the second copy.
    const SIT: usize = 1536;
    const SECOND_SIT: usize = 2048;
    /// The SIT journal of the sample's first pack: unmounted, 8 blocks.
    const JOURNAL: (usize, usize) = (FIRST_PACK + 3, 3584);
    /// What lent lists hold before the call.
    const LENT: u8 = 0xAA;

    /// The report into a list of `length` bytes, and the list after it.
    fn reported(sample: &Sample, length: usize) -> (Segments, Vec<u8>) {
        let mut list = vec![LENT; length];
        (segment_report(&sample.bytes, &mut list), list)
    }

    /// The ones in all maps and the listed segments; the rest of the list must be untouched.
    fn ones_and_listed(sample: &Sample) -> (u32, Vec<u32>) {
        let (segments, list) = reported(sample, 64 * 4 + 3);
        assert_eq!(segments.answer, 0);
        let (listed, rest) = list.split_at(4 * segments.count as usize);
        assert!(rest.iter().all(|&byte| byte == LENT));
        (segments.valid_blocks, listed.chunks_exact(4).map(|entry| le32(entry, 0)).collect())
    }

    /// The answer of a report that must refuse, with no numbers and an untouched list.
    fn refusal(sample: &Sample, length: usize) -> u32 {
        let (segments, list) = reported(sample, length);
        assert_eq!(segments, Segments { answer: segments.answer, ..Segments::default() });
        assert!(list.iter().all(|&byte| byte == LENT));
        segments.answer
    }

    /// The count and ones of one segment.
    fn entry_of(sample: &Sample, segment: u32) -> (u32, u32) {
        let entry = Sit::new(open(&sample.bytes).unwrap()).unwrap().entry(segment);
        (entry.valid_count, entry.ones)
    }

    #[test]
    fn counts_that_match_and_that_do_not() {
        let mut sample = Sample::new();
        assert_eq!(ones_and_listed(&sample), (0, vec![]));
        sample.put_sit(SIT, 0, &sit_entry(7, 7));
        assert_eq!(ones_and_listed(&sample), (7, vec![]));
        sample.put_sit(SIT, 0, &sit_entry(6, 7));
        assert_eq!(ones_and_listed(&sample), (7, vec![0]));
        sample.put_sit(SIT, 0, &sit_entry(8, 7));
        assert_eq!(ones_and_listed(&sample), (7, vec![0]));
    }

    #[test]
    fn the_count_is_bits_0_to_9_and_the_type_above() {
        let mut sample = Sample::new();
        sample.put_sit(SIT, 0, &sit_entry(0xFFFF, 512));
        assert_eq!(entry_of(&sample, 0), (1023, 512));
        assert_eq!(ones_and_listed(&sample), (512, vec![0]));
        sample.put_sit(SIT, 0, &sit_entry(0xFC00 | 512, 512));
        assert_eq!(entry_of(&sample, 0), (512, 512));
        assert_eq!(ones_and_listed(&sample), (512, vec![]));
        sample.put_sit(SIT, 0, &sit_entry(0xFC00, 0));
        assert_eq!(ones_and_listed(&sample), (0, vec![]));
    }

    #[test]
    fn the_map_is_64_bytes() {
        let mut sample = Sample::new();
        for (at, ones) in [(1, 0), (2, 1), (65, 1), (66, 0), (73, 0)] {
            let mut entry = [0; 74];
            entry[at] = 0x80;
            sample.put_sit(SIT, 0, &entry);
            assert_eq!(entry_of(&sample, 0).1, ones, "byte {at}");
        }
    }

    #[test]
    fn segment_54_is_in_table_block_0_and_55_in_1() {
        let mut sample = Sample::new();
        sample.resize_main(56);
        sample.put_sit(SIT, 54, &sit_entry(1, 2));
        sample.put_sit(SIT + 1, 0, &sit_entry(3, 4));
        assert_eq!(entry_of(&sample, 54), (1, 2));
        assert_eq!(entry_of(&sample, 55), (3, 4));
        // No main segment, so neither listed nor counted.
        sample.put_sit(SIT + 1, 1, &sit_entry(0, 9));
        sample.put_sit(SIT, 0, &sit_entry(5, 6));
        assert_eq!(ones_and_listed(&sample), (12, vec![0, 54, 55]));
        // The second copies, each named by its own bit.
        sample.put_sit(SECOND_SIT, 54, &sit_entry(20, 20));
        sample.put_sit(SECOND_SIT + 1, 0, &sit_entry(30, 31));
        for (map, entries) in [
            (0x00, [(1, 2), (3, 4)]),
            (0x80, [(20, 20), (3, 4)]),
            (0x40, [(1, 2), (30, 31)]),
            (0xC0, [(20, 20), (30, 31)]),
            (0x3F, [(1, 2), (3, 4)]),
        ] {
            sample.put(FIRST_PACK, 192, &[map]);
            sample.seal(FIRST_PACK);
            assert_eq!([entry_of(&sample, 54), entry_of(&sample, 55)], entries, "map {map:x}");
        }
    }

    #[test]
    fn second_copies_follow_the_whole_first_half() {
        let both = |segments, b| {
            let address = |bit| sit_block_address(SIT as u32, segments, b, bit);
            (address(false), address(true))
        };
        assert_eq!(both(2, 0), (1536, 2048));
        assert_eq!(both(2, 511), (2047, 2559));
        assert_eq!(both(4, 0), (1536, 2560));
        assert_eq!(both(4, 512), (2048, 3072));
    }

    #[test]
    fn four_sit_segments_beside_two_of_nat() {
        let mut sample = Sample::new();
        // SIT at 1536, NAT at 3584, SSA at 4608, one main segment at 5120.
        let fields = [(36, 5632), (48, 10), (56, 4), (84, 3584), (88, 4608), (92, 5120)];
        for (at, value) in fields {
            sample.put32(0, 1024 + at, value);
        }
        sample.bytes.resize(5632 * 4096, 0);
        sample.put32(FIRST_PACK, 156, 128);
        sample.put(FIRST_PACK, 192, &[0x80]);
        sample.seal(FIRST_PACK);
        sample.put_sit(SECOND_SIT, 0, &sit_entry(5, 6));
        assert_eq!(ones_and_listed(&sample), (0, vec![]));
        sample.put_sit(SIT + 1024, 0, &sit_entry(1, 2));
        assert_eq!(ones_and_listed(&sample), (2, vec![0]));
    }

    #[test]
    fn the_nat_map_names_no_sit_copy() {
        let mut sample = Sample::new();
        sample.put_sit(SECOND_SIT, 0, &sit_entry(1, 2));
        sample.put(FIRST_PACK, 192 + 64, &[0xFF; 64]);
        sample.seal(FIRST_PACK);
        assert_eq!(ones_and_listed(&sample), (0, vec![]));
        sample.put(FIRST_PACK, 192, &[0x80]);
        sample.seal(FIRST_PACK);
        assert_eq!(ones_and_listed(&sample), (2, vec![0]));
    }

    #[test]
    fn the_journal_decides_over_the_table() {
        let mut sample = Sample::new();
        sample.put_sit(SIT, 0, &sit_entry(1, 2));
        let (block, at) = JOURNAL;
        sample.put_sit_journal(block, at, &[(0, sit_entry(3, 3))]);
        assert_eq!(ones_and_listed(&sample), (3, vec![]));
        // Not of an empty journal, nor of entries for other segments.
        sample.put16(block, at, 0);
        assert_eq!(ones_and_listed(&sample), (2, vec![0]));
        let others = [1, 0x100, 0x1_0000, 0x100_0000, u32::MAX];
        let others = others.map(|segment| (segment, sit_entry(3, 3)));
        sample.put_sit_journal(block, at, &others);
        assert_eq!(ones_and_listed(&sample), (2, vec![0]));
    }

    #[test]
    fn the_first_of_equals_decides() {
        let mut sample = Sample::new();
        let (block, at) = JOURNAL;
        let entries = [(7, sit_entry(1, 1)), (0, sit_entry(2, 3)), (0, sit_entry(4, 4))];
        sample.put_sit_journal(block, at, &entries);
        assert_eq!(ones_and_listed(&sample), (3, vec![0]));
    }

    #[test]
    fn first_of_equals_is_no_rule_of_the_nat_journal() {
        let twice = [(5, 5, 4100), (5, 5, 4100)];
        let entries = [(0, sit_entry(2, 3)), (0, sit_entry(4, 4))];
        // The NAT and the SIT journal of a plain and of a compact pack.
        let plain = (0x01, (FIRST_PACK + 1, 3584), JOURNAL);
        let compact = (0x05, (FIRST_PACK + 1, 0), (FIRST_PACK + 1, 507));
        for (flags, nat, sit) in [plain, compact] {
            let mut sample = Sample::new();
            sample.put32(FIRST_PACK, 140, 1);
            sample.put_flags(flags);
            sample.put_sit_journal(sit.0, sit.1, &entries);
            sample.put_journal_at(nat.0, nat.1, &twice[..1]);
            assert_eq!(ones_and_listed(&sample), (3, vec![0]), "flags {flags:x}");
            assert_eq!(node_lookup(&sample.bytes, 5), Ok((5, 4100)), "flags {flags:x}");
            sample.put_journal_at(nat.0, nat.1, &twice);
            assert_eq!(refusal(&sample, 4), 8, "flags {flags:x}");
            assert_eq!(node_lookup(&sample.bytes, 5), Err(8), "flags {flags:x}");
        }
    }

    #[test]
    fn damage_is_8_before_a_short_list_is_4() {
        for damage in DAMAGE {
            let mut sample = Sample::new();
            assert_eq!(refusal(&sample, 3), 4);
            damage(&mut sample, FIRST_PACK);
            assert_eq!(refusal(&sample, 3), 8);
            assert_eq!(refusal(&sample, 4), 8);
        }
    }

    #[test]
    fn journal_of_6_is_read_7_is_8() {
        let mut sample = Sample::new();
        let (block, at) = JOURNAL;
        let mut entries = vec![(9, sit_entry(1, 1)); 6];
        entries[5] = (0, sit_entry(4, 5));
        sample.put_sit_journal(block, at, &entries);
        assert_eq!(ones_and_listed(&sample), (5, vec![0]));
        // The sixth isn't counted.
        sample.put16(block, at, 5);
        assert_eq!(ones_and_listed(&sample), (0, vec![]));
        for count in [7, 0x100, u16::MAX] {
            sample.put16(block, at, count);
            assert_eq!(refusal(&sample, 4), 8, "count {count}");
        }
    }

    #[test]
    fn only_the_segment_report_refuses_the_sit_journal() {
        let mut sample = Sample::new();
        sample.put_nat(2560, 5, 5, 4100);
        sample.put16(JOURNAL.0, JOURNAL.1, 7);
        assert_eq!(node_lookup(&sample.bytes, 5), Ok((5, 4100)));
        assert_eq!(refusal(&sample, 4), 8);
    }

    #[test]
    fn the_journal_is_two_blocks_after_hot_data() {
        for (flags, block) in [(0x00, 6), (0x01, 3), (0x20, 3), (0x21, 3)] {
            let mut sample = Sample::new();
            sample.put_flags(flags);
            sample.put_sit_journal(FIRST_PACK + block, 3584, &[(0, sit_entry(3, 2))]);
            assert_eq!(ones_and_listed(&sample), (2, vec![0]), "flags {flags:x}");
        }
    }

    #[test]
    fn compact_packs_hold_the_journal_at_byte_507() {
        // The start of the summaries is 1 to total − 2.
        for (flags, start) in [(0x04, 1), (0x05, 6), (0x24, 2)] {
            let mut sample = Sample::new();
            sample.put32(FIRST_PACK, 140, start);
            sample.put_flags(flags);
            let block = FIRST_PACK + start as usize;
            sample.put_sit_journal(block, 507, &[(0, sit_entry(3, 2))]);
            // The plain places hold none.
            for block in 1..7 {
                sample.put16(FIRST_PACK + block, 3584, 7);
            }
            assert_eq!(ones_and_listed(&sample), (2, vec![0]), "flags {flags:x}");
            let journal = [(9, sit_entry(1, 1)); 6];
            sample.put_sit_journal(block, 507, &journal);
            assert_eq!(ones_and_listed(&sample), (0, vec![]), "flags {flags:x}");
            sample.put16(block, 507, 7);
            assert_eq!(refusal(&sample, 4), 8, "flags {flags:x}");
        }
    }

    #[test]
    fn map_and_journal_are_the_chosen_packs() {
        let mut sample = Sample::new();
        sample.resize_main(2);
        sample.put_sit(SIT, 0, &sit_entry(1, 2));
        sample.put_sit(SECOND_SIT, 0, &sit_entry(3, 4));
        sample.put_sit_journal(JOURNAL.0, JOURNAL.1, &[(1, sit_entry(5, 6))]);
        assert_eq!(ones_and_listed(&sample), (8, vec![0, 1]));
        sample.put(SECOND_PACK, 192, &[0x80]);
        sample.put_pack(SECOND_PACK, 6, 8);
        sample.put_sit_journal(SECOND_PACK + 3, 3584, &[(1, sit_entry(7, 7))]);
        assert_eq!(ones_and_listed(&sample), (11, vec![0]));
    }

    #[test]
    fn list_just_long_enough_and_too_short() {
        let mut sample = Sample::new();
        sample.resize_main(2);
        sample.put_sit(SIT, 0, &sit_entry(1, 2));
        sample.put_sit(SIT, 1, &sit_entry(3, 4));
        let full = Segments { answer: 0, count: 2, valid_blocks: 6 };
        assert_eq!(reported(&sample, 8), (full, vec![0, 0, 0, 0, 1, 0, 0, 0]));
        let (segments, list) = reported(&sample, 11);
        assert_eq!((segments, &list[8..]), (full, &[LENT; 3][..]));
        for length in [0, 4, 5, 7] {
            assert_eq!(refusal(&sample, length), 4, "length {length}");
        }
        // One number a main segment, also if fewer are listed.
        sample.put_sit(SIT, 0, &sit_entry(2, 2));
        assert_eq!(refusal(&sample, 5), 4);
        let one = Segments { answer: 0, count: 1, valid_blocks: 6 };
        assert_eq!(reported(&sample, 8), (one, vec![1, 0, 0, 0, LENT, LENT, LENT, LENT]));
    }

    /// The report reads no main block, so a small image does for the 8,184 main segments that its
    /// layout has on a card of 4,194,304 blocks.
    #[test]
    fn every_segment_of_the_largest_card() {
        let mut sample = Sample::new();
        for segment in 0..8184 {
            sample.put_sit(SIT + segment / 55, segment % 55, &sit_entry(512, 512));
        }
        sample.put_sit(SIT + 148, 43, &sit_entry(511, 512));
        let volume = Volume { main_segments: 8184, ..open(&sample.bytes).unwrap() };
        let mut list = vec![LENT; 8184 * 4];
        let segments = list_wrong_counts(&Sit::new(volume).unwrap(), &mut list);
        assert_eq!(segments, Segments { answer: 0, count: 1, valid_blocks: 8184 * 512 });
        assert_eq!(le32(&list, 0), 8183);
        assert!(list[4..].iter().all(|&byte| byte == LENT));
    }

    #[test]
    fn without_main_segments_any_list_will_do() {
        let mut sample = Sample::new();
        sample.resize_main(0);
        sample.put_sit(SIT, 0, &sit_entry(1, 2));
        for length in [0, 3, 4] {
            let (segments, list) = reported(&sample, length);
            assert_eq!(segments, Segments::default());
            assert!(list.iter().all(|&byte| byte == LENT));
        }
        sample.put16(JOURNAL.0, JOURNAL.1, 7);
        assert_eq!(refusal(&sample, 0), 8);
    }

    #[test]
    fn refusals_in_order() {
        let mut sample = Sample::new();
        sample.put_sit(SIT, 0, &sit_entry(1, 2));
        assert_eq!(refusal(&sample, 3), 4);
        sample.put16(JOURNAL.0, JOURNAL.1, 7);
        assert_eq!(refusal(&sample, 3), 8);
        sample.put32(FIRST_PACK, 4092, 0);
        assert_eq!(refusal(&sample, 3), 7);
        sample.put32(0, 1024 + 2180, 1);
        assert_eq!(refusal(&sample, 3), 6);
        sample.put32(0, 1024, 0);
        assert_eq!(refusal(&sample, 3), 5);
        sample.bytes.pop();
        assert_eq!(refusal(&sample, 3), 4);
        assert_eq!(refusal(&sample, 4), 4);
    }
}

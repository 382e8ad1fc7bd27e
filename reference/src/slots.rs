//! The slots of a directory, in a block or in its own inode, and the search for a name among them.
//!
//! "A block has 214 slots: map 27 bytes, 3 reserved, entries of 11 (hash, inode, 16-bit length,
//! type) from 30, names of 8 bytes a slot from 2,384."
//!
//! K4, of an inline directory: "Its 3,488 bytes are a 23-byte map, 7 reserved, 182 entries, 182
//! name slots".
//!
//! K5: "Skip a run of free slots at once by counting zero bits of the map." Here every free slot is
//! still passed by itself, and the runs are only counted, since "Promise, answers and lists stay as
//! they are."

use crate::bytes::{le16, le32, BLOCK_SIZE};
use crate::hash::{is_name, raw_hash};
use crate::inode::INLINE_AT;

/// Where slots lie in the 4,096 bytes that hold them.
#[derive(Clone, Copy)]
struct Layout {
    /// First byte of the map.
    start: usize,
    slots: usize,
    /// First byte of the names, counted from the start.
    names: usize,
}

/// "A block has 214 slots: [...] names of 8 bytes a slot from 2,384."
const IN_A_BLOCK: Layout = Layout { start: 0, slots: 214, names: 2384 };

/// "a 23-byte map, 7 reserved, 182 entries", so names from 23 + 7 + 182 × 11 on
const IN_AN_INODE: Layout = Layout { start: INLINE_AT, slots: 182, names: 2032 };

/// First byte of the entries, counted from the start: 27 and 3 bytes lie before them in a block, 23
/// and 7 in an inode.
const ENTRIES: usize = 30;

/// What the scan of a block or an inode comes to, and what it met on the way, slot by slot.
#[derive(Debug, Clone, Copy, PartialEq, Eq, Default)]
pub struct Scan {
    /// 0 with the inode number in the name's entry, 2 for no such name in these slots, 14 for a
    /// malformed slot, 4 for a block that is not 4,096 bytes or a name that is none.
    pub answer: u32,
    /// 0 unless the answer is 0; an entry may also hold the inode number 0.
    pub inode: u32,
    /// The entries looked at, the match or the malformed one included.
    pub entries: u32,
    /// The runs of free slots passed, each as long as it goes but never past the last slot: 213 in
    /// a block, 181 in an inode.
    pub runs: u32,
}

impl Scan {
    /// "A block's scan counts its turns, one an entry looked at and one a run skipped: at most
    /// 2e + 1 for e entries." Entries and runs together are those turns.
    pub fn most_turns(&self) -> u32 {
        2 * self.entries + 1
    }

    /// The inode number found, `None` for no such name, or the error 14.
    fn outcome(&self) -> Result<Option<u32>, u32> {
        match self.answer {
            0 => Ok(Some(self.inode)),
            2 => Ok(None),
            answer => Err(answer),
        }
    }
}

/// Scans one directory block for a name.
pub fn scan(block: &[u8], name: &[u8]) -> Scan {
    checked_scan(block, IN_A_BLOCK, name)
}

/// Scans an inline directory for a name, given its inode's block. What the inode says of itself,
/// its kind, bits and size, isn't consulted.
pub fn scan_inline(inode: &[u8], name: &[u8]) -> Scan {
    checked_scan(inode, IN_AN_INODE, name)
}

fn checked_scan(block: &[u8], layout: Layout, name: &[u8]) -> Scan {
    if block.len() != BLOCK_SIZE || !is_name(name) {
        return Scan { answer: 4, ..Scan::default() };
    }
    scan_for(block, layout, name, raw_hash(name))
}

/// The inode number in the first matching entry of a block, `None` if there is no such name in it.
/// The error is 14.
pub fn search_block(block: &[u8], name: &[u8], hash: u32) -> Result<Option<u32>, u32> {
    scan_for(block, IN_A_BLOCK, name, hash).outcome()
}

/// The same for an inline directory, given its inode's block.
pub fn search_inline(inode: &[u8], name: &[u8], hash: u32) -> Result<Option<u32>, u32> {
    scan_for(inode, IN_AN_INODE, name, hash).outcome()
}

/// "slots rising, stopping at the first match"
fn scan_for(block: &[u8], layout: Layout, name: &[u8], hash: u32) -> Scan {
    let bytes = block.get(layout.start..).unwrap_or(&[]);
    let mut met = Scan::default();
    let mut slot = 0;
    let mut in_a_run = false;
    while slot < layout.slots {
        // "A clear bit moves on one slot." The first one of a run stands for the run.
        if !slot_is_used(bytes, slot) {
            met.runs += u32::from(!in_a_run);
            in_a_run = true;
            slot += 1;
            continue;
        }
        in_a_run = false;
        met.entries += 1;
        match look_at(bytes, layout, slot, name, hash) {
            Entry::Malformed => return Scan { answer: 14, ..met },
            Entry::Match { inode } => return Scan { answer: 0, inode, ..met },
            // "or the search moves past its slots", whatever the map says of those.
            Entry::Other { slots } => slot += slots,
        }
    }
    Scan { answer: 2, ..met }
}

/// What the entry at a used slot turns out to be.
enum Entry {
    Malformed,
    Match { inode: u32 },
    Other { slots: usize },
}

/// The entry at a slot of these bytes, which start where the layout does.
fn look_at(bytes: &[u8], layout: Layout, slot: usize, name: &[u8], hash: u32) -> Entry {
    let entry = ENTRIES + 11 * slot;
    let length = usize::from(le16(bytes, entry + 8));
    let slots = length.div_ceil(8);
    // "A set one needs length 1 to 255 and ⌈length/8⌉ slots before the end, else 14"
    if !(1..=255).contains(&length) || slot + slots > layout.slots {
        return Entry::Malformed;
    }
    // "then it matches by hash, length and bytes"; "Type isn't consulted."
    let name_at = layout.names + 8 * slot;
    if le32(bytes, entry) == hash && bytes.get(name_at..name_at + length) == Some(name) {
        return Entry::Match { inode: le32(bytes, entry + 4) };
    }
    Entry::Other { slots }
}

/// "Directory maps count from the bottom bit."
fn slot_is_used(map: &[u8], slot: usize) -> bool {
    let byte = map.get(slot / 8).copied().unwrap_or(0);
    byte & (1 << (slot % 8)) != 0
}

#[cfg(test)]
mod tests {
    use super::*;
    use crate::sample::{Numbers, Sample};

    const NAME: &[u8] = b"file";
    /// The name of one slot that all the entries without a name of their own have.
    const OTHER: &[u8] = b"other";

    /// How many slots there are, and how they are scanned for `NAME`.
    type Form = (usize, fn(&Sample) -> Scan);

    /// A block and an inode.
    const FORMS: [Form; 2] = [(214, scanned), (182, scanned_inline)];

    /// A directory block by itself, all of its slots free.
    fn empty() -> Sample {
        Sample { bytes: vec![0; BLOCK_SIZE] }
    }

    fn put(sample: &mut Sample, slot: usize, inode: u32, name: &[u8]) {
        sample.put_dentry(0, slot, raw_hash(name), inode, name);
    }

    /// Names of one slot in these slots.
    fn used(slots: impl IntoIterator<Item = usize>) -> Sample {
        let mut sample = empty();
        for slot in slots {
            put(&mut sample, slot, 9, OTHER);
        }
        sample
    }

    fn put_length(sample: &mut Sample, slot: usize, length: u16) {
        sample.put16(0, 30 + 11 * slot + 8, length);
    }

    /// Sets or clears the map bits of these slots, and nothing else.
    fn put_bits(sample: &mut Sample, slots: impl IntoIterator<Item = usize>, set: bool) {
        for slot in slots {
            let bit = 1 << (slot % 8);
            let byte = &mut sample.bytes[slot / 8];
            *byte = if set { *byte | bit } else { *byte & !bit };
        }
    }

    /// The slots of a block as an inline directory: map bits 0 to 183, and entries and names of
    /// slots 0 to 181. All bytes beside them, the 7 reserved ones too, are `beside`.
    fn inlined(sample: &Sample, beside: u8) -> Vec<u8> {
        let mut inode = vec![beside; BLOCK_SIZE];
        inode[364..387].copy_from_slice(&sample.bytes[..23]);
        inode[394..2396].copy_from_slice(&sample.bytes[30..30 + 182 * 11]);
        inode[2396..3852].copy_from_slice(&sample.bytes[2384..2384 + 182 * 8]);
        inode
    }

    /// The scan for `NAME`, within the most turns whatever it meets.
    fn scanned(sample: &Sample) -> Scan {
        within_most_turns(scan(&sample.bytes, NAME))
    }

    /// The same of an inline directory with these slots, whatever stands beside them.
    fn scanned_inline(sample: &Sample) -> Scan {
        let [zeros, ones] = [0, 0xFF].map(|beside| scan_inline(&inlined(sample, beside), NAME));
        assert_eq!(zeros, ones);
        within_most_turns(zeros)
    }

    fn within_most_turns(scan: Scan) -> Scan {
        assert!(scan.runs <= scan.entries + 1, "{scan:?}");
        assert!(scan.entries + scan.runs <= scan.most_turns(), "{scan:?}");
        scan
    }

    fn missing(entries: u32, runs: u32) -> Scan {
        Scan { answer: 2, inode: 0, entries, runs }
    }

    fn malformed(entries: u32, runs: u32) -> Scan {
        Scan { answer: 14, inode: 0, entries, runs }
    }

    fn found(inode: u32, entries: u32, runs: u32) -> Scan {
        Scan { answer: 0, inode, entries, runs }
    }

    #[test]
    fn byte_80_is_slot_7_of_a_directory() {
        assert!(slot_is_used(&[0x80], 7));
        assert!((0..7).all(|slot| !slot_is_used(&[0x80], slot)));
        // Slots 0 to 6 are a run, and the entry at slot 7 is looked at.
        let mut sample = empty();
        put(&mut sample, 7, 5, NAME);
        assert_eq!(sample.bytes[0], 0x80);
        assert_eq!(FORMS.map(|(_, scanned)| scanned(&sample)), [found(5, 1, 1); 2]);
    }

    #[test]
    fn length_8_at_slot_213_fits_and_9_is_14() {
        let mut sample = used([213]);
        for (length, expected) in [(8, missing(1, 1)), (9, malformed(1, 1)), (0, malformed(1, 1))] {
            put_length(&mut sample, 213, length);
            assert_eq!(scanned(&sample), expected, "length {length}");
            let searched = if expected.answer == 2 { Ok(None) } else { Err(14) };
            assert_eq!(search_block(&sample.bytes, NAME, 1), searched, "length {length}");
        }
        put(&mut sample, 213, 5, b"8 bytes.");
        assert_eq!(scan(&sample.bytes, b"8 bytes."), found(5, 1, 1));
    }

    #[test]
    fn length_8_at_slot_181_of_an_inode_fits_and_9_is_14() {
        let mut sample = empty();
        sample.put_inline_dentry(0, 181, raw_hash(b"8 bytes."), 5, b"8 bytes.");
        // The slot's map bit, and the last bytes of its entry and of its name.
        assert_eq!(sample.bytes[364 + 22], 1 << 5);
        assert_eq!(&sample.bytes[2393..2396], [8, 0, 0]);
        assert_eq!(&sample.bytes[3844..3852], b"8 bytes.");
        assert_eq!(scan_inline(&sample.bytes, b"8 bytes."), found(5, 1, 1));
        assert_eq!(scan_inline(&sample.bytes, NAME), missing(1, 1));
        assert_eq!(search_inline(&sample.bytes, b"8 bytes.", raw_hash(b"8 bytes.")), Ok(Some(5)));
        assert_eq!(search_inline(&sample.bytes, NAME, raw_hash(NAME)), Ok(None));
        for length in [9, 0] {
            sample.put16(0, 2393, length);
            assert_eq!(scan_inline(&sample.bytes, b"8 bytes."), malformed(1, 1));
            assert_eq!(search_inline(&sample.bytes, NAME, raw_hash(NAME)), Err(14));
        }
    }

    /// A name of any length at the last slot where it fits, and one slot later.
    #[test]
    fn the_last_slots_where_names_fit() {
        for (slots, scanned) in FORMS {
            for length in 1..256usize {
                let last = slots - length.div_ceil(8);
                let mut sample = empty();
                put(&mut sample, last, 9, &vec![b'n'; length]);
                // All slots before it are free, and none behind it is left.
                assert_eq!(scanned(&sample), missing(1, 1), "length {length} of {slots} slots");
                if last + 1 < slots {
                    sample = empty();
                    put_bits(&mut sample, [last + 1], true);
                    put_length(&mut sample, last + 1, length as u16);
                    assert_eq!(scanned(&sample), malformed(1, 1), "length {length} of {slots}");
                }
            }
        }
    }

    #[test]
    fn names_of_any_length_are_found_there() {
        for length in 1..256usize {
            let name = vec![b'n'; length];
            let [mut block, mut inode] = [empty(), empty()];
            put(&mut block, 214 - length.div_ceil(8), 5, &name);
            assert_eq!(scan(&block.bytes, &name), found(5, 1, 1), "length {length}");
            let slot = 182 - length.div_ceil(8);
            inode.put_inline_dentry(0, slot, raw_hash(&name), 5, &name);
            assert_eq!(scan_inline(&inode.bytes, &name), found(5, 1, 1), "length {length}");
        }
    }

    #[test]
    fn out_of_shape_is_4() {
        let refused = Scan { answer: 4, ..Scan::default() };
        let mut sample = empty();
        put(&mut sample, 0, 5, NAME);
        let inode = inlined(&sample, 0);
        for (mut bytes, scan) in [
            (sample.bytes, scan as fn(&[u8], &[u8]) -> Scan),
            (inode, scan_inline),
        ] {
            for length in [0, 1, 364, 3852, 4095] {
                assert_eq!(scan(&bytes[..length], NAME), refused);
            }
            for name in [&b""[..], b"a/b", b"a\0b", &[b'a'; 256]] {
                assert_eq!(scan(&bytes, name), refused);
            }
            assert_eq!(scan(&bytes, NAME), found(5, 1, 0));
            bytes.push(0);
            assert_eq!(scan(&bytes, NAME), refused);
        }
    }

    #[test]
    fn all_slots_free_are_one_run() {
        assert_eq!(FORMS.map(|(_, scanned)| scanned(&empty())), [missing(0, 1); 2]);
        assert_eq!(missing(0, 1).most_turns(), 1);
    }

    #[test]
    fn all_slots_full_are_no_run() {
        for (slots, scanned) in FORMS {
            let mut sample = used(0..slots);
            assert_eq!(scanned(&sample), missing(slots as u32, 0));
            put(&mut sample, slots - 1, 5, NAME);
            assert_eq!(scanned(&sample), found(5, slots as u32, 0));
        }
    }

    #[test]
    fn one_used_slot() {
        for (slots, scanned) in FORMS {
            for slot in 0..slots {
                let runs = if slot == 0 || slot == slots - 1 { 1 } else { 2 };
                assert_eq!(scanned(&used([slot])), missing(1, runs), "slot {slot} of {slots}");
            }
        }
    }

    #[test]
    fn one_free_slot() {
        for (slots, scanned) in FORMS {
            for slot in 0..slots {
                let mut sample = used(0..slots);
                put_bits(&mut sample, [slot], false);
                let expected = missing(slots as u32 - 1, 1);
                assert_eq!(scanned(&sample), expected, "slot {slot} of {slots}");
            }
        }
    }

    #[test]
    fn alternating() {
        for ((slots, scanned), half) in FORMS.into_iter().zip([107, 91]) {
            // 0 is used and the last one free, and the other way round.
            assert_eq!(scanned(&used((0..slots).step_by(2))), missing(half, half));
            assert_eq!(scanned(&used((1..slots).step_by(2))), missing(half, half));
            // Both are free: here the turns are 2e + 1.
            let scan = scanned(&used((1..slots - 1).step_by(2)));
            assert_eq!(scan, missing(half - 1, half));
            assert_eq!(scan.entries + scan.runs, scan.most_turns());
        }
    }

    /// "map 27 bytes, 3 reserved": 216 bits for 214 slots. "a 23-byte map, 7 reserved": 184 bits
    /// for 182 slots.
    #[test]
    fn bits_behind_the_slots_do_not_count() {
        for (slots, scanned) in FORMS {
            let samples = [
                (empty(), missing(0, 1)),
                (used(0..slots), missing(slots as u32, 0)),
                (used([slots - 2]), missing(1, 2)),
                (used([slots - 1]), missing(1, 1)),
            ];
            for (mut sample, expected) in samples {
                assert_eq!(scanned(&sample), expected);
                put_bits(&mut sample, [slots], true);
                assert_eq!(scanned(&sample), expected);
                put_bits(&mut sample, [slots + 1], true);
                assert_eq!(scanned(&sample), expected);
                // In an inode `scanned_inline` sets them.
                sample.put(0, 27, &[0xFF; 3]);
                assert_eq!(scanned(&sample), expected);
            }
        }
    }

    /// What stands in a free slot, a malformed entry or the name, is nothing.
    #[test]
    fn free_slots_are_not_looked_at() {
        for (slots, scanned) in FORMS {
            let mut sample = used([0, 50, slots - 1]);
            put_length(&mut sample, 49, u16::MAX);
            put(&mut sample, 51, 5, NAME);
            put_bits(&mut sample, [51], false);
            assert_eq!(scanned(&sample), missing(3, 2));
        }
    }

    /// 17 bytes from slot 10 take slots 10 to 12.
    #[test]
    fn the_bits_of_a_names_further_slots_do_not_count() {
        for (_, scanned) in FORMS {
            for further in [&[][..], &[11], &[12], &[11, 12]] {
                let mut sample = empty();
                put(&mut sample, 10, 9, &[b'n'; 17]);
                put_bits(&mut sample, further.iter().copied(), true);
                // Length 0 stands in slots 11 and 12: looked at, they would be malformed.
                assert_eq!(scanned(&sample), missing(1, 2));
                put(&mut sample, 13, 9, OTHER);
                assert_eq!(scanned(&sample), missing(2, 2));
                put(&mut sample, 9, 9, OTHER);
                assert_eq!(scanned(&sample), missing(3, 2));
                // One slot shorter, and slot 12 is looked at.
                put_length(&mut sample, 10, 16);
                let expected = if further.contains(&12) { malformed(3, 1) } else { missing(3, 3) };
                assert_eq!(scanned(&sample), expected);
            }
        }
    }

    #[test]
    fn a_name_in_the_further_slots_of_another_is_not_met() {
        for (_, scanned) in FORMS {
            let mut sample = empty();
            put(&mut sample, 10, 9, &[b'n'; 16]);
            put(&mut sample, 11, 5, NAME);
            assert_eq!(scanned(&sample), missing(1, 2));
            put_length(&mut sample, 10, 8);
            assert_eq!(scanned(&sample), found(5, 2, 1));
        }
    }

    /// Names of 255 bytes take 32 slots: six fit into a block and five into an inode, and 22 slots
    /// are left in both.
    #[test]
    fn names_of_255_bytes() {
        for ((_, scanned), fit) in FORMS.into_iter().zip([6, 5]) {
            for set in [false, true] {
                let mut sample = empty();
                put_bits(&mut sample, 0..32 * fit, set);
                for place in 0..fit {
                    put(&mut sample, 32 * place, 9, &[b'n'; 255]);
                }
                assert_eq!(scanned(&sample), missing(fit as u32, 1));
                put(&mut sample, 32 * fit, 9, &[b'n'; 176]);
                assert_eq!(scanned(&sample), missing(fit as u32 + 1, 0));
                put_length(&mut sample, 32 * fit, 177);
                assert_eq!(scanned(&sample), malformed(fit as u32 + 1, 0));
            }
        }
    }

    #[test]
    fn a_malformed_slot_is_counted_and_ends_the_scan() {
        for (_, scanned) in FORMS {
            for length in [0, 256, 257, u16::MAX] {
                let mut sample = used([0, 2, 3, 100]);
                put_length(&mut sample, 100, length);
                assert_eq!(scanned(&sample), malformed(4, 2), "length {length}");
                // The name behind it isn't met; before it, it is.
                put(&mut sample, 101, 5, NAME);
                assert_eq!(scanned(&sample), malformed(4, 2), "length {length}");
                put(&mut sample, 98, 6, NAME);
                assert_eq!(scanned(&sample), found(6, 4, 2), "length {length}");
            }
        }
    }

    #[test]
    fn malformed_at_the_end() {
        for (slots, scanned) in FORMS {
            // Lengths that take all slots up to the last one, and one byte more.
            for (slot, fits) in [(slots - 1, 8), (slots - 2, 16), (slots - 31, 248)] {
                let mut sample = used([0, slot]);
                put_length(&mut sample, slot, fits);
                assert_eq!(scanned(&sample), missing(2, 1), "slot {slot}");
                put_length(&mut sample, slot, fits + 1);
                assert_eq!(scanned(&sample), malformed(2, 1), "slot {slot}");
            }
            let mut sample = used(0..slots);
            put_length(&mut sample, slots - 1, 9);
            assert_eq!(scanned(&sample), malformed(slots as u32, 0));
        }
    }

    #[test]
    fn what_stands_behind_a_match_is_not_counted() {
        for (slots, scanned) in FORMS {
            let mut sample = used([1, 2, 40]);
            put(&mut sample, 60, 5, NAME);
            assert_eq!(scanned(&sample), found(5, 4, 3));
            put(&mut sample, 62, 6, NAME);
            for slot in (64..slots).step_by(2) {
                put(&mut sample, slot, 9, OTHER);
            }
            put_length(&mut sample, slots - 1, 9);
            put_bits(&mut sample, [slots - 1], true);
            assert_eq!(scanned(&sample), found(5, 4, 3));
            put_bits(&mut sample, [60], false);
            assert_eq!(scanned(&sample), found(6, 4, 3));
            // From slot 64 on every second slot holds one more, 75 or 59 of them; the last slot is
            // malformed, with no free slot before it.
            let more = if slots == 214 { 75 } else { 59 };
            put_bits(&mut sample, [62], false);
            assert_eq!(scanned(&sample), malformed(3 + more + 1, 2 + more));
        }
    }

    /// "it matches by hash, length and bytes"
    #[test]
    fn near_matches_are_entries_like_others() {
        let hash = raw_hash(NAME);
        for (_, scanned) in FORMS {
            let mut sample = empty();
            sample.put_dentry(0, 0, hash ^ 1, 1, NAME);
            sample.put_dentry(0, 1, hash, 2, b"filf");
            sample.put_dentry(0, 2, hash, 3, b"fil");
            sample.put_dentry(0, 3, hash, 4, b"file2");
            assert_eq!(scanned(&sample), missing(4, 1));
            sample.put_dentry(0, 5, hash, 5, NAME);
            assert_eq!(scanned(&sample), found(5, 5, 1));
            let inode = inlined(&sample, 0);
            for (hash, expected) in [(hash, Some(5)), (hash ^ 1, Some(1)), (hash ^ 2, None)] {
                assert_eq!(search_block(&sample.bytes, NAME, hash), Ok(expected));
                assert_eq!(search_inline(&inode, NAME, hash), Ok(expected));
            }
            // "Type isn't consulted."
            sample.put(0, 30 + 11 * 5 + 10, &[0xFF]);
            assert_eq!(scanned(&sample), found(5, 5, 1));
        }
    }

    #[test]
    fn inode_number_0_is_a_match() {
        let mut sample = used([3]);
        put(&mut sample, 4, 0, NAME);
        assert_eq!(FORMS.map(|(_, scanned)| scanned(&sample)), [found(0, 2, 1); 2]);
        let hash = raw_hash(NAME);
        assert_eq!(search_block(&sample.bytes, NAME, hash), Ok(Some(0)));
        assert_eq!(search_inline(&inlined(&sample, 0), NAME, hash), Ok(Some(0)));
    }

    /// With names of one slot, the entries are the ones of the map and the runs what they part.
    #[test]
    fn any_map_with_names_of_one_slot() {
        let mut numbers = Numbers(5);
        for turn in 0..4000 {
            let (slots, scanned) = FORMS[turn / 2000];
            let one_in = 1 + turn % 12;
            let map: Vec<bool> = (0..slots).map(|_| numbers.below(one_in) == 0).collect();
            let mut sample = used((0..slots).filter(|&slot| map[slot]));
            put_bits(&mut sample, [slots, slots + 1], turn % 2 == 0);
            let entries = map.iter().filter(|&&used| used).count();
            let runs = map.split(|&used| used).filter(|run| !run.is_empty()).count();
            assert_eq!(scanned(&sample), missing(entries as u32, runs as u32), "turn {turn}");
        }
    }

    /// Slots laid out as runs and names in turn, so that what a scan meets is known beforehand;
    /// the map bits of a name's further slots are anything.
    fn laid_out(numbers: &mut Numbers, slots: usize) -> (Sample, Scan) {
        let mut sample = empty();
        let (longest, widest) = (1 + numbers.below(255), 1 + numbers.below(20));
        let (mut slot, mut met) = (0, missing(0, 0));
        while slot < slots && met.answer == 2 {
            let free = numbers.below(widest).min(slots - slot);
            met.runs += u32::from(free > 0);
            slot += free;
            if slot == slots {
                break;
            }
            met.entries += 1;
            let length = 1 + numbers.below(longest);
            if numbers.below(30) == 0 {
                put(&mut sample, slot, 5, NAME);
                (met.answer, met.inode) = (0, 5);
            } else if length > 8 * (slots - slot) {
                put_bits(&mut sample, [slot], true);
                put_length(&mut sample, slot, length as u16);
                met.answer = 14;
            } else {
                put(&mut sample, slot, 9, &vec![b'n'; length]);
                for further in slot + 1..slot + length.div_ceil(8) {
                    put_bits(&mut sample, [further], numbers.below(2) == 0);
                }
            }
            slot += length.div_ceil(8);
        }
        // Behind a match or a malformed slot, and behind the map, anything.
        for behind in slot.min(slots + 2)..slots + 2 {
            put_bits(&mut sample, [behind], numbers.below(2) == 0);
        }
        (sample, met)
    }

    #[test]
    fn any_layout_of_names() {
        let mut numbers = Numbers(55);
        for (slots, scanned) in FORMS {
            let mut answers = [0; 3];
            for turn in 0..2000 {
                let (sample, met) = laid_out(&mut numbers, slots);
                assert_eq!(scanned(&sample), met, "turn {turn} of {slots} slots");
                answers[[0, 2, 14].iter().position(|&answer| answer == met.answer).unwrap()] += 1;
            }
            assert!(answers.iter().all(|&times| times > 100), "{answers:?}");
        }
    }

    /// Lengths that need not fit, 0 and 256 among them: the turns stay within the bound.
    #[test]
    fn any_map_with_any_lengths() {
        let mut numbers = Numbers(555);
        for turn in 0..4000 {
            let (slots, scanned) = FORMS[turn / 2000];
            let mut sample = empty();
            let (one_in, lengths) = (1 + turn % 9, 2 + turn % 257);
            for slot in 0..slots + 2 {
                put_bits(&mut sample, [slot], numbers.below(one_in) == 0);
            }
            for slot in 0..slots {
                put_length(&mut sample, slot, numbers.below(lengths) as u16);
            }
            let scan = scanned(&sample);
            assert!(scan.answer == 2 || scan.answer == 14, "turn {turn}: {scan:?}");
        }
    }
}

//! Pull: one block of a file under its path, with the nodes and blocks it stood on.

use std::collections::BTreeSet;

use crate::bytes::BLOCK_SIZE;
use crate::hash::is_name;
use crate::open::{is_image_length, open};
use crate::path::{names, rooms, Rooms};
use crate::walk::{Found, Walk};

/// "a node list of at least 179 and a block list of at least 238 32-bit numbers"
const ROOMS_OF_ONE_NAME: Rooms = Rooms { nodes: 179, blocks: 238 };

/// The result numbers of a pull; those that the answer doesn't name are 0.
#[derive(Debug, Clone, Copy, PartialEq, Eq, Default)]
pub struct Pulled {
    pub answer: u32,
    pub byte_count: u32,
    pub node_count: u32,
    pub block_count: u32,
}

/// Reads block `index` of the file under `path`, from the root on. The lists are lent as bytes,
/// four to a number.
pub fn pull(
    image: &[u8],
    path: &[u8],
    index: u32,
    block: &mut [u8],
    nodes: &mut [u8],
    blocks: &mut [u8],
) -> Pulled {
    // "an empty part or a ninth is 4"
    let Some(names) = names(path) else {
        return refused(4);
    };
    let memory = Memory { block, nodes, blocks };
    memory.pulled(image, rooms(names.len()), |walk| walk.path_then_file(&names, index))
}

/// Document 01's pull of one name: "The name is sought in the root directory." K7: "a one-name path
/// answers as before".
pub fn pull_in_root(
    image: &[u8],
    name: &[u8],
    index: u32,
    block: &mut [u8],
    nodes: &mut [u8],
    blocks: &mut [u8],
) -> Pulled {
    if !is_name(name) {
        return refused(4);
    }
    let memory = Memory { block, nodes, blocks };
    memory.pulled(image, ROOMS_OF_ONE_NAME, |walk| walk.root_then_file(name, index))
}

/// 4 to 8: counts 0, and whoever gives this leaves buffer and lists untouched.
pub(crate) fn refused(answer: u32) -> Pulled {
    Pulled { answer, ..Pulled::default() }
}

/// What is lent to a pull.
pub(crate) struct Memory<'m> {
    pub block: &'m mut [u8],
    pub nodes: &'m mut [u8],
    pub blocks: &'m mut [u8],
}

impl Memory<'_> {
    /// "a block buffer of exactly 4,096 bytes", and the rooms of the lists.
    pub(crate) fn in_shape(&self, rooms: Rooms) -> bool {
        self.block.len() == BLOCK_SIZE && rooms.are_in(self.nodes, self.blocks)
    }

    /// "Pull checks 4, 5, 6, 7, 8 in that order", then goes on the walk.
    fn pulled<'a>(
        self,
        image: &'a [u8],
        rooms: Rooms,
        go: impl FnOnce(&mut Walk<'a>) -> Result<Found<'a>, u32>,
    ) -> Pulled {
        if !is_image_length(image.len()) || !self.in_shape(rooms) {
            return refused(4);
        }
        let volume = match open(image) {
            Ok(volume) => volume,
            Err(answer) => return refused(answer),
        };
        let mut walk = Walk::new(volume);
        let found = go(&mut walk);
        self.filled(&found, &walk.nodes, &walk.blocks)
    }

    /// The result of a walk with these lists, which fit, once it is handed out.
    pub(crate) fn filled(
        self,
        found: &Result<Found, u32>,
        nodes: &BTreeSet<u32>,
        blocks: &BTreeSet<u32>,
    ) -> Pulled {
        let (answer, byte_count) = hand_out(found, self.block);
        write_list(self.nodes, nodes);
        write_list(self.blocks, blocks);
        Pulled {
            answer,
            byte_count,
            node_count: nodes.len() as u32,
            block_count: blocks.len() as u32,
        }
    }
}

/// Answer and byte count of a walk: 0 with data, 1 for a hole, which fill the lent buffer. With the
/// others it stays.
pub(crate) fn hand_out(found: &Result<Found, u32>, block: &mut [u8]) -> (u32, u32) {
    let found = match found {
        Ok(found) => found,
        Err(answer) => return (*answer, 0),
    };
    block.fill(0);
    let Some(data) = found.data else {
        return (1, found.count);
    };
    // "file bytes up to the count, then zeros"
    for (byte, &stored) in block.iter_mut().zip(data).take(found.count as usize) {
        *byte = stored;
    }
    (0, found.count)
}

/// "Written": "the first entries, as many as the count, rising, each once; later entries
/// untouched"
pub(crate) fn write_list(list: &mut [u8], numbers: &BTreeSet<u32>) {
    for (entry, number) in list.chunks_exact_mut(4).zip(numbers) {
        entry.copy_from_slice(&number.to_le_bytes());
    }
}

#[cfg(test)]
mod tests {
    use super::*;
    use crate::hash::raw_hash;
    use crate::path::MOST_ROOMS;
    use crate::place::{directory_place, Place, ADDRESSES};
    use crate::sample::{
        directory, numbers, path, with_directories, Lent, Sample, DAMAGE, FIRST_PACK, NAME,
    };
    use crate::slots::{scan, scan_inline};

    const DATA: usize = 4200;

    /// Root at 4096 with a dentry block at 4097; the file, number 7, at 4098.
    fn sample(size: u64) -> Sample {
        Sample::with_path(1, size)
    }

    impl Lent {
        fn new() -> Lent {
            Lent::with(ROOMS_OF_ONE_NAME)
        }

        fn with(rooms: Rooms) -> Lent {
            Lent::with_buffer(4096, rooms)
        }

        fn pull_in_root(&mut self, sample: &Sample, name: &[u8], index: u32) -> Pulled {
            let Lent { buffer, nodes, blocks } = self;
            pull_in_root(&sample.bytes, name, index, buffer, nodes, blocks)
        }
    }

    fn answer(sample: &Sample, name: &[u8], index: u32) -> Pulled {
        Lent::new().pull(sample, name, index)
    }

    #[test]
    fn size_4097_gives_count_1_at_index_1_and_3_at_index_2() {
        let mut sample = sample(4097);
        sample.put32(4098, 364, DATA as u32);
        sample.put(DATA, 0, &[9; 4096]);
        let mut lent = Lent::new();
        let pulled = lent.pull(&sample, NAME, 1);
        assert_eq!(pulled, Pulled { answer: 0, byte_count: 1, node_count: 2, block_count: 4 });
        assert_eq!(lent.buffer[0], 9);
        assert!(lent.buffer[1..].iter().all(|&byte| byte == 0));
        assert_eq!(numbers(&lent.nodes, 2), [3, 7]);
        assert_eq!(numbers(&lent.blocks, 4), [4096, 4097, 4098, DATA as u32]);
        let mut lent = Lent::new();
        let pulled = lent.pull(&sample, NAME, 2);
        assert_eq!(pulled, Pulled { answer: 3, byte_count: 0, node_count: 2, block_count: 3 });
        assert!(lent.buffer.iter().all(|&byte| byte == 0xAA));
    }

    #[test]
    fn holes() {
        let mut sample = sample(4097);
        let mut lent = Lent::new();
        let hole = Pulled { answer: 1, byte_count: 4096, node_count: 2, block_count: 3 };
        assert_eq!(lent.pull(&sample, NAME, 0), hole);
        assert!(lent.buffer.iter().all(|&byte| byte == 0));
        sample.put32(4098, 360, u32::MAX);
        assert_eq!(answer(&sample, NAME, 0), hole);
        sample.put32(4098, 360, 4095);
        assert_eq!(answer(&sample, NAME, 0).answer, 13);
        sample.put32(4098, 360, 4608);
        assert_eq!(answer(&sample, NAME, 0).answer, 13);
    }

    #[test]
    fn direct_node() {
        let mut sample = sample(1 << 40);
        assert_eq!(answer(&sample, NAME, 923).answer, 1);
        sample.put32(4098, 4052, 8);
        let unknown = answer(&sample, NAME, 923);
        assert_eq!((unknown.answer, unknown.node_count, unknown.block_count), (9, 3, 3));
        sample.put_node(8, 7, 1, 4099);
        sample.put32(4099, 0, DATA as u32);
        assert_eq!(answer(&sample, NAME, 923).answer, 0);
        assert_eq!(answer(&sample, NAME, 924).answer, 1);
        sample.put32(4099, 4080, 2 * 8);
        assert_eq!(answer(&sample, NAME, 923).answer, 11);
        assert_eq!(answer(&sample, NAME, 1_057_053_439).answer, 3);
    }

    #[test]
    fn kinds_not_read() {
        assert_eq!(answer(&sample(0), b".", 0).answer, 12);
        for (block, at, value) in [
            (4098, 3, 4),
            (4098, 3, 0x20),
            (4096, 3, 2),
            (4096, 3, 0x20),
            (4096, 347, 31),
        ] {
            let mut sample = sample(4097);
            sample.bytes[block * 4096 + at] = value;
            assert_eq!(answer(&sample, NAME, 0).answer, 12);
        }
        let mut sample = sample(4097);
        sample.put32(4096, 72, 64);
        assert_eq!(answer(&sample, NAME, 0).answer, 12);
    }

    /// The sample with these inline bits on the file. Its address words behind the first, its
    /// attributes and its five node numbers hold 1 to 251 in turn, so no byte of them is 0.
    fn inline_file(bits: u8, size: u64) -> Sample {
        let mut sample = sample(size);
        sample.put(4098, 3, &[bits]);
        let bytes: Vec<u8> = (1..=251).cycle().take(4072 - 364).collect();
        sample.put(4098, 364, &bytes);
        sample
    }

    /// The sample with these inline bits on the root. Its inline slots name the file 7; its block
    /// names another, 8, which isn't inline.
    fn inline_root(bits: u8, size: u64) -> Sample {
        let mut sample = inline_file(2, 100);
        sample.put(4096, 3, &[bits]);
        sample.put64(4096, 16, size);
        sample.put_inline_dentry(4096, 0, 0, 3, b".");
        sample.put_inline_dentry(4096, 1, 0, 3, b"..");
        sample.put_inline_dentry(4096, 2, raw_hash(NAME), 7, NAME);
        sample.put32(4097, 30 + 11 * 2 + 4, 8);
        sample.put_inode(8, 0x81A4, 1, 4099);
        // Node numbers that nobody may look up.
        for (at, number) in (4052..4072).step_by(4).zip(20..) {
            sample.put32(4096, at, number);
        }
        sample
    }

    /// The pull of block `index` of `NAME` with both lists, and the block buffer.
    fn listed(sample: &Sample, index: u32) -> ([u32; 2], Vec<u32>, Vec<u32>, Vec<u8>) {
        let mut lent = Lent::new();
        let pulled = lent.pull(sample, NAME, index);
        let nodes = numbers(&lent.nodes, pulled.node_count);
        let blocks = numbers(&lent.blocks, pulled.block_count);
        ([pulled.answer, pulled.byte_count], nodes, blocks, lent.buffer)
    }

    /// "With 50 words kept for attributes that is 3,488 bytes, without them 3,688"; "A size above
    /// the room is 12."
    #[test]
    fn sizes_of_inline_files() {
        let bytes: Vec<u8> = (1..=251).cycle().take(3688).collect();
        let sizes = [0, 1, 3487, 3488, 3489, 3687, 3688, 3689, 4096, 1 << 32, u64::MAX];
        for (bits, room) in [(2, 3688), (3, 3488), (0x0A, 3688), (0x0B, 3488)] {
            for size in sizes {
                let sample = inline_file(bits, size);
                let expect = |index, numbers, block| {
                    let expected = (numbers, vec![3, 7], vec![4096, 4097, 4098], block);
                    assert_eq!(listed(&sample, index), expected, "bits {bits:x} size {size}");
                };
                // "then 12, then 2 or 3": above the room no index is past the end.
                let past = if size > room { 12 } else { 3 };
                if (1..=room).contains(&size) {
                    let mut block = bytes[..size as usize].to_vec();
                    block.resize(4096, 0);
                    expect(0, [0, size as u32], block);
                } else {
                    expect(0, [past, 0], vec![0xAA; 4096]);
                }
                for index in [1, 2, 922, 1_057_053_439, u32::MAX] {
                    expect(index, [past, 0], vec![0xAA; 4096]);
                }
            }
        }
    }

    /// All inline bytes, so every mix of bits 1, 2, 4, 8 and 20 hex among them.
    #[test]
    fn inline_bits_of_a_file() {
        let mut sample = inline_file(0, 100);
        sample.put32(4098, 360, DATA as u32);
        sample.put(DATA, 0, &[0xBB; 4096]);
        let inline: Vec<u8> = (1..=100).collect();
        for bits in 0..=255 {
            sample.put(4098, 3, &[bits]);
            let (numbers, nodes, mut blocks, block) = listed(&sample, 0);
            assert_eq!(nodes, [3, 7]);
            let data = (blocks.len() == 4).then(|| blocks.pop().unwrap());
            assert_eq!(blocks, [4096, 4097, 4098]);
            if bits & 0x24 != 0 {
                assert_eq!((numbers, data), ([12, 0], None), "bits {bits:x}");
                assert_eq!(block, [0xAA; 4096]);
            } else if bits & 2 != 0 {
                assert_eq!((numbers, data), ([0, 100], None), "bits {bits:x}");
                assert_eq!(block[..100], inline);
            } else {
                assert_eq!((numbers, data), ([0, 100], Some(DATA as u32)), "bits {bits:x}");
                assert_eq!(block[..100], [0xBB; 100]);
            }
        }
    }

    /// The same on the root: without bit 4 its block is searched, which leads to the file 8.
    #[test]
    fn inline_bits_of_the_root() {
        for bits in 0..=255 {
            let (numbers, nodes, blocks, _) = listed(&inline_root(bits, 3488), 0);
            if bits & 0x22 != 0 {
                let refused = ([12, 0], vec![3], vec![4096]);
                assert_eq!((numbers, nodes, blocks), refused, "bits {bits:x}");
            } else if bits & 4 != 0 {
                let inline = ([0, 100], vec![3, 7], vec![4096, 4098]);
                assert_eq!((numbers, nodes, blocks), inline, "bits {bits:x}");
            } else {
                let blockwise = ([1, 1], vec![3, 8], vec![4096, 4097, 4099]);
                assert_eq!((numbers, nodes, blocks), blockwise, "bits {bits:x}");
            }
        }
    }

    /// "an inline directory always keeps the 50, attribute bit or not"; "Then size 0: 2".
    #[test]
    fn sizes_of_an_inline_root() {
        for bits in [4, 5, 0x0C, 0x0D] {
            for size in [0, 1, 3487, 3488, 3489, 3687, 3688, 3689, 4096, 1 << 32, u64::MAX] {
                let (numbers, nodes, blocks, _) = listed(&inline_root(bits, size), 0);
                let expected = match size {
                    0 => ([2, 0], vec![3], vec![4096]),
                    1..=3488 => ([0, 100], vec![3, 7], vec![4096, 4098]),
                    _ => ([12, 0], vec![3], vec![4096]),
                };
                assert_eq!((numbers, nodes, blocks), expected, "bits {bits:x} size {size}");
            }
        }
    }

    /// "scanned at any depth up to 63"; depth and level come before the size.
    #[test]
    fn depth_and_level_of_an_inline_root() {
        for (depth, level) in [0, 1, 63, 64, u32::MAX].into_iter().flat_map(|depth| {
            [0, 1, 30, 31, 255].map(|level| (depth, level))
        }) {
            for (size, read) in [(0, 2), (1, 0), (3488, 0), (3489, 12)] {
                let mut sample = inline_root(4, size);
                sample.put32(4096, 72, depth);
                sample.put(4096, 347, &[level]);
                let expected = if depth > 63 || level > 30 { 12 } else { read };
                let pulled = answer(&sample, NAME, 0);
                assert_eq!(pulled.answer, expected, "depth {depth} level {level} size {size}");
            }
        }
    }

    /// The sample with this directory level and depth, and no blocks in the root.
    fn leveled(level: u8, depth: u32) -> Sample {
        let mut sample = sample(4097);
        sample.put_levels(4096, level, depth);
        sample
    }

    #[test]
    fn level_30_is_read_and_31_is_12() {
        for (level, answer) in [(0, 2), (1, 2), (29, 2), (30, 2), (31, 12), (32, 12), (255, 12)] {
            // "Then size 0: 2": the level comes before it, at any depth.
            for (depth, size) in [(0, 4096), (0, 0), (1, 4096), (1, 0), (63, 4096), (63, 0)] {
                let mut sample = leveled(level, depth);
                sample.put64(4096, 16, size);
                let mut lent = Lent::new();
                let pulled = lent.pull(&sample, NAME, 0);
                let expected = Pulled { answer, byte_count: 0, node_count: 1, block_count: 1 };
                assert_eq!(pulled, expected, "level {level} depth {depth} size {size}");
                assert_eq!(numbers(&lent.nodes, 1), [3]);
                assert_eq!(numbers(&lent.blocks, 1), [4096]);
                assert!(lent.buffer.iter().all(|&byte| byte == 0xAA));
            }
        }
    }

    #[test]
    fn depth_64_is_12_with_any_level() {
        for level in [0, 1, 30, 31, 255] {
            let mut sample = leveled(level, 64);
            assert_eq!(answer(&sample, NAME, 0).answer, 12);
            sample.put64(4096, 16, 0);
            assert_eq!(answer(&sample, NAME, 0).answer, 12);
        }
    }

    #[test]
    fn bytes_beside_the_level_are_no_level() {
        for at in [346, 348] {
            let mut sample = sample(4097);
            sample.put(4096, at, &[0xFF]);
            assert_eq!(answer(&sample, NAME, 0).answer, 1);
        }
    }

    #[test]
    fn the_level_of_a_file_is_not_consulted() {
        let mut sample = sample(4097);
        sample.put32(4098, 364, DATA as u32);
        let [data, hole, past] = [1, 0, 2].map(|index| answer(&sample, NAME, index));
        assert_eq!([data.answer, hole.answer, past.answer], [0, 1, 3]);
        for level in [1, 30, 31, 255] {
            sample.put(4098, 347, &[level]);
            assert_eq!([1, 0, 2].map(|index| answer(&sample, NAME, index)), [data, hole, past]);
        }
    }

    /// Level 2: hash level 0 has 4 buckets in blocks 0 to 7, hash level 1 has 8 in blocks 8 to 23,
    /// hash level 2 has 16 in blocks 24 to 55. Block i lies at 4200 + i.
    #[test]
    fn a_directory_with_level_2() {
        let hash = raw_hash(NAME);
        let [first, second, third] = [2 * (hash % 4), 8 + 2 * (hash % 8), 24 + 2 * (hash % 16)];
        let read = [first, first + 1, second, second + 1, third, third + 1];
        for index in 0..56 {
            let mut sample = leveled(2, 3);
            for index in 0..56 {
                sample.put32(4096, 360 + 4 * index as usize, 4200 + index);
            }
            sample.put_dentry(4200 + index as usize, 0, hash, 7, NAME);
            let mut lent = Lent::new();
            let pulled = lent.pull(&sample, NAME, 0);
            // Up to the block with the name, or all six and no file.
            let found = read.iter().position(|&candidate| candidate == index);
            assert_eq!(pulled.answer, if found.is_some() { 1 } else { 2 }, "block {index}");
            let mut blocks = vec![4096];
            if found.is_some() {
                blocks.push(4098);
            }
            blocks.extend(read.iter().take(found.map_or(6, |at| at + 1)).map(|i| 4200 + i));
            assert_eq!(pulled.block_count, blocks.len() as u32);
            assert_eq!(numbers(&lent.blocks, pulled.block_count), blocks);
            let nodes = if found.is_some() { vec![3, 7] } else { vec![3] };
            assert_eq!(numbers(&lent.nodes, pulled.node_count), nodes);
        }
    }

    /// At depth 1: hash level 0 has 2^level buckets of 2 blocks.
    #[test]
    fn names_with_each_level() {
        let names = [b"a", b"b", b"c"];
        let mut past = 0;
        for (level, name) in (0..31).flat_map(|level| names.map(|name| (level, name))) {
            let hash = raw_hash(name);
            let index = 2 * u64::from(hash % (1 << level));
            let mut sample = leveled(level, 1);
            let Place::Way(way) = directory_place(ADDRESSES, index) else {
                // Past the last index, which can be with levels 29 and 30 only.
                assert!(level >= 29);
                past += 1;
                let missing = Pulled { answer: 2, byte_count: 0, node_count: 1, block_count: 1 };
                assert_eq!(answer(&sample, name, 0), missing);
                continue;
            };
            sample.put_block_of(directory(0), &way, 4097);
            sample.put(4097, 0, &[0; 4096]);
            sample.put_dentry(4097, 0, hash, 7, name);
            let pulled = answer(&sample, name, 0);
            // The nodes on the way, and root, file and dentry block.
            let steps = way.steps().len() as u32;
            assert_eq!((pulled.answer, pulled.node_count), (1, steps + 1), "level {level}");
            assert_eq!(pulled.block_count, steps + 2);
            // One level more leads elsewhere if the hash has that bit.
            if level < 30 && hash & 1 << level != 0 {
                sample.put(4096, 347, &[level + 1]);
                assert_eq!(answer(&sample, name, 0).answer, 2, "level {level} and one");
            }
        }
        assert!(past > 0);
    }

    #[test]
    fn name_not_there() {
        let mut sample = sample(4097);
        let missing = Pulled { answer: 2, byte_count: 0, node_count: 1, block_count: 2 };
        assert_eq!(answer(&sample, b"other", 0), missing);
        sample.put32(4096, 72, 63);
        assert_eq!(answer(&sample, b"other", 0), missing);
        sample.put64(4096, 16, 0);
        assert_eq!(answer(&sample, NAME, 0), Pulled { block_count: 1, ..missing });
    }

    /// K5: "Promise, answers and lists stay as they are." If the scan finds the name, the pull goes
    /// on to the file; otherwise its answer is the scan's.
    #[test]
    fn the_pull_meets_what_the_scan_meets() {
        // The map's first byte and the length of "..", then answer, entries and runs of the scan.
        for (map, length, expected) in [
            (0b111, 2, [0, 3, 0]),
            (0b101, 2, [0, 2, 1]),
            (0b011, 2, [2, 2, 1]),
            (0b000, 2, [2, 0, 1]),
            // Malformed before the name, and in slot 3 behind it.
            (0b111, 0, [14, 2, 0]),
            (0b1111, 2, [0, 3, 0]),
            (0b1011, 2, [14, 3, 1]),
        ] {
            let mut sample = sample(4097);
            sample.put(4097, 0, &[map]);
            sample.put16(4097, 30 + 11 + 8, length);
            let scan = scan(&sample.bytes[4097 * 4096..4098 * 4096], NAME);
            assert_eq!([scan.answer, scan.entries, scan.runs], expected);
            let mut lent = Lent::new();
            let pulled = lent.pull(&sample, NAME, 0);
            if scan.answer == 0 {
                assert_eq!((pulled.answer, scan.inode), (1, 7));
                assert_eq!(numbers(&lent.nodes, pulled.node_count), [3, 7]);
                assert_eq!(numbers(&lent.blocks, pulled.block_count), [4096, 4097, 4098]);
            } else {
                assert_eq!((pulled.answer, scan.inode), (scan.answer, 0));
                assert_eq!(numbers(&lent.nodes, pulled.node_count), [3]);
                assert_eq!(numbers(&lent.blocks, pulled.block_count), [4096, 4097]);
            }
        }
    }

    /// The same of an inline root, at any depth once: its slots are no block.
    #[test]
    fn the_pull_meets_what_the_inline_scan_meets() {
        // The map's first byte and last one, then answer, entries and runs of the scan.
        for (map, last, expected) in [
            (0b111, 0, [0, 3, 0]),
            (0b101, 0, [0, 2, 1]),
            (0b011, 0, [2, 2, 1]),
            (0b000, 0, [2, 0, 1]),
            // Slot 181 holds a name of 9 bytes, so it is malformed; 182 and 183 are no slots.
            (0b111, 0x20, [0, 3, 0]),
            (0b011, 0x20, [14, 3, 1]),
            (0b000, 0x20, [14, 1, 1]),
            (0b011, 0xC0, [2, 2, 1]),
            (0b000, 0xE0, [14, 1, 1]),
        ] {
            for depth in [0, 1, 2, 63] {
                let mut sample = inline_root(4, 1);
                sample.put32(4096, 72, depth);
                sample.put(4096, 364, &[map]);
                sample.put(4096, 386, &[last, 255, 255, 255, 255, 255, 255, 255]);
                sample.put16(4096, 394 + 11 * 181 + 8, 9);
                let scan = scan_inline(&sample.bytes[4096 * 4096..4097 * 4096], NAME);
                assert_eq!([scan.answer, scan.entries, scan.runs], expected);
                let (numbers, nodes, blocks, _) = listed(&sample, 0);
                if scan.answer == 0 {
                    assert_eq!((numbers, scan.inode), ([0, 100], 7));
                    assert_eq!((nodes, blocks), (vec![3, 7], vec![4096, 4098]));
                } else {
                    assert_eq!((numbers, scan.inode), ([scan.answer, 0], 0));
                    assert_eq!((nodes, blocks), (vec![3], vec![4096]));
                }
            }
        }
    }

    /// "." and a file number 0 in inline slots: the root is no file, and 0 is listed and 9.
    #[test]
    fn what_an_inline_root_may_lead_to() {
        let mut sample = inline_root(4, 3488);
        let root = Pulled { answer: 12, byte_count: 0, node_count: 1, block_count: 1 };
        assert_eq!(answer(&sample, b".", 0), root);
        assert_eq!(answer(&sample, b"..", 0), root);
        let missing = Pulled { answer: 2, ..root };
        assert_eq!(answer(&sample, b"other", 0), missing);
        let name = b"8 bytes.";
        sample.put_inline_dentry(4096, 181, raw_hash(name), 8, name);
        let hole = Pulled { answer: 1, byte_count: 1, node_count: 2, block_count: 2 };
        assert_eq!(answer(&sample, name, 0), hole);
        sample.put32(4096, 394 + 11 * 2 + 4, 0);
        let (numbers, nodes, blocks, _) = listed(&sample, 0);
        assert_eq!((numbers, nodes, blocks), ([9, 0], vec![0, 3], vec![4096]));
    }

    /// "then the block is read and listed, then 11, then 12"
    #[test]
    fn inline_inodes_belong_like_others() {
        let (nodes, blocks) = ([3, 7], [4096, 4098]);
        // Sizes in the room and above it, of the root and of the file.
        for (size, read) in [(100, 1), (4096, 1), (100, 2), (4096, 2)] {
            let mut sample = inline_root(4, 3488);
            let block = blocks[read - 1] as usize;
            sample.put64(block, 16, size);
            sample.put32(block, 4080, 8);
            let (nodes, blocks) = (nodes[..read].to_vec(), blocks[..read].to_vec());
            assert_eq!(listed(&sample, 0), ([11, 0], nodes, blocks, vec![0xAA; 4096]));
        }
    }

    #[test]
    fn inode_number_0_in_a_dentry_is_listed_and_9() {
        let mut sample = sample(4097);
        sample.put32(4097, 30 + 11 * 2 + 4, 0);
        let mut lent = Lent::new();
        let pulled = lent.pull(&sample, NAME, 0);
        assert_eq!((pulled.answer, pulled.node_count, pulled.block_count), (9, 2, 2));
        assert_eq!(numbers(&lent.nodes, 2), [0, 3]);
    }

    #[test]
    fn out_of_shape_leaves_everything_untouched() {
        let sample = sample(4097);
        let mut lent = Lent::new();
        // Two names with the lists of one.
        assert_eq!(lent.pull(&sample, b"a/b", 0), refused(4));
        assert_eq!(lent.pull_in_root(&sample, b"a/b", 0), refused(4));
        lent.nodes.truncate(715);
        assert_eq!(lent.pull(&sample, NAME, 0), refused(4));
        let mut lent = Lent::new();
        lent.buffer.push(0xAA);
        assert_eq!(lent.pull(&sample, NAME, 0), refused(4));
        lent.buffer.truncate(4095);
        assert_eq!(lent.pull(&sample, NAME, 0), refused(4));
        assert!(lent.is_untouched());
    }

    /// Paths that are out of shape, whatever is lent.
    fn bad_paths() -> Vec<Vec<u8>> {
        let mut paths: Vec<Vec<u8>> = [
            &b""[..], b"/", b"/file", b"file/", b"/file/", b"d1//file", b"/d1/file", b"d1/file/",
            b"d1///file", b"d1\0/file", b"d1/fi\0le", b"\0", b"file\0", b"1/2/3/4/5/6/7/8/9",
            b"././././././././file", b"d1/d2/d3/d4/d5/d6/d7/file/",
        ]
        .map(|path| path.to_vec())
        .to_vec();
        for at in 0..8 {
            let mut parts = vec![vec![b'n'; 255]; 8];
            parts[at].push(b'n');
            paths.push(parts.join(&b'/'));
        }
        paths
    }

    /// "an empty part or a ninth is 4", and a part that is no name. "Pull checks 4, 5, 6, 7, 8 in
    /// that order".
    #[test]
    fn paths_out_of_shape() {
        let (good, mut unformatted, mut damaged) = (Sample::with_path(8, 1), sample(1), sample(1));
        unformatted.put32(0, 1024, 0);
        DAMAGE[0](&mut damaged, FIRST_PACK);
        let mut lent = Lent::with(MOST_ROOMS);
        for (sample, path) in [&good, &unformatted, &damaged]
            .into_iter()
            .flat_map(|sample| bad_paths().into_iter().map(move |path| (sample, path)))
        {
            assert_eq!(lent.pull(sample, &path, 0), refused(4), "{path:?}");
        }
        assert_eq!(lent.pull(&unformatted, &path(8), 0), refused(5));
        assert_eq!(lent.pull(&damaged, &path(8), 0), refused(8));
        assert!(lent.is_untouched());
        for length in [0, 4096, 8191, 8193] {
            let sample = Sample { bytes: vec![0; length] };
            assert_eq!(lent.pull(&sample, &path(8), 0), refused(4), "length {length}");
        }
        assert_eq!(lent.pull(&Sample { bytes: vec![0; 8192] }, &path(8), 0), refused(5));
        assert!(lent.is_untouched());
        assert_eq!(lent.pull(&good, &path(8), 0).answer, 1);
    }

    /// "and the lists lent must have that room": exactly enough, and one number or one byte short.
    #[test]
    fn rooms_of_the_lists() {
        for k in 1..=8 {
            let (sample, rooms) = (Sample::with_path(k, 4097), rooms(k));
            let found = Pulled {
                answer: 1,
                byte_count: 4096,
                node_count: k as u32 + 1,
                block_count: 2 * k as u32 + 1,
            };
            for more in [0, 1, 3, 4, 4000] {
                let mut lent = Lent::with(rooms);
                lent.nodes.resize(4 * rooms.nodes + more, 0xAA);
                assert_eq!(lent.pull(&sample, &path(k), 0), found, "{k} names");
                lent.blocks.resize(4 * rooms.blocks + more, 0xAA);
                assert_eq!(lent.pull(&sample, &path(k), 0), found, "{k} names");
            }
            for less in [1, 2, 3, 4, 5, 4 * rooms.nodes] {
                let mut lent = Lent::with(rooms);
                lent.nodes.truncate(4 * rooms.nodes - less);
                assert_eq!(lent.pull(&sample, &path(k), 0), refused(4), "{k} names");
                assert!(lent.is_untouched());
                let mut lent = Lent::with(rooms);
                lent.blocks.truncate(4 * rooms.blocks - less);
                assert_eq!(lent.pull(&sample, &path(k), 0), refused(4), "{k} names");
                assert!(lent.is_untouched());
            }
            // They go by the names of the path, not by how far the walk gets.
            let mut lent = Lent::with(rooms);
            let mut longer = path(k);
            longer[0] = b'x';
            assert_eq!(lent.pull(&sample, &longer, 0).answer, 2);
            longer.extend(b"/x");
            let mut lent = Lent::with(rooms);
            assert_eq!(lent.pull(&sample, &longer, 0), refused(4), "{k} names and one");
            assert!(lent.is_untouched());
        }
    }

    /// One to eight names: the file's bytes, and lists that rise over all directories.
    #[test]
    fn files_in_folders() {
        for k in 1..=8 {
            let mut sample = Sample::with_path(k, 4097);
            sample.put32(4098, 364, DATA as u32);
            sample.put(DATA, 0, &[9; 4096]);
            let mut lent = Lent::with(rooms(k));
            let pulled = lent.pull(&sample, &path(k), 1);
            assert_eq!((pulled.answer, pulled.byte_count), (0, 1), "{k} names");
            assert_eq!(lent.buffer[0], 9);
            assert!(lent.buffer[1..].iter().all(|&byte| byte == 0));
            let (nodes, blocks) = with_directories(k, &[7], &[4098, DATA as u32]);
            assert_eq!(numbers(&lent.nodes, pulled.node_count), nodes);
            assert_eq!(numbers(&lent.blocks, pulled.block_count), blocks);
            let mut lent = Lent::with(rooms(k));
            let past = lent.pull(&sample, &path(k), 2);
            assert_eq!((past.answer, past.byte_count, past.node_count), (3, 0, k as u32 + 1));
            assert!(lent.buffer.iter().all(|&byte| byte == 0xAA));
        }
    }

    /// "A name has 1 to 255 bytes": eight of 255 bytes, each in 32 slots.
    #[test]
    fn eight_names_of_255_bytes() {
        let mut sample = Sample::with_path(8, 100);
        let names: Vec<Vec<u8>> = (b'a'..=b'h').map(|byte| vec![byte; 255]).collect();
        for (depth, name) in names.iter().enumerate() {
            let next = if depth < 7 { directory(depth + 1).0 } else { 7 };
            sample.put_dentry(directory(depth).1 + 1, 2, raw_hash(name), next, name);
        }
        let found = Pulled { answer: 1, byte_count: 100, node_count: 9, block_count: 17 };
        let path = names.join(&b'/');
        assert_eq!(Lent::with(MOST_ROOMS).pull(&sample, &path, 0), found);
        // One byte less at the end is another name, one byte more none.
        let shorter = &path[..path.len() - 1];
        assert_eq!(Lent::with(MOST_ROOMS).pull(&sample, shorter, 0).answer, 2);
        let longer = [&path[..], b"h"].concat();
        assert_eq!(Lent::with(MOST_ROOMS).pull(&sample, &longer, 0), refused(4));
    }

    /// "a one-name path answers as before"
    #[test]
    fn one_name_answers_as_before() {
        let mut found = sample(4097);
        found.put32(4098, 364, DATA as u32);
        found.put(DATA, 0, &[9; 4096]);
        let mut damaged = sample(4097);
        DAMAGE[1](&mut damaged, FIRST_PACK);
        let mut malformed = sample(4097);
        malformed.put16(4097, 30 + 8, 0);
        let long = [b'n'; 256];
        let roots = [inline_root(4, 1), leveled(31, 1), leveled(2, 63)];
        for sample in [found, damaged, malformed].into_iter().chain(roots) {
            for name in [NAME, b"other", b".", b"..", b"", b"\0", b"/", &long[..255], &long] {
                for (index, less) in [0, 1, 2, u32::MAX].iter().flat_map(|i| [(*i, 0), (*i, 1)]) {
                    let [mut before, mut now] = [Lent::new(), Lent::new()];
                    before.nodes.truncate(716 - less);
                    now.nodes.truncate(716 - less);
                    let pulled = before.pull_in_root(&sample, name, index);
                    assert_eq!(now.pull(&sample, name, index), pulled, "{name:?}");
                    assert_eq!(now.buffer, before.buffer);
                    assert_eq!((now.nodes, now.blocks), (before.nodes, before.blocks));
                }
            }
        }
    }

    #[test]
    fn damaged_volumes_leave_everything_untouched() {
        for damage in DAMAGE {
            let mut sample = sample(4097);
            assert_eq!(answer(&sample, NAME, 0).answer, 1);
            damage(&mut sample, FIRST_PACK);
            let mut lent = Lent::new();
            assert_eq!(lent.pull(&sample, NAME, 0), refused(8));
            assert_eq!(lent.pull(&sample, b"other", 0), refused(8));
            assert_eq!(lent.pull(&sample, b"a/b", 0), refused(4));
            assert!(lent.is_untouched());
        }
    }

    #[test]
    fn journalled_nodes() {
        let mut sample = sample(4097);
        // By the table both lie outside the main area.
        sample.put_nat(2560, 3, 3, 1);
        sample.put_nat(2560, 7, 7, 1);
        assert_eq!(answer(&sample, NAME, 0).answer, 10);
        sample.put_journal(&[(7, 7, 4098), (3, 3, 4096)]);
        assert_eq!(answer(&sample, NAME, 0).answer, 1);
        sample.put_journal(&[(7, 7, 4098), (3, 3, 4096), (7, 7, 4098)]);
        assert_eq!(answer(&sample, NAME, 0).answer, 8);
    }
}

//! A small volume for the tests, laid out as the tour's 100 MB one: checkpoint at 512, SIT at
//! 1536, NAT at 2560, SSA at 3584, main at 4096, but with one main segment.

use crate::bytes::{block, le32};
use crate::checksum::checksum;
use crate::hash::raw_hash;
use crate::path::Rooms;
use crate::place::Way;
use crate::pull::{pull, Pulled};
use crate::reader::{most_asks, Reader};

pub const FIRST_PACK: usize = 512;
pub const SECOND_PACK: usize = 1024;
const NAT: usize = 2560;

/// The file's name, and those of the folders on the way to it.
pub const NAME: &[u8] = b"file";
const FOLDERS: [&[u8]; 7] = [b"d1", b"d2", b"d3", b"d4", b"d5", b"d6", b"d7"];

/// Inode number and block of the directory at a depth, the root at 0. Neither rises with it.
pub fn directory(depth: usize) -> (u32, usize) {
    if depth == 0 {
        (3, 4096)
    } else {
        (40 - depth as u32, 4300 - 2 * depth)
    }
}

/// These nodes and blocks and those of the first `count` directories, both rising.
pub fn with_directories(count: usize, nodes: &[u32], blocks: &[u32]) -> (Vec<u32>, Vec<u32>) {
    let (mut nodes, mut blocks) = (nodes.to_vec(), blocks.to_vec());
    for (number, block) in (0..count).map(directory) {
        nodes.push(number);
        blocks.extend([block as u32, block as u32 + 1]);
    }
    nodes.sort();
    blocks.sort();
    (nodes, blocks)
}

/// `k` names: folders, then the file.
pub fn path(k: usize) -> Vec<u8> {
    [&FOLDERS[..k - 1], &[NAME]].concat().join(&b'/')
}

pub struct Sample {
    pub bytes: Vec<u8>,
}

impl Sample {
    /// Opens, with version 5 in the first pack, no second pack, and an empty table and journal.
    pub fn new() -> Sample {
        let mut sample = Sample { bytes: vec![0; 4608 * 4096] };
        sample.bytes[1024..1028].copy_from_slice(&[0x10, 0x20, 0xF5, 0xF2]);
        let fields = [
            (8, 9), (12, 3), (16, 12), (20, 9), (24, 1), (28, 1), (36, 4608), (48, 8), (52, 2),
            (56, 2), (60, 2), (64, 1), (68, 1), (72, 512), (76, 512), (80, 1536), (84, 2560),
            (88, 3584), (92, 4096), (96, 3), (100, 1), (104, 2),
        ];
        for (at, value) in fields {
            sample.put32(0, 1024 + at, value);
        }
        sample.put_pack(FIRST_PACK, 5, 8);
        sample
    }

    /// The file `path(k)`, number 7, at 4098 with this size. Each directory on the way has one
    /// block, right behind its inode, with the next name in slot 2.
    pub fn with_path(k: usize, size: u64) -> Sample {
        let mut sample = Sample::new();
        for (depth, name) in path(k).split(|&byte| byte == b'/').enumerate() {
            let (parent, _) = directory(depth.saturating_sub(1));
            let (number, address) = directory(depth);
            let next = if depth + 1 < k { directory(depth + 1).0 } else { 7 };
            sample.put_inode(number, 0x41ED, 4096, address as u32);
            sample.put32(address, 72, 1);
            sample.put32(address, 360, address as u32 + 1);
            sample.put_dentry(address + 1, 0, 0, number, b".");
            sample.put_dentry(address + 1, 1, 0, parent, b"..");
            sample.put_dentry(address + 1, 2, raw_hash(name), next, name);
        }
        sample.put_inode(7, 0x81A4, size, 4098);
        sample
    }

    pub fn resize_main(&mut self, segments: u32) {
        let blocks = 4096 + 512 * segments;
        self.bytes.resize(blocks as usize * 4096, 0);
        self.put32(0, 1024 + 36, blocks);
        self.put32(0, 1024 + 48, 7 + segments);
        self.put32(0, 1024 + 68, segments);
    }

    pub fn put(&mut self, block: usize, at: usize, bytes: &[u8]) {
        let start = block * 4096 + at;
        self.bytes[start..start + bytes.len()].copy_from_slice(bytes);
    }

    pub fn put16(&mut self, block: usize, at: usize, value: u16) {
        self.put(block, at, &value.to_le_bytes());
    }

    pub fn put32(&mut self, block: usize, at: usize, value: u32) {
        self.put(block, at, &value.to_le_bytes());
    }

    pub fn put64(&mut self, block: usize, at: usize, value: u64) {
        self.put(block, at, &value.to_le_bytes());
    }

    pub fn copy_block(&mut self, from: usize, to: usize) {
        self.bytes.copy_within(from * 4096..(from + 1) * 4096, to * 4096);
    }

    /// Writes the checksum of a checkpoint block.
    pub fn seal(&mut self, block: usize) {
        self.put32(block, 164, 4092);
        let sum = checksum(&self.bytes[block * 4096..block * 4096 + 4092]);
        self.put32(block, 4092, sum);
    }

    /// An unmounted pack; with 8 blocks its journal is in block 1.
    pub fn put_pack(&mut self, start: usize, version: u64, total: u32) {
        for block in [start, start + total as usize - 1] {
            self.put64(block, 0, version);
            self.put32(block, 132, 1);
            self.put32(block, 136, total);
            self.put32(block, 156, 64);
            self.put32(block, 160, 64);
            self.seal(block);
        }
    }

    pub fn put_nat(&mut self, table_block: usize, slot: usize, inode: u32, address: u32) {
        self.put32(table_block, slot * 9 + 1, inode);
        self.put32(table_block, slot * 9 + 5, address);
    }

    /// Entries of number, inode and address in the first pack's journal.
    pub fn put_journal(&mut self, entries: &[(u32, u32, u32)]) {
        self.put_journal_at(FIRST_PACK + 1, 3584, entries);
    }

    /// The same from byte `at` of a block.
    pub fn put_journal_at(&mut self, block: usize, at: usize, entries: &[(u32, u32, u32)]) {
        self.put16(block, at, entries.len() as u16);
        for (position, &(number, inode, address)) in entries.iter().enumerate() {
            let at = at + 2 + 13 * position;
            self.put32(block, at, number);
            self.put32(block, at + 5, inode);
            self.put32(block, at + 9, address);
        }
    }

    /// A SIT entry in a slot of a table block.
    pub fn put_sit(&mut self, table_block: usize, slot: usize, entry: &[u8; 74]) {
        self.put(table_block, slot * 74, entry);
    }

    /// A SIT journal of segment numbers with their entries, from byte `at` of a block.
    pub fn put_sit_journal(&mut self, block: usize, at: usize, entries: &[(u32, [u8; 74])]) {
        self.put16(block, at, entries.len() as u16);
        for (position, (segment, entry)) in entries.iter().enumerate() {
            let at = at + 2 + 78 * position;
            self.put32(block, at, *segment);
            self.put(block, at + 4, entry);
        }
    }

    /// Sets the first pack's flags.
    pub fn put_flags(&mut self, flags: u32) {
        self.put32(FIRST_PACK, 132, flags);
        self.seal(FIRST_PACK);
    }

    /// A node's table entry (numbers below 455) and footer.
    pub fn put_node(&mut self, number: u32, inode: u32, place: u32, address: u32) {
        self.put_nat(NAT, number as usize, inode, address);
        let block = address as usize;
        self.put32(block, 4072, number);
        self.put32(block, 4076, inode);
        self.put32(block, 4080, place * 8);
    }

    /// An inode with its mode and size.
    pub fn put_inode(&mut self, number: u32, mode: u16, size: u64, address: u32) {
        self.put_node(number, number, 0, address);
        self.put16(address as usize, 0, mode);
        self.put64(address as usize, 16, size);
    }

    /// Puts one block below an inode. The nodes on the way that aren't there yet get the next free
    /// numbers from 20 on, and their blocks from 4300 on.
    pub fn put_block_of(&mut self, (inode, at): (u32, usize), way: &Way, address: u32) {
        let (mut node, mut numbers, mut addresses) = (at, 4052, 360);
        for steps in way.steps().windows(2) {
            let at = numbers + 4 * steps[0].slot as usize;
            let number = match le32(&self.bytes, node * 4096 + at) {
                0 => self.free_number(),
                number => number,
            };
            self.put32(node, at, number);
            self.put_node(number, inode, steps[1].place, 4280 + number);
            (node, numbers, addresses) = (4280 + number as usize, 0, 0);
        }
        let slot = way.steps().last().unwrap().slot as usize;
        self.put32(node, addresses + 4 * slot, address);
    }

    /// A reader that was fed these blocks, and those it asked for.
    pub fn fed(&self, path: &[u8], index: u32) -> (Reader, Vec<u32>) {
        let card_blocks = (self.bytes.len() / 4096) as u32;
        fed(card_blocks, path, index, |number| block(&self.bytes, u64::from(number)))
    }

    /// The lowest number from 20 on without an address in the table.
    fn free_number(&self) -> u32 {
        let is_free = |number: &u32| le32(&self.bytes, NAT * 4096 + *number as usize * 9 + 5) == 0;
        (20..).find(is_free).unwrap()
    }

    /// The directory with this level and depth, and without its first block.
    pub fn put_levels(&mut self, directory: usize, level: u8, depth: u32) {
        self.put(directory, 347, &[level]);
        self.put32(directory, 72, depth);
        self.put32(directory, 360, 0);
    }

    /// A dentry at a slot: its map bit, hash, inode, length and name.
    pub fn put_dentry(&mut self, block: usize, slot: usize, hash: u32, inode: u32, name: &[u8]) {
        self.put_dentry_from(block, [0, 30, 2384], slot, (hash, inode), name);
    }

    /// The same at a slot of an inline directory: its 23-byte map at 364, its entries 23 + 7 bytes
    /// later, its names behind 182 entries.
    pub fn put_inline_dentry(
        &mut self,
        block: usize,
        slot: usize,
        hash: u32,
        inode: u32,
        name: &[u8],
    ) {
        self.put_dentry_from(block, [364, 394, 2396], slot, (hash, inode), name);
    }

    /// Where map, entries and names start is given.
    fn put_dentry_from(
        &mut self,
        block: usize,
        [map, entries, names]: [usize; 3],
        slot: usize,
        (hash, inode): (u32, u32),
        name: &[u8],
    ) {
        self.bytes[block * 4096 + map + slot / 8] |= 1 << (slot % 8);
        let entry = entries + 11 * slot;
        self.put32(block, entry, hash);
        self.put32(block, entry + 4, inode);
        self.put16(block, entry + 8, name.len() as u16);
        self.put(block, names + 8 * slot, name);
    }
}

/// What is lent to a pull or a run, each byte AA hex.
#[derive(Clone, PartialEq)]
pub struct Lent {
    pub buffer: Vec<u8>,
    pub nodes: Vec<u8>,
    pub blocks: Vec<u8>,
}

impl Lent {
    pub fn with_buffer(length: usize, rooms: Rooms) -> Lent {
        Lent {
            buffer: vec![0xAA; length],
            nodes: vec![0xAA; 4 * rooms.nodes],
            blocks: vec![0xAA; 4 * rooms.blocks],
        }
    }

    /// A pull. "Fed the image's blocks", a reader "gives the answer, bytes and lists that the
    /// whole-image pull gives", so every pull of the tests is made by one too.
    pub fn pull(&mut self, sample: &Sample, path: &[u8], index: u32) -> Pulled {
        let mut lent_to_reader = self.clone();
        let Lent { buffer, nodes, blocks } = self;
        let pulled = pull(&sample.bytes, path, index, buffer, nodes, blocks);
        // What isn't whole blocks is no card.
        if sample.bytes.len() % 4096 == 0 {
            let (reader, _) = sample.fed(path, index);
            assert_eq!(lent_to_reader.result(&reader), pulled, "block {index} of {path:?}");
            assert!(lent_to_reader == *self, "block {index} of {path:?}");
        }
        pulled
    }

    pub fn result(&mut self, reader: &Reader) -> Pulled {
        let Lent { buffer, nodes, blocks } = self;
        reader.result(buffer, nodes, blocks)
    }

    pub fn is_untouched(&self) -> bool {
        self.buffer.iter().chain(&self.nodes).chain(&self.blocks).all(|&byte| byte == 0xAA)
    }
}

/// A reader with its answer, after it was given what `block_of` makes of each block it asked for,
/// and those blocks. They are on the card, and no more than the most.
pub fn fed<B: AsRef<[u8]>>(
    card_blocks: u32,
    path: &[u8],
    index: u32,
    mut block_of: impl FnMut(u32) -> B,
) -> (Reader, Vec<u32>) {
    let most = most_asks(path.split(|&byte| byte == b'/').count());
    let mut reader = Reader::start(card_blocks, path, index);
    let mut asked = Vec::new();
    while let Some(block) = reader.asks() {
        asked.push(block);
        assert!(block < card_blocks, "{asked:?}");
        assert!(asked.len() <= most, "{asked:?}");
        reader = reader.step(block_of(block).as_ref());
    }
    (reader, asked)
}

/// A small generator: a 64-bit product with its upper half handed out.
pub struct Numbers(pub u64);

impl Numbers {
    pub fn below(&mut self, end: usize) -> usize {
        self.0 = self.0.wrapping_mul(6_364_136_223_846_793_005).wrapping_add(1_442_695);
        (self.0 >> 32) as usize % end
    }
}

/// The numbers of a lent list up to its count; the bytes behind them are untouched.
pub fn numbers(list: &[u8], count: u32) -> Vec<u32> {
    assert!(list[count as usize * 4..].iter().all(|&byte| byte == 0xAA));
    list.chunks_exact(4).take(count as usize).map(|entry| le32(entry, 0)).collect()
}

/// Ways to damage an unmounted pack of 8 blocks, which still passes: error, needs-check, a number
/// twice in its NAT journal.
pub const DAMAGE: [fn(&mut Sample, usize); 3] = [
    |sample, pack| {
        sample.put32(pack, 132, 0x09);
        sample.seal(pack);
    },
    |sample, pack| {
        sample.put32(pack, 132, 0x11);
        sample.seal(pack);
    },
    |sample, pack| sample.put_journal_at(pack + 1, 3584, &[(20, 20, 4100), (20, 20, 4100)]),
];

/// A SIT entry's bytes: the word, a map with its lowest `ones` bits set, and a time of ones that
/// nobody may count.
pub fn sit_entry(word: u16, ones: usize) -> [u8; 74] {
    let mut entry = [0xFF; 74];
    entry[..2].copy_from_slice(&word.to_le_bytes());
    entry[2..66].fill(0);
    for bit in 0..ones {
        entry[2 + bit / 8] |= 1 << (bit % 8);
    }
    entry
}

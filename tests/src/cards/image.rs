//! A card image in memory that is built from knobs and damaged by patches. An image is large beside
//! a patch, so the patches are undone afterwards; they also tell what was done to it.

use std::fmt::{Debug, Formatter, Result};
use std::ops::Range;
use std::path::Path;

use crate::cards::knobs::{Areas, Knobs, Pack};
use crate::cards::layout::checkpoint::SIT_NAT_VERSION_BITMAP;
use crate::cards::layout::journal::{self, JournalEntry, N_NATS};
use crate::cards::layout::nat::{NatEntry, ENTRIES_PER_BLOCK, MAP_BYTES_PER_SEGMENT};
use crate::cards::layout::{checkpoint, footer, nat, superblock};
use crate::cards::layout::{Field, BLOCK_SIZE, SEGMENT_BLOCKS};
use crate::cards::sparse::Sparse;
use crate::cards::versions;
use crate::sizes::CARD_BLOCKS_MOST;
use crate::trial::Random;

#[derive(Clone)]
pub struct Image {
    /// How it came about, to be printed with a mismatch.
    origin: String,
    bytes: Sparse,
    patches: Vec<Patch>,
    /// As built: a patch of a superblock doesn't change them.
    pub areas: Areas,
    allocated: u32,
}

/// Bytes that were changed in an image.
#[derive(Clone)]
struct Patch {
    name: &'static str,
    block: u32,
    at: usize,
    before: Vec<u8>,
    after: Vec<u8>,
}

impl Image {
    pub fn new(knobs: &Knobs) -> Image {
        let bytes = Sparse::zeros(knobs.image_blocks() as usize * BLOCK_SIZE);
        let mut image = Image::over(format!("{knobs:?}"), bytes, knobs.areas());
        if let Some(seed) = knobs.junk {
            image.put_junk(knobs.junk_blocks(), seed);
        }
        for copy in (0..2).filter(|&copy| knobs.copies[copy as usize]) {
            image.set_all(copy, &knobs.superblock_fields());
        }
        for (which, pack) in knobs.packs.iter().enumerate() {
            if let Some(pack) = pack {
                image.add_pack(which, pack, knobs);
            }
        }
        image.patches.clear();
        image
    }

    /// With one block too many.
    pub fn largest(knobs: Knobs) -> Image {
        Image::new(&knobs.in_image_of(CARD_BLOCKS_MOST + 1))
    }

    /// An image that wasn't built here. Its first superblock copy has to be sound.
    pub fn read(origin: String, bytes: Sparse) -> Image {
        let number = |field| number_in(&bytes, 0, field) as u32;
        let main = number(superblock::MAIN_BLKADDR);
        let areas = Areas {
            cp: number(superblock::CP_BLKADDR),
            sit: number(superblock::SIT_BLKADDR),
            nat: number(superblock::NAT_BLKADDR),
            ssa: number(superblock::SSA_BLKADDR),
            main,
            main_end: main + SEGMENT_BLOCKS * number(superblock::SEGMENT_COUNT_MAIN),
            block_count: number(superblock::BLOCK_COUNT),
        };
        Image::over(origin, bytes, areas)
    }

    fn over(origin: String, bytes: Sparse, areas: Areas) -> Image {
        Image {
            origin,
            bytes,
            patches: Vec::new(),
            areas,
            allocated: 0,
        }
    }

    pub fn bytes(&self) -> &[u8] {
        &self.bytes
    }

    pub fn block(&self, block: u32) -> &[u8] {
        &self.bytes[place(block, 0, BLOCK_SIZE)]
    }

    pub fn get(&self, block: u32, field: Field) -> u64 {
        number_in(&self.bytes, block, field)
    }

    pub fn set(&mut self, block: u32, field: Field, value: u64) {
        let stored = value.to_le_bytes();
        self.put(field.name, block, field.at, &stored[..field.size]);
    }

    pub fn set_all(&mut self, block: u32, fields: &[(Field, u64)]) {
        for &(field, value) in fields {
            self.set(block, field, value);
        }
    }

    /// Writes bytes in a block. The name says in a mismatch what they are.
    pub fn put(&mut self, name: &'static str, block: u32, at: usize, bytes: &[u8]) {
        let place = place(block, at, bytes.len());
        self.patches.push(Patch {
            name,
            block,
            at,
            before: self.bytes[place.clone()].to_vec(),
            after: bytes.to_vec(),
        });
        self.bytes[place].copy_from_slice(bytes);
    }

    /// Fills blocks with random bytes, which aren't undone.
    pub fn put_junk(&mut self, blocks: Range<u32>, seed: u64) {
        let place = place(blocks.start, 0, blocks.len() * BLOCK_SIZE);
        let mut random = Random::new(seed);
        for eight in self.bytes[place].chunks_exact_mut(8) {
            eight.copy_from_slice(&random.number().to_le_bytes());
        }
    }

    /// Writes it to a file, in which blocks of zeros take no room.
    pub fn save(&self, path: &Path) {
        self.bytes.save(path);
    }

    /// The blocks that aren't zeros, each with the place of its first byte.
    pub fn data(&self) -> impl Iterator<Item = (usize, &[u8])> {
        self.bytes.data()
    }

    /// The bytes that the patches wrote, each with their place in the image.
    pub fn written(&self) -> impl Iterator<Item = (usize, &[u8])> {
        let start = |patch: &Patch| place(patch.block, patch.at, 0).start;
        let patches = self.patches.iter();
        patches.map(move |patch| (start(patch), patch.after.as_slice()))
    }

    /// For `undo`: how many patches there are by now.
    pub fn mark(&self) -> usize {
        self.patches.len()
    }

    /// Makes what was written part of the image, so that it isn't undone. A mismatch then shows
    /// these words instead of the patches.
    pub fn settle(&mut self, words: &str) {
        self.patches.clear();
        self.origin = format!("{words} on {}", self.origin);
    }

    /// Takes back what was written since the mark.
    pub fn undo(&mut self, mark: usize) {
        for patch in self.patches.drain(mark..).rev() {
            let place = place(patch.block, patch.at, patch.before.len());
            self.bytes[place].copy_from_slice(&patch.before);
        }
    }
}

/// The checkpoint packs.
impl Image {
    pub fn first_block(&self, which: usize) -> u32 {
        self.areas.cp + SEGMENT_BLOCKS * which as u32
    }

    /// By the total that the pack's first block has now.
    pub fn last_block(&self, which: usize) -> u32 {
        let first = self.first_block(which);
        let total = self.get(first, checkpoint::CP_PACK_TOTAL_BLOCK_COUNT);
        (u64::from(first) + total - 1) as u32
    }

    /// Whether a pack is there: anything else, junk too, hasn't the checksum offset.
    pub fn has_pack(&self, which: usize) -> bool {
        let offset = self.get(self.first_block(which), checkpoint::CHECKSUM_OFFSET);
        offset == checkpoint::CHECKSUM.at as u64
    }

    /// The packs that are there.
    pub fn packs(&self) -> impl Iterator<Item = usize> + '_ {
        (0..2).filter(|&which| self.has_pack(which))
    }

    /// The versions of the packs that are there.
    pub fn versions(&self) -> [Option<u64>; 2] {
        [0, 1].map(|which| {
            let version = self.get(self.first_block(which), checkpoint::CHECKPOINT_VER);
            self.has_pack(which).then_some(version)
        })
    }

    /// Which of the packs that are there is in use, if they are sound.
    pub fn pack_in_use(&self) -> usize {
        versions::of_those_there(self.versions()).expect("a pack")
    }

    /// A pack that is there, as far as its numbers and its SIT map go.
    pub fn pack(&self, which: usize) -> Pack {
        let first = self.first_block(which);
        let number = |field| self.get(first, field);
        let map_size = number(checkpoint::SIT_VER_BITMAP_BYTESIZE) as usize;
        Pack {
            total: number(checkpoint::CP_PACK_TOTAL_BLOCK_COUNT) as u32,
            flags: number(checkpoint::CKPT_FLAGS) as u32,
            start_sum: number(checkpoint::CP_PACK_START_SUM) as u32,
            sit_map: self.block(first)[SIT_NAT_VERSION_BITMAP..][..map_size].to_vec(),
            ..Pack::compact(number(checkpoint::CHECKPOINT_VER))
        }
    }

    /// The checksum of a block's first bytes.
    pub fn checksum(&self, block: u32, len: usize) -> u32 {
        reference::checksum::checksum(&self.bytes[place(block, 0, len)])
    }

    /// Makes the checksum of a checkpoint block right.
    pub fn seal(&mut self, block: u32) {
        let sum = self.checksum(block, checkpoint::CHECKSUM.at);
        self.set(block, checkpoint::CHECKSUM, u64::from(sum));
    }

    pub fn set_sealed(&mut self, block: u32, field: Field, value: u64) {
        self.set(block, field, value);
        self.seal(block);
    }

    /// Gives a pack a version, in its first and its last block. Returns those.
    pub fn set_version(&mut self, which: usize, version: u64) -> [u32; 2] {
        let blocks = [self.first_block(which), self.last_block(which)];
        for block in blocks {
            self.set_sealed(block, checkpoint::CHECKPOINT_VER, version);
        }
        blocks
    }

    pub fn set_versions(&mut self, versions: [u64; 2]) {
        for (which, version) in versions.into_iter().enumerate() {
            self.set_version(which, version);
        }
    }

    /// Copies a pack over the other one. Returns which that is.
    pub fn copy_pack(&mut self, which: usize) -> usize {
        let first = self.first_block(which);
        let other = self.first_block(1 - which);
        for block in first..=self.last_block(which) {
            let bytes = self.block(block).to_vec();
            self.put("pack", other + block - first, 0, &bytes);
        }
        1 - which
    }

    /// Writes a pack's NAT map, or its first bytes.
    pub fn put_nat_map(&mut self, which: usize, map: &[u8]) {
        let first = self.first_block(which);
        let sit_map = self.get(first, checkpoint::SIT_VER_BITMAP_BYTESIZE) as usize;
        self.put("NAT map", first, SIT_NAT_VERSION_BITMAP + sit_map, map);
        self.seal(first);
    }

    /// Writes a pack, over whatever is there.
    pub fn add_pack(&mut self, which: usize, pack: &Pack, knobs: &Knobs) {
        let first = self.first_block(which);
        self.set_all(first, &pack.fields(knobs));
        if !pack.sit_map.is_empty() {
            self.put("SIT map", first, SIT_NAT_VERSION_BITMAP, &pack.sit_map);
        }
        let (at, map) = nat_map(pack, knobs);
        self.put("NAT map", first, at, &map);
        self.seal(first);
        // Also with a total of 0: then it is the block before the pack.
        let last = first + pack.total - 1;
        self.set(last, checkpoint::CHECKPOINT_VER, pack.version);
        let offset = checkpoint::CHECKSUM.at as u64;
        self.set_sealed(last, checkpoint::CHECKSUM_OFFSET, offset);
        if let Some((block, at)) = pack.journal_place() {
            self.put_journal(first + block, at, &pack.journal);
        }
        if let (Some(journal), Some((block, at))) = (&pack.sit_journal, pack.sit_journal_place()) {
            self.put_sit_journal(first + block, at, journal);
        }
    }

    pub fn put_journal(&mut self, block: u32, at: usize, entries: &[JournalEntry]) {
        self.set(block, N_NATS.moved(at), entries.len() as u64);
        let stored: Vec<u8> = entries.iter().flat_map(|entry| entry.stored()).collect();
        self.put("journal entries", block, at + N_NATS.size, &stored);
    }

    /// The block of a pack's NAT journal, and the journal's first byte there.
    pub fn journal_place(&self, which: usize) -> (u32, usize) {
        let (block, at) = self.pack(which).journal_place().expect("a journal");
        (self.first_block(which) + block, at)
    }

    /// The counted entries of a pack's NAT journal.
    pub fn journal(&self, which: usize) -> Vec<JournalEntry> {
        let (block, at) = self.journal_place(which);
        let count = self.get(block, N_NATS.moved(at)) as usize;
        let entries = self.block(block)[at + N_NATS.size..].chunks_exact(journal::ENTRY_SIZE);
        entries.take(count).map(JournalEntry::read).collect()
    }

    /// Writes a pack's NAT journal, with as many entries.
    pub fn set_journal(&mut self, which: usize, entries: &[JournalEntry]) {
        let (block, at) = self.journal_place(which);
        self.put_journal(block, at, entries);
    }

    /// Counts other entries of a pack's NAT journal, which stay as they are.
    pub fn set_journal_count(&mut self, which: usize, count: usize) {
        let (block, at) = self.journal_place(which);
        self.set(block, N_NATS.moved(at), count as u64);
    }

    /// Sets flags of a checkpoint block beside those that it has.
    pub fn add_flags(&mut self, block: u32, flags: u32) {
        let old = self.get(block, checkpoint::CKPT_FLAGS);
        self.set_sealed(block, checkpoint::CKPT_FLAGS, old | u64::from(flags));
    }
}

/// The node table, and what is in the main area.
impl Image {
    /// Where a copy of a table block lies: 512 first copies, then their 512 second ones, and so on.
    pub fn nat_block(&self, table_block: u32, copy: u32) -> u32 {
        let pairs_before = table_block / SEGMENT_BLOCKS;
        let within = table_block % SEGMENT_BLOCKS;
        self.areas.nat + (2 * pairs_before + copy) * SEGMENT_BLOCKS + within
    }

    /// Copies a table block, with all its entries, over its other copy.
    pub fn copy_nat_block(&mut self, table_block: u32, copy: u32) {
        let bytes = self.block(self.nat_block(table_block, copy)).to_vec();
        let other = self.nat_block(table_block, 1 - copy);
        self.put("table block", other, 0, &bytes);
    }

    /// The block that has a number's entry, and the entry's first byte there.
    pub fn nat_place(&self, nid: u32, copy: u32) -> (u32, usize) {
        let slot = (nid % ENTRIES_PER_BLOCK) as usize;
        let block = self.nat_block(nid / ENTRIES_PER_BLOCK, copy);
        (block, slot * nat::ENTRY_SIZE)
    }

    pub fn nat_entry(&self, nid: u32, copy: u32) -> NatEntry {
        let (block, at) = self.nat_place(nid, copy);
        NatEntry::read(&self.bytes[place(block, at, nat::ENTRY_SIZE)])
    }

    pub fn set_nat_entry(&mut self, nid: u32, copy: u32, entry: NatEntry) {
        let (block, at) = self.nat_place(nid, copy);
        self.put("NAT entry", block, at, &entry.stored());
    }

    /// The next free block of the main area.
    pub fn allocate(&mut self) -> u32 {
        let block = self.areas.main + self.allocated;
        assert!(block < self.areas.main_end, "the main area is full");
        self.allocated += 1;
        block
    }

    /// A node block with its footer, under both copies of the table: the map may choose either.
    pub fn add_node(&mut self, nid: u32, ino: u32, place_number: u32) -> u32 {
        let block_addr = self.allocate();
        let entry = NatEntry {
            version: 0,
            ino,
            block_addr,
        };
        self.set_nat_entry(nid, 0, entry);
        self.set_nat_entry(nid, 1, entry);
        self.put_footer(block_addr, nid, ino, place_number);
        block_addr
    }

    pub fn put_footer(&mut self, block: u32, nid: u32, ino: u32, place_number: u32) {
        let flag = u64::from(place_number) << footer::OFFSET_BIT_SHIFT;
        self.set(block, footer::NID, u64::from(nid));
        self.set(block, footer::INO, u64::from(ino));
        self.set(block, footer::FLAG, flag);
    }
}

impl Debug for Image {
    fn fmt(&self, f: &mut Formatter) -> Result {
        write!(f, "{:?} in {}", self.patches, self.origin)
    }
}

impl Debug for Patch {
    fn fmt(&self, f: &mut Formatter) -> Result {
        write!(f, "{} in block {}: ", self.name, self.block)?;
        if self.after.len() > 8 {
            return write!(f, "{} bytes from {}", self.after.len(), self.at);
        }
        write!(f, "{} -> {}", number(&self.before), number(&self.after))
    }
}

fn place(block: u32, at: usize, len: usize) -> Range<usize> {
    let start = block as usize * BLOCK_SIZE + at;
    start..start + len
}

/// A little-endian number of up to eight bytes.
fn number(stored: &[u8]) -> u64 {
    let higher_first = stored.iter().rev();
    higher_first.fold(0, |high, &byte| high << 8 | u64::from(byte))
}

fn number_in(bytes: &[u8], block: u32, field: Field) -> u64 {
    number(&bytes[place(block, field.at, field.size)])
}

/// Where a pack's NAT map starts, and its bytes as far as they lie before the checksum.
fn nat_map(pack: &Pack, knobs: &Knobs) -> (usize, Vec<u8>) {
    let size = |segments| (MAP_BYTES_PER_SEGMENT * segments) as usize;
    let start = SIT_NAT_VERSION_BITMAP + size(knobs.sit_segments);
    let mut map = pack.nat_map.clone();
    map.resize(size(knobs.nat_segments), 0);
    map.truncate(checkpoint::CHECKSUM.at.saturating_sub(start));
    (start, map)
}

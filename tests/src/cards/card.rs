//! A card with files in it. Nodes get their numbers and blocks in no order, so that the lists of a
//! pull have to be sorted, and what nothing decides is junk.

use std::collections::{BTreeMap, BTreeSet};
use std::ops::Range;

use crate::cards::directory::DirLevel;
use crate::cards::image::Image;
use crate::cards::knobs::{Knobs, Pack};
use crate::cards::layout::inode::*;
use crate::cards::layout::journal::JournalEntry;
use crate::cards::layout::nat::{NatEntry, ENTRIES_PER_BLOCK};
use crate::cards::layout::{footer, slots, Field, BLOCK_SIZE};
use crate::cards::random::shuffle;
use crate::cards::tree::{self, Step};
use crate::trial::Random;

pub const ROOT: u32 = 3;

/// A node's number and block.
#[derive(Clone, Copy, Debug, PartialEq, Eq)]
pub struct Node {
    pub nid: u32,
    pub block: u32,
}

/// A node on the way to a block of a file, and the slot in it that leads on.
#[derive(Clone, Copy, Debug)]
pub struct Passage {
    pub node: Node,
    pub place: u32,
    pub slot: Field,
}

pub struct Card {
    pub image: Image,
    /// Numbers below it may be those of nodes.
    pub node_numbers: u32,
    pub which_pack: usize,
    pub pack: Pack,
    pub random: Random,
    /// By inode number and place.
    nodes: BTreeMap<(u32, u32), Node>,
    /// The directory that entries go into, at first the root.
    pub folder: u32,
    /// Its blocks by their index.
    pub directory: BTreeMap<u32, u32>,
    /// Those of the other directories.
    pub(super) left: BTreeMap<u32, BTreeMap<u32, u32>>,
    free_blocks: Vec<u32>,
    /// Blocks that are junk already.
    junk_blocks: Range<u32>,
    /// Whether unneeded slots of nodes stay junk; otherwise they are holes.
    junk_slots: bool,
}

/// So many blocks of the main area are used at most.
const MOST_USED: u32 = 1 << 14;

impl Card {
    pub fn new(mut knobs: Knobs, mut random: Random) -> Card {
        knobs.junk.get_or_insert(random.number());
        let free_blocks = free_blocks(&knobs, &mut random);
        Card::within(knobs, random, free_blocks)
    }

    /// With junk in each slot that isn't needed, so that a step aside doesn't end in a hole.
    pub fn with_junk_slots(knobs: Knobs, random: Random) -> Card {
        Card {
            junk_slots: true,
            ..Card::new(knobs, random)
        }
    }

    /// With these blocks of the main area to be used, the last of them first. What isn't used is junk only if the knobs
    /// say so.
    pub fn within(mut knobs: Knobs, random: Random, free_blocks: Vec<u32>) -> Card {
        for pack in knobs.packs.iter_mut().flatten() {
            // Entries for nodes come later.
            pack.journal.clear();
        }
        let (which_pack, pack) = knobs.pack_in_use();
        Card {
            image: Image::new(&knobs),
            node_numbers: knobs.node_numbers(),
            which_pack,
            pack: pack.clone(),
            random,
            nodes: BTreeMap::new(),
            folder: ROOT,
            directory: BTreeMap::new(),
            left: BTreeMap::new(),
            free_blocks,
            junk_blocks: knobs.junk.map_or(0..0, |_| knobs.junk_blocks()),
            junk_slots: false,
        }
    }

    /// A block of the main area that nothing uses.
    pub fn free_block(&mut self) -> u32 {
        let block = self.free_blocks.pop().expect("room in the main area");
        if !self.junk_blocks.contains(&block) {
            self.image.put_junk(block..block + 1, self.random.number());
        }
        block
    }

    /// A node number that nothing uses.
    pub fn free_number(&mut self) -> u32 {
        loop {
            let past_root = u64::from(self.node_numbers - ROOT - 1);
            let nid = ROOT + 1 + self.random.below(past_root) as u32;
            if self.nodes.values().all(|node| node.nid != nid) {
                return nid;
            }
        }
    }

    /// As many of them, each once.
    pub fn free_numbers(&mut self, count: usize) -> Vec<u32> {
        let mut numbers = Vec::new();
        while numbers.len() < count {
            let number = self.free_number();
            if !numbers.contains(&number) {
                numbers.push(number);
            }
        }
        numbers
    }
}

/// Blocks of the main area in no order, spread over all of it if there are many. The first and the last are left to
/// the tests.
fn free_blocks(knobs: &Knobs, random: &mut Random) -> Vec<u32> {
    let areas = knobs.areas();
    let inside = areas.main + 1..areas.main_end - 1;
    let every = inside.len() as u32 / MOST_USED + 1;
    let mut blocks: Vec<u32> = inside.step_by(every as usize).collect();
    shuffle(random, &mut blocks);
    blocks
}

/// Nodes and the table.
impl Card {
    fn add_node(&mut self, nid: u32, ino: u32, place: u32) -> Node {
        let block = self.free_block();
        self.image.put_footer(block, nid, ino, place);
        if !self.junk_slots {
            let from = if place == 0 { slots::I_ADDR.at } else { 0 };
            let zeros = vec![0; footer::NID.at - from];
            self.image.put("slots", block, from, &zeros);
        }
        self.set_entry(nid, ino, block);
        let node = Node { nid, block };
        self.nodes.insert((ino, place), node);
        node
    }

    /// Where the table has a number, in the copy that is in use.
    pub fn entry_place(&self, nid: u32) -> (u32, usize) {
        let copy = self.pack.nat_copy(nid / ENTRIES_PER_BLOCK);
        self.image.nat_place(nid, copy)
    }

    /// Writes a table entry in the copy in use; the other copy leads elsewhere.
    pub fn set_entry(&mut self, nid: u32, ino: u32, block_addr: u32) {
        let copy = self.pack.nat_copy(nid / ENTRIES_PER_BLOCK);
        let entry = NatEntry {
            version: self.random.number() as u8,
            ino,
            block_addr,
        };
        self.image.set_nat_entry(nid, copy, entry);
        self.image.set_nat_entry(nid, 1 - copy, elsewhere(entry));
    }

    /// Moves table entries to the journal. The table's lead elsewhere then.
    pub fn journal(&mut self, numbers: &[u32]) {
        let mut entries = Vec::new();
        for &nid in numbers {
            let copy = self.pack.nat_copy(nid / ENTRIES_PER_BLOCK);
            let entry = self.image.nat_entry(nid, copy);
            entries.push(JournalEntry { nid, entry });
            self.image.set_nat_entry(nid, copy, elsewhere(entry));
        }
        self.image.set_journal(self.which_pack, &entries);
    }
}

/// Checkpoints that follow each other.
impl Card {
    /// Writes the next checkpoint over the other pack, as Linux does. These nodes, by their file and place,
    /// are in other blocks then. Table blocks that say so are in their other copies, so that the pack before
    /// leads where it led.
    pub fn checkpoint(&mut self, version: u64, moved: &[(u32, u32)]) {
        let nodes = moved.iter().map(|key| self.nodes[key].nid);
        let table_blocks: BTreeSet<u32> = nodes.map(|nid| nid / ENTRIES_PER_BLOCK).collect();
        for block in table_blocks {
            self.image.copy_nat_block(block, self.pack.nat_copy(block));
            self.pack.turn_nat_copy(block);
        }
        for &key in moved {
            self.move_node(key);
        }
        self.which_pack = self.image.copy_pack(self.which_pack);
        self.image.put_nat_map(self.which_pack, &self.pack.nat_map);
        self.image.set_version(self.which_pack, version);
        self.pack.version = version;
    }

    fn move_node(&mut self, key: (u32, u32)) {
        let Node { nid, block } = self.nodes[&key];
        let bytes = self.image.block(block).to_vec();
        let block_addr = self.free_block();
        self.image.put("moved node", block_addr, 0, &bytes);
        let copy = self.pack.nat_copy(nid / ENTRIES_PER_BLOCK);
        let entry = self.image.nat_entry(nid, copy);
        let moved = NatEntry {
            block_addr,
            ..entry
        };
        self.image.set_nat_entry(nid, copy, moved);
        let block = block_addr;
        self.nodes.insert(key, Node { nid, block });
    }
}

fn elsewhere(entry: NatEntry) -> NatEntry {
    NatEntry {
        ino: entry.ino ^ 1,
        block_addr: entry.block_addr ^ 1,
        ..entry
    }
}

/// Files.
impl Card {
    /// A directory or a regular file. What the fields leave out is junk, and so is what an inline one has in place of
    /// addresses and node numbers.
    pub fn add_inode(&mut self, ino: u32, fields: &[(Field, u64)]) -> u32 {
        let block = self.add_node(ino, ino, 0).block;
        self.image.set_all(block, fields);
        if self.image.get(block, I_INLINE) & (INLINE_DATA | INLINE_DENTRY) != 0 {
            let at = slots::I_ADDR.at;
            let junk = self.random.bytes(footer::NID.at - at);
            self.image.put("contents of an inode", block, at, &junk);
        }
        block
    }

    pub fn add_root(&mut self, inline: u64, depth: u32) -> u32 {
        self.add_root_with(DirLevel(0), inline, depth)
    }

    pub fn add_root_with(&mut self, dir_level: DirLevel, inline: u64, depth: u32) -> u32 {
        self.add_directory(ROOT, dir_level, inline, depth)
    }

    /// A directory that isn't linked yet. Returns its number.
    pub fn add_folder(&mut self, dir_level: DirLevel, inline: u64, depth: u32) -> u32 {
        let ino = self.free_number();
        self.add_directory(ino, dir_level, inline, depth);
        ino
    }

    /// Enters it. An inline one has no entries yet.
    fn add_directory(&mut self, ino: u32, dir_level: DirLevel, inline: u64, depth: u32) -> u32 {
        self.enter(ino);
        let size = match inline & INLINE_DENTRY {
            0 => BLOCK_SIZE,
            _ => INLINE_DIRECTORY_ROOM,
        };
        let fields = [
            (I_MODE, S_IFDIR | 0o755),
            (I_INLINE, inline),
            (I_SIZE, size as u64),
            (I_CURRENT_DEPTH, u64::from(depth)),
            (I_DIR_LEVEL, u64::from(dir_level.0)),
        ];
        let block = self.add_inode(ino, &fields);
        if let Some(slots) = self.inline_slots() {
            self.image.clear_slots(slots);
        }
        block
    }

    /// A file without blocks; an inline one has junk. Depth and level, which only a directory is asked for, are junk.
    pub fn add_file(&mut self, inline: u64, size: u64) -> u32 {
        let ino = self.free_number();
        let fields = [
            (I_MODE, S_IFREG | 0o644),
            (I_INLINE, inline),
            (I_SIZE, size),
        ];
        self.add_inode(ino, &fields);
        ino
    }

    /// All nodes, each with the number of its inode.
    pub fn nodes(&self) -> impl Iterator<Item = (u32, Node)> + '_ {
        self.nodes.iter().map(|(&(ino, _), &node)| (ino, node))
    }

    /// The node at this place of a file, which has to be there.
    pub fn node(&self, ino: u32, place: u32) -> Node {
        self.nodes[&(ino, place)]
    }

    pub fn inode_block(&self, ino: u32) -> u32 {
        self.node(ino, 0).block
    }

    /// The way to the contents of an inode. It ends there: the first address isn't consulted.
    pub fn inline_way(&self, ino: u32) -> Vec<Passage> {
        vec![Passage {
            node: self.node(ino, 0),
            place: 0,
            slot: slots::I_ADDR,
        }]
    }

    pub fn addresses(&self, ino: u32) -> u32 {
        addresses_by(self.image.get(self.inode_block(ino), I_INLINE))
    }

    /// The way to a block's address. Nodes that are missing on it are made.
    pub fn way(&mut self, ino: u32, index: u32) -> Vec<Passage> {
        let steps = tree::way(self.addresses(ino), index);
        let mut way: Vec<Passage> = Vec::new();
        for (n, step) in steps.iter().enumerate() {
            let node = match self.nodes.get(&(ino, step.place)) {
                Some(&node) => node,
                None => self.add_below(ino, step.place, way[n - 1]),
            };
            way.push(Passage {
                node,
                place: step.place,
                slot: slot_field(step, n + 1 == steps.len()),
            });
        }
        way
    }

    fn add_below(&mut self, ino: u32, place: u32, above: Passage) -> Node {
        let nid = self.free_number();
        let node = self.add_node(nid, ino, place);
        self.image.set(above.node.block, above.slot, u64::from(nid));
        node
    }

    /// The node and slot with the address of a file's block.
    fn address_place(&mut self, ino: u32, index: u32) -> Passage {
        let way = self.way(ino, index);
        way[way.len() - 1]
    }

    pub fn address(&mut self, ino: u32, index: u32) -> u32 {
        let at = self.address_place(ino, index);
        self.image.get(at.node.block, at.slot) as u32
    }

    pub fn set_address(&mut self, ino: u32, index: u32, address: u32) {
        let at = self.address_place(ino, index);
        self.image.set(at.node.block, at.slot, u64::from(address));
    }

    /// Gives a file a block of junk.
    pub fn add_block(&mut self, ino: u32, index: u32) -> u32 {
        let block = self.free_block();
        self.set_address(ino, index, block);
        block
    }
}

/// How many bytes of a file an inode has room for by its inline byte.
pub fn inline_room_by(inline: u64) -> usize {
    match inline & INLINE_XATTR {
        0 => INLINE_ROOM,
        _ => INLINE_ROOM_WITH_XATTR,
    }
}

/// How many addresses an inode has by its inline byte.
pub fn addresses_by(inline: u64) -> u32 {
    match inline & INLINE_XATTR {
        0 => ADDRESSES,
        _ => ADDRESSES_WITH_XATTR,
    }
}

/// The slot that a step takes in its node, which is the way's last or leads on to another.
pub fn slot_field(step: &Step, last: bool) -> Field {
    let first = match (step.place, last) {
        (0, true) => slots::I_ADDR,
        (0, false) => slots::I_NID,
        _ => slots::ADDR_OR_NID,
    };
    first.moved(step.slot * slots::SIZE)
}

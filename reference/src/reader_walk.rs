//! K10: the walk over a card that is handed over one block at a time.
//!
//! Of the blocks only the inode is kept whose file or directory is being read. A node below it, a
//! table block or a directory block leaves behind what the next question needs, and is asked for
//! anew when it is met again.

use std::collections::{BTreeSet, VecDeque};

use crate::hash::raw_hash;
use crate::inode::{DirectorySlots, FileBlock, Inode};
use crate::lookup::{table_entry, EntryPlace};
use crate::node::{expect_node_address, onward, Onward, Sought};
use crate::place::{directory_place, Place, Way};
use crate::reader_open::Card;
use crate::slots::{search_block, search_inline};
use crate::walk::{Found, ROOT};

/// A walk, and the block that it asks for or what it found.
#[derive(Debug, Clone, PartialEq, Eq)]
pub struct Walking {
    walker: Walker,
    next: Next,
}

#[derive(Debug, Clone, PartialEq, Eq)]
enum Next {
    Ask { block: u32, wanted: Wanted },
    End(Result<FoundBlock, u32>),
}

/// What a block is asked for.
#[derive(Debug, Clone, Copy, PartialEq, Eq)]
enum Wanted {
    /// The table entry of the node.
    Entry(Sought),
    /// The node, of which the table says that it belongs to this inode.
    Node { sought: Sought, table_inode: u32 },
    /// The block at the end of the way: a directory's or the file's.
    Block,
}

/// The file's block that was asked for, or a hole without data.
#[derive(Debug, Clone, PartialEq, Eq)]
struct FoundBlock {
    count: u32,
    data: Option<Vec<u8>>,
}

/// What a walk keeps from block to block. Errors are answer numbers.
#[derive(Debug, Clone, PartialEq, Eq)]
struct Walker {
    card: Card,
    /// The names still to be found. The first is sought in the directory being read; without any
    /// it is the file that is being read.
    names: VecDeque<Vec<u8>>,
    index: u32,
    nodes: BTreeSet<u32>,
    blocks: BTreeSet<u32>,
    /// Number and block of the inode that was read last.
    inode: u32,
    inode_block: Vec<u8>,
    /// The ways below it to the blocks that are still to be read, at most 58. The first one is
    /// being followed, and this many nodes below the inode are passed on it.
    ways: VecDeque<Way>,
    depth: usize,
    /// The byte count of the file's block.
    count: u32,
}

impl Walking {
    /// The walk begins at the root.
    pub fn start(card: Card, names: VecDeque<Vec<u8>>, index: u32) -> Walking {
        let mut walker = Walker {
            card,
            names,
            index,
            nodes: BTreeSet::new(),
            blocks: BTreeSet::new(),
            inode: 0,
            inode_block: Vec::new(),
            ways: VecDeque::new(),
            depth: 0,
            count: 0,
        };
        let next = walker.look_up(Sought::inode(ROOT));
        walker.then(next)
    }

    pub fn asks(&self) -> Option<u32> {
        match self.next {
            Next::Ask { block, .. } => Some(block),
            Next::End(_) => None,
        }
    }

    /// Takes the block that was asked for, if one was.
    pub fn step(self, bytes: &[u8]) -> Walking {
        let Next::Ask { wanted, .. } = self.next else {
            return self;
        };
        let mut walker = self.walker;
        let next = walker.block_came(wanted, bytes);
        walker.then(next)
    }

    /// What was found once the walk is over, as the walk over an image gives it.
    pub fn found(&self) -> Option<Result<Found<'_>, u32>> {
        match &self.next {
            Next::Ask { .. } => None,
            Next::End(Err(answer)) => Some(Err(*answer)),
            Next::End(Ok(FoundBlock { count, data })) => {
                Some(Ok(Found { count: *count, data: data.as_deref() }))
            }
        }
    }

    /// The node numbers looked up so far.
    pub fn nodes(&self) -> &BTreeSet<u32> {
        &self.walker.nodes
    }

    /// The blocks of the main area read so far, and the one asked for.
    pub fn blocks(&self) -> &BTreeSet<u32> {
        &self.walker.blocks
    }
}

impl Walker {
    /// "stops at the first of 2, 3, 9 to 14 that it meets"
    fn then(self, next: Result<Next, u32>) -> Walking {
        let next = next.unwrap_or_else(|answer| Next::End(Err(answer)));
        Walking { walker: self, next }
    }

    fn block_came(&mut self, wanted: Wanted, bytes: &[u8]) -> Result<Next, u32> {
        match wanted {
            Wanted::Entry(sought) => self.looked_up(sought, table_entry(bytes, sought.number)),
            Wanted::Node { sought, table_inode } => {
                sought.expect_in(bytes, table_inode)?;
                // No other node has the inode's place.
                if sought.place == 0 {
                    self.inode_came(sought.number, bytes)
                } else {
                    self.node_came(bytes)
                }
            }
            Wanted::Block => self.end_of_way_came(bytes),
        }
    }

    /// Lists the number, also if the answer is 9. Where the journal has it no table block is asked
    /// for.
    fn look_up(&mut self, sought: Sought) -> Result<Next, u32> {
        self.nodes.insert(sought.number);
        match self.card.nat().entry_place(sought.number)? {
            EntryPlace::Journal(inode, address) => self.looked_up(sought, (inode, address)),
            // The table lies on the card, so the number fits.
            EntryPlace::Table(block) => {
                Ok(Next::Ask { block: block as u32, wanted: Wanted::Entry(sought) })
            }
        }
    }

    /// "At a node: 9, 10, then the block is read and listed"
    fn looked_up(&mut self, sought: Sought, entry: (u32, u32)) -> Result<Next, u32> {
        let (table_inode, address) = entry;
        expect_node_address(address, self.card.main_area())?;
        Ok(self.ask_listed(address, Wanted::Node { sought, table_inode }))
    }

    /// Asks for a block of the main area.
    fn ask_listed(&mut self, block: u32, wanted: Wanted) -> Next {
        self.blocks.insert(block);
        Next::Ask { block, wanted }
    }

    /// Keeps the inode, and goes on in the directory or in the file.
    fn inode_came(&mut self, number: u32, bytes: &[u8]) -> Result<Next, u32> {
        self.inode = number;
        self.inode_block = bytes.to_vec();
        let inode = Inode { number, block: bytes };
        match self.names.front() {
            Some(_) => self.directory_came(&inode),
            None => self.file_came(&inode),
        }
    }

    /// The hash levels become the ways to the blocks that the name may be in. An index past the
    /// last place has none.
    fn directory_came(&mut self, directory: &Inode) -> Result<Next, u32> {
        let slots = directory.slots_to_search()?;
        let (name, hash) = self.name();
        match slots {
            DirectorySlots::Inline => {
                let number = search_inline(directory.block, name, hash)?.ok_or(2u32)?;
                self.name_found(number)
            }
            DirectorySlots::Blocks(levels) => {
                let indexes = levels.iter().flat_map(|level| level.searched(hash));
                let way_to = |index| match directory_place(directory.addresses(), index) {
                    Place::Way(way) => Some(way),
                    Place::BadAddresses | Place::Past => None,
                };
                self.ways = indexes.filter_map(way_to).collect();
                self.next_way()
            }
        }
    }

    fn file_came(&mut self, file: &Inode) -> Result<Next, u32> {
        let (count, place) = file.file_block(self.index)?;
        self.count = count;
        match place {
            FileBlock::Inline(bytes) => Ok(self.end(Some(bytes))),
            FileBlock::Below(way) => {
                self.ways = VecDeque::from([way]);
                self.next_way()
            }
        }
    }

    /// Follows the ways that are left from the inode on, until one leads to a block.
    fn next_way(&mut self) -> Result<Next, u32> {
        while let Some(way) = self.ways.front() {
            self.depth = 0;
            let onward = onward(way, 0, &self.inode_block, self.card.main_area())?;
            if let Some(next) = self.go(onward)? {
                return Ok(next);
            }
            self.ways.pop_front();
        }
        // A directory without the name, or a file whose block is a hole.
        match self.names.front() {
            Some(_) => Err(2),
            None => Ok(self.end(None)),
        }
    }

    /// `None` at a hole.
    fn go(&mut self, onward: Onward) -> Result<Option<Next>, u32> {
        match onward {
            Onward::Hole => Ok(None),
            Onward::Node { number, place } => {
                self.depth += 1;
                self.look_up(Sought { number, inode: self.inode, place }).map(Some)
            }
            Onward::Block(address) => Ok(Some(self.ask_listed(address, Wanted::Block))),
        }
    }

    /// A node below the inode, on the way that is being followed.
    fn node_came(&mut self, bytes: &[u8]) -> Result<Next, u32> {
        if let Some(way) = self.ways.front() {
            let onward = onward(way, self.depth, bytes, self.card.main_area())?;
            if let Some(next) = self.go(onward)? {
                return Ok(next);
            }
        }
        self.ways.pop_front();
        self.next_way()
    }

    fn end_of_way_came(&mut self, bytes: &[u8]) -> Result<Next, u32> {
        if self.names.is_empty() {
            return Ok(self.end(Some(bytes)));
        }
        let (name, hash) = self.name();
        match search_block(bytes, name, hash)? {
            Some(number) => self.name_found(number),
            None => {
                self.ways.pop_front();
                self.next_way()
            }
        }
    }

    /// The name that is sought, and its hash.
    fn name(&self) -> (&[u8], u32) {
        let name = self.names.front().map_or(&[][..], Vec::as_slice);
        (name, raw_hash(name))
    }

    /// Goes on to the directory with the next name, or to the file.
    fn name_found(&mut self, number: u32) -> Result<Next, u32> {
        self.names.pop_front();
        self.ways.clear();
        self.look_up(Sought::inode(number))
    }

    /// Data, or a hole without.
    fn end(&self, data: Option<&[u8]>) -> Next {
        Next::End(Ok(FoundBlock { count: self.count, data: data.map(<[u8]>::to_vec) }))
    }
}

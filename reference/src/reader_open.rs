//! K10: opening a card that is handed over one block at a time.
//!
//! Block 0 comes first, and block 1 only if the copy in block 0 doesn't pass. Of each pack the
//! first block, then the last one only if that passes. Last the block with the NAT journal. So at
//! most 7 blocks are asked for, none of them twice.

use std::ops::Range;

use crate::lookup::Nat;
use crate::open::{
    begun_pack, chosen_of, is_marked_damaged, journal_place, maps, nat_journal, pack_starts, Pack,
    Superblock,
};

/// What is kept of a card that opened.
#[derive(Debug, Clone, PartialEq, Eq)]
pub struct Card {
    main_area: Range<u32>,
    nat_address: u32,
    nat_segments: u32,
    nat_map: Vec<u8>,
    journal: Vec<u8>,
}

impl Card {
    pub fn main_area(&self) -> Range<u32> {
        self.main_area.clone()
    }

    pub fn nat(&self) -> Nat<'_> {
        Nat {
            address: self.nat_address,
            segments: self.nat_segments,
            map: &self.nat_map,
            journal: &self.journal,
        }
    }
}

/// The block that opening asks for, and what is kept of those before it.
#[derive(Debug, Clone, PartialEq, Eq)]
pub enum Opening {
    /// Block 0 or 1, for its superblock copy.
    Superblock { card_blocks: u32, copy: u32 },
    /// The first block of a pack.
    First(Packs),
    /// The last block of a pack whose first one passed.
    Last(Packs, KeptPack),
    /// The block of the card that holds the NAT journal, from byte `at` on.
    Journal { card: Card, block: u64, at: usize },
}

/// How far the packs are read.
#[derive(Debug, Clone, PartialEq, Eq)]
pub struct Packs {
    superblock: Superblock,
    /// The second pack is being read. The first one is kept if it passed.
    in_second: bool,
    first: Option<KeptPack>,
}

/// A pack with its first block.
#[derive(Debug, Clone, PartialEq, Eq)]
pub struct KeptPack {
    pack: Pack,
    first_block: Vec<u8>,
}

/// What comes of a block. Opening may also end with an error, 5 to 8.
pub enum Turn {
    Ask(Opening),
    Opened(Card),
}

impl Opening {
    pub fn start(card_blocks: u32) -> Opening {
        Opening::Superblock { card_blocks, copy: 0 }
    }

    /// The areas lie on the card, so the number fits.
    pub fn asks(&self) -> u32 {
        let block = match self {
            Opening::Superblock { copy, .. } => u64::from(*copy),
            Opening::First(packs) => packs.start(),
            Opening::Last(_, begun) => begun.pack.last(),
            Opening::Journal { block, .. } => *block,
        };
        block as u32
    }

    /// Takes the block that was asked for.
    pub fn step(self, bytes: &[u8]) -> Result<Turn, u32> {
        match self {
            Opening::Superblock { card_blocks, copy } => superblock_read(card_blocks, copy, bytes),
            Opening::First(packs) => match begun_pack(bytes, packs.start()) {
                Some(pack) => {
                    let begun = KeptPack { pack, first_block: bytes.to_vec() };
                    Ok(Turn::Ask(Opening::Last(packs, begun)))
                }
                None => packs.pack_read(None),
            },
            Opening::Last(packs, begun) => {
                let passes = begun.pack.ends_with(bytes);
                packs.pack_read(passes.then_some(begun))
            }
            Opening::Journal { card, at, .. } => {
                let journal = bytes.get(at..).and_then(nat_journal).ok_or(8u32)?;
                Ok(Turn::Opened(Card { journal: journal.to_vec(), ..card }))
            }
        }
    }
}

/// "At byte 1,024 of block 0; only if that copy doesn't pass, of block 1."
fn superblock_read(card_blocks: u32, copy: u32, bytes: &[u8]) -> Result<Turn, u32> {
    match Superblock::passing(bytes, u64::from(card_blocks)) {
        Some(superblock) if superblock.has_features() => Err(6),
        Some(superblock) => {
            let packs = Packs { superblock, in_second: false, first: None };
            Ok(Turn::Ask(Opening::First(packs)))
        }
        None if copy == 0 => Ok(Turn::Ask(Opening::Superblock { card_blocks, copy: 1 })),
        None => Err(5),
    }
}

impl Packs {
    /// First block of the pack that is being read.
    fn start(&self) -> u64 {
        let [first, second] = pack_starts(&self.superblock);
        if self.in_second {
            second
        } else {
            first
        }
    }

    /// Takes this pack, if it passed, and goes on to the second one or to the journal.
    fn pack_read(self, passed: Option<KeptPack>) -> Result<Turn, u32> {
        if !self.in_second {
            return Ok(Turn::Ask(Opening::First(Packs { in_second: true, first: passed, ..self })));
        }
        let chosen = chosen_of(self.first, passed, |kept| kept.pack.version).ok_or(7u32)?;
        journal_of(&self.superblock, &chosen)
    }
}

/// Of the chosen pack nothing but the NAT map is still needed; the SIT is not read.
fn journal_of(superblock: &Superblock, chosen: &KeptPack) -> Result<Turn, u32> {
    if is_marked_damaged(&chosen.first_block) {
        return Err(8);
    }
    let (_, nat_map) = maps(&chosen.first_block, superblock).ok_or(8u32)?;
    let (block, at) = journal_place(&chosen.first_block, chosen.pack.total).ok_or(8u32)?;
    let card = Card {
        // The main area ends on the card, so it fits.
        main_area: superblock.main_address..superblock.main_end() as u32,
        nat_address: superblock.nat_address,
        nat_segments: superblock.nat_segments,
        nat_map: nat_map.to_vec(),
        journal: Vec::new(),
    };
    Ok(Turn::Ask(Opening::Journal { card, block: chosen.pack.start + block, at }))
}

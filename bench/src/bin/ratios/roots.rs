//! Cards of 16 MB by their root directory, with a file of one block.

use harptimber_tests::cards::card::{Card, ROOT};
use harptimber_tests::cards::directory::{Dentry, BUCKET_BLOCKS};
use harptimber_tests::cards::knobs::{Knobs, Pack};
use harptimber_tests::cards::layout::dentry::{NR_DENTRY_IN_BLOCK, SLOT_LEN};
use harptimber_tests::cards::layout::inode::I_DIR_LEVEL;
use harptimber_tests::trial::Random;
use reference::hash::raw_hash;

pub const NAME: &str = "road.bin";

/// The root has this depth and directory level, and no blocks yet. The number is that of the file's inode.
fn bare_card(depth: u32, directory_level: u8) -> (Card, u32) {
    let mut knobs = Knobs::sound();
    knobs.packs = [1, 2].map(|version| Some(Pack::compact(version)));
    let mut card = Card::new(knobs, Random::new(1));
    let root = card.add_root(0, depth);
    let level = u64::from(directory_level);
    card.image.set(root, I_DIR_LEVEL, level);
    let ino = card.add_file(0, 4096);
    card.add_block(ino, 0);
    (card, ino)
}

/// A root without blocks: a search comes to holes only.
pub fn bare(depth: u32, directory_level: u8) -> Vec<u8> {
    let (card, _) = bare_card(depth, directory_level);
    card.image.bytes().to_vec()
}

/// With the longest, of 255 bytes, a search would be too short to be told from the rest of a pull.
const LONG_NAME: usize = 64;

/// Entries of a block, each by its first slot and the length of its name.
type Entries = Vec<(usize, usize)>;

fn full_of_short() -> Entries {
    let slots = 0..NR_DENTRY_IN_BLOCK;
    slots.map(|slot| (slot, SLOT_LEN)).collect()
}

fn full_of_long() -> Entries {
    let slots = (0..NR_DENTRY_IN_BLOCK).step_by(LONG_NAME.div_ceil(SLOT_LEN));
    let room = |slot| (NR_DENTRY_IN_BLOCK - slot) * SLOT_LEN;
    slots
        .map(|slot| (slot, room(slot).min(LONG_NAME)))
        .collect()
}

/// What blocks hold, from nothing on. Every other slot leaves the most runs of free ones, of one slot each.
pub const HELD: [&str; 5] = [
    "nothing",
    "one name",
    "every other slot",
    "all slots",
    "long names",
];

fn held() -> [Entries; HELD.len()] {
    let short = full_of_short();
    let middle = vec![short[NR_DENTRY_IN_BLOCK / 2]];
    let every_other = short.iter().copied().step_by(2).collect();
    [vec![], middle, every_other, short, full_of_long()]
}

/// Cards by what the blocks hold in which the name is sought, the two of its bucket in each hash level. None has the
/// name.
pub fn by_held(depth: u32) -> [Vec<u8>; HELD.len()] {
    held().map(|entries| {
        let (card, ..) = searched_card(depth, &entries);
        card.image.bytes().to_vec()
    })
}

/// The twin of those cards: with depth 0 a pull does all that comes before a search, and nothing more.
pub fn unsearched() -> Vec<u8> {
    bare(0, 0)
}

/// In each hash level the two blocks of the name's bucket are full, and the name has the very last slot.
pub fn full(depth: u32) -> Vec<u8> {
    let (mut card, ino, last) = searched_card(depth, &full_of_short());
    let dentry = Dentry::new(NAME.as_bytes(), ino);
    card.image.put_dentry(last, NR_DENTRY_IN_BLOCK - 1, &dentry);
    card.image.bytes().to_vec()
}

/// The numbers are those of the file's inode and of the last block. The directory has no level.
fn searched_card(depth: u32, entries: &Entries) -> (Card, u32, u32) {
    let (mut card, ino) = bare_card(depth, 0);
    let mut last = 0;
    for level in 0..depth {
        for nth in 0..BUCKET_BLOCKS {
            last = card.bucket_block(level, raw_hash(NAME.as_bytes()), nth);
            put_others(&mut card, last, ino, entries);
        }
    }
    (card, ino, last)
}

/// Puts other names into a block, whose hashes lead to the same bucket.
fn put_others(card: &mut Card, block: u32, ino: u32, entries: &Entries) {
    for &(slot, len) in entries {
        let mut other = Dentry::new(format!("{slot:0len$}").as_bytes(), ino);
        other.hash = raw_hash(NAME.as_bytes()) ^ 1 << 31;
        card.image.put_dentry(block, slot, &other);
    }
}

/// The name has the first slot of the root's block with this index, and the root one hash level.
pub fn first_slot(name: &str, directory_level: u8, index: u32) -> Vec<u8> {
    let (mut card, ino) = bare_card(1, directory_level);
    let block = card.add_block(ROOT, index);
    card.image.clear_slots(block);
    let dentry = Dentry::new(name.as_bytes(), ino);
    card.image.put_dentry(block, 0, &dentry);
    card.image.bytes().to_vec()
}

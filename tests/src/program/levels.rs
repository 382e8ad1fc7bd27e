//! Cards whose root directory has a directory level, which spreads its names over more buckets.

use reference::hash::raw_hash;

use crate::cards::card::{Card, Passage, ROOT};
use crate::cards::directory::{Dentry, DirLevel, Linked, BUCKET_BLOCKS, MOST_DEPTH};
use crate::cards::names::LAST_NAMES;
use crate::cards::one_file::small_knobs;
use crate::cards::tree::last_index;
use crate::program::card::Put;
use crate::trial::Random;

/// The highest that is read.
pub const MOST_LEVEL: u8 = 30;

/// A file, and where the root directory has its entry.
#[derive(Clone, Debug)]
pub struct Placed {
    pub put: Put,
    pub hash_level: u32,
    /// Of the directory's block with the entry.
    pub index: u32,
    pub linked: Linked,
}

/// A small card with a file in some hash levels of its root directory.
pub struct LeveledCard {
    pub card: Card,
    pub level: u8,
    pub files: Vec<Placed>,
}

impl LeveledCard {
    /// A file in each of these hash levels, of a block and a half. Depth 63 reaches past the last of them.
    pub fn new(random: &mut Random, level: u8, inline: u64, hash_levels: &[u32]) -> LeveledCard {
        let mut card = empty_card(random, level, inline);
        let mut files = Vec::new();
        for (nth, &n) in hash_levels.iter().enumerate() {
            let name = name_in(&card, n, &format!("in {n}, file")).into_bytes();
            files.push(place(&mut card, name, n, nth as u32 % BUCKET_BLOCKS));
        }
        card.image
            .settle(&format!("a directory of level {level}, inline {inline}"));
        LeveledCard { card, level, files }
    }

    /// A file whose entry is in the block at the last index: of its bucket in the last hash level that is the only block.
    pub fn at_the_last_index(random: &mut Random, level: u8, inline: u64) -> LeveledCard {
        let mut card = empty_card(random, level, inline);
        let [with_many, _, with_few, _] = LAST_NAMES[usize::from(level)];
        let name = if inline == 0 { with_many } else { with_few };
        let last = card.dir_level().in_reach() - 1;
        let file = place(&mut card, name.into(), last, 0);
        card.image
            .settle(&format!("the last block at level {level}, inline {inline}"));
        let files = vec![file];
        LeveledCard { card, level, files }
    }

    /// The way to the block with a file's entry.
    pub fn way(&mut self, file: &Placed) -> Vec<Passage> {
        self.card.way(ROOT, file.index)
    }
}

/// A card without a file. Depth 63 is the most that is read.
fn empty_card(random: &mut Random, level: u8, inline: u64) -> Card {
    let knobs = small_knobs(random);
    let mut card = Card::new(knobs, Random::new(random.number()));
    card.add_root_with(DirLevel(level.into()), inline, MOST_DEPTH);
    card
}

/// A name that leads to a block in reach in this hash level.
fn name_in(card: &Card, n: u32, start: &str) -> String {
    let mut names = (0..).map(|number| format!("{start} {number}"));
    let (level, last) = (card.dir_level(), last_index(card.addresses(ROOT)));
    let second = |name: &str| level.index(n, raw_hash(name.as_bytes()), BUCKET_BLOCKS - 1);
    let found = names.find(|name| second(name) <= last.into());
    found.expect("a name")
}

fn place(card: &mut Card, name: Vec<u8>, n: u32, nth: u32) -> Placed {
    let size = 6000;
    let ino = card.add_file(0, size);
    let blocks = [0, 1].map(|index| (index, card.add_block(ino, index)));
    let index = card.dir_level().index(n, raw_hash(&name), nth) as u32;
    let linked = card.link(n, nth, &Dentry::new(&name, ino));
    Placed {
        hash_level: n,
        index,
        put: Put {
            name,
            ino,
            size,
            blocks: blocks.into(),
            inline: None,
        },
        linked,
    }
}

/// Hash levels of a directory of this level: the first two, one behind a direct node if there is such, one in the middle,
/// and the last two in reach.
pub fn some_hash_levels(level: u8) -> Vec<u32> {
    let reach = DirLevel(level.into()).in_reach();
    // It has the indexes from 1024 - 2^(level + 1) on, as many as 1024.
    let behind_direct = 9u32.saturating_sub(level.into());
    let last_two = [reach.saturating_sub(2), reach - 1];
    let mut some = [&[0, 1, behind_direct, reach / 2], &last_two[..]].concat();
    some.retain(|&n| n < reach);
    some.sort();
    some.dedup();
    some
}

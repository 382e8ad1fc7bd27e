//! A directory that has every block in which a name is sought, however far out. All else of it is junk.

use reference::hash::raw_hash;

use crate::cards::card::{addresses_by, Card, Passage, ROOT};
use crate::cards::directory::{Dentry, DirLevel, BUCKET_BLOCKS, MOST_DEPTH};
use crate::cards::layout::inode::I_CURRENT_DEPTH;
use crate::cards::names::name_with;
use crate::cards::one_file::small_knobs;
use crate::cards::tree::last_index;
use crate::trial::Random;

/// The directory, and a file of one byte that isn't linked yet. Unneeded slots of its nodes are junk.
pub struct Deep {
    pub card: Card,
    pub name: Vec<u8>,
    pub ino: u32,
    pub data: u32,
    /// In the order of the search.
    pub buckets: Vec<Bucket>,
}

/// A block in which the name is sought.
pub struct Bucket {
    pub level: u32,
    pub index: u32,
    pub block: u32,
    pub way: Vec<Passage>,
}

impl Deep {
    pub fn new(random: &mut Random, dir_level: DirLevel, inline: u64, name: &[u8]) -> Deep {
        let blocks = sought(dir_level, inline, name);
        Deep::with(random, dir_level, inline, name, &blocks)
    }

    /// With a name that leads to a whole bucket in each hash level that is in reach.
    pub fn reaching(random: &mut Random, dir_level: DirLevel, inline: u64) -> Deep {
        let len = 4 + random.below(27) as usize;
        let name = reaching_name(random, dir_level, inline, len);
        Deep::new(random, dir_level, inline, &name)
    }

    /// With just these blocks, by their hash levels and indexes.
    pub fn with(
        random: &mut Random,
        dir_level: DirLevel,
        inline: u64,
        name: &[u8],
        blocks: &[(u32, u32)],
    ) -> Deep {
        let knobs = small_knobs(random);
        let mut card = Card::with_junk_slots(knobs, Random::new(random.number()));
        card.add_root_with(dir_level, inline, MOST_DEPTH);
        let ino = card.add_file(inline, 1);
        let data = card.add_block(ino, 0);
        let mut deep = Deep {
            card,
            name: name.to_vec(),
            ino,
            data,
            buckets: Vec::new(),
        };
        for &(level, index) in blocks {
            deep.add_bucket(random, level, index);
        }
        let words = format!("the blocks for a name with {dir_level:?}");
        deep.card.image.settle(&words);
        deep
    }

    pub fn last_index(&self) -> u32 {
        last_index(self.card.addresses(ROOT))
    }

    /// A block with entries that a search has to pass.
    fn add_bucket(&mut self, random: &mut Random, level: u32, index: u32) {
        let block = self.card.directory_block(index);
        let own = raw_hash(&self.name);
        let other = name_with(random, self.name.len(), |hash| hash != own);
        let other = Dentry::new(&other, ROOT);
        let longer = Dentry::new(&[&self.name, b"x".as_slice()].concat(), ROOT);
        for (nth, aside) in [other, longer].into_iter().enumerate() {
            let aside = aside.under_hash_of(&self.name);
            self.card.image.put_dentry(block, 40 * nth, &aside);
        }
        self.buckets.push(Bucket {
            level,
            index,
            block,
            way: self.card.way(ROOT, index),
        });
    }

    pub fn set_depth(&mut self, depth: u32) {
        let root = self.card.inode_block(ROOT);
        self.card.image.set(root, I_CURRENT_DEPTH, u64::from(depth));
    }

    /// How many blocks are searched below this hash level.
    pub fn before(&self, level: u32) -> usize {
        let before = self.buckets.iter().filter(|bucket| bucket.level < level);
        before.count()
    }

    /// Links the file in a bucket's block, at one of its last slots.
    pub fn link(&mut self, bucket: usize, ino: u32) {
        let block = self.buckets[bucket].block;
        self.link_in(block, 170 + bucket % 8, ino);
    }

    /// Links the name in any block.
    pub fn link_in(&mut self, block: u32, slot: usize, ino: u32) {
        let dentry = Dentry::new(&self.name, ino);
        self.card.image.put_dentry(block, slot, &dentry);
    }

    /// Links the file also at an index where it isn't sought. Returns whether that is one.
    pub fn link_astray(&mut self, index: u64) -> bool {
        let sought = |bucket: &Bucket| u64::from(bucket.index) == index;
        let astray = index <= u64::from(self.last_index()) && !self.buckets.iter().any(sought);
        if astray {
            let block = self.card.directory_block(index as u32);
            self.link_in(block, 0, self.ino);
        }
        astray
    }

    /// The lists of a search that came so far.
    pub fn lists(&self, buckets: usize) -> (Vec<u32>, Vec<u32>) {
        let root = self.card.node(ROOT, 0);
        let (mut nodes, mut blocks) = (vec![root.nid], vec![root.block]);
        for bucket in &self.buckets[..buckets] {
            nodes.extend(bucket.way.iter().map(|passage| passage.node.nid));
            blocks.extend(bucket.way.iter().map(|passage| passage.node.block));
            blocks.push(bucket.block);
        }
        (nodes, blocks)
    }
}

/// The blocks that a directory has for a name, by hash levels and indexes, also those past the last index.
pub fn all_blocks(dir_level: DirLevel, name: &[u8]) -> Vec<(u32, u64)> {
    let hash = raw_hash(name);
    let of_level = |level| {
        let nths = 0..DirLevel::bucket_blocks(level);
        nths.map(move |nth| (level, dir_level.index(level, hash, nth)))
    };
    (0..MOST_DEPTH).flat_map(of_level).collect()
}

/// Those in which it is sought.
pub fn sought(dir_level: DirLevel, inline: u64, name: &[u8]) -> Vec<(u32, u32)> {
    let last = u64::from(last_index(addresses_by(inline)));
    let blocks = all_blocks(dir_level, name).into_iter();
    let inside = blocks.filter(|&(_, index)| index <= last);
    inside.map(|(level, index)| (level, index as u32)).collect()
}

/// A name that leads to a whole bucket in each hash level in reach.
pub fn reaching_name(random: &mut Random, dir_level: DirLevel, inline: u64, len: usize) -> Vec<u8> {
    let last = u64::from(last_index(addresses_by(inline)));
    let farthest = dir_level.in_reach() - 1;
    name_with(random, len, |hash| {
        dir_level.index(farthest, hash, BUCKET_BLOCKS - 1) <= last
    })
}

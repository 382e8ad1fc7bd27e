//! A small card with one file, for tests that change one thing after the other.

use crate::cards::card::{Card, Passage, ROOT};
use crate::cards::directory::{Dentry, Linked};
use crate::cards::knobs::{Knobs, Pack};
use crate::cards::layout::inode::{INLINE_DENTRY, INLINE_XATTR};
use crate::cards::layout::nat::MAP_BYTES_PER_SEGMENT;
use crate::trial::Random;

pub const NAME: &[u8] = b"road.bin";

/// Spare blocks lie behind the main area, so that an address just past it is still in the image.
/// The NAT map says now the one copy and now the other.
pub fn small_knobs(random: &mut Random) -> Knobs {
    let knobs = Knobs::sound();
    let map_len = (knobs.nat_segments * MAP_BYTES_PER_SEGMENT) as usize;
    let pack = Pack {
        nat_map: random.bytes(map_len),
        ..Pack::compact(1)
    };
    Knobs {
        spare_segments: 1,
        ..knobs.with_pack(0, pack)
    }
}

pub struct Scene {
    pub card: Card,
    /// The file's inode number.
    pub ino: u32,
    /// Its entry, in the directory's first block.
    pub linked: Linked,
}

/// The inline bytes of the root and of the file, and the file's size.
#[derive(Clone, Copy, Debug)]
pub struct Setting {
    pub root_inline: u64,
    pub file_inline: u64,
    pub size: u64,
}

/// Whether the inodes have fewer addresses, for the root and for the file.
pub const INLINES: [[u64; 2]; 4] = [
    [0, 0],
    [INLINE_XATTR, 0],
    [0, INLINE_XATTR],
    [INLINE_XATTR, INLINE_XATTR],
];

/// An inline root, with the bit for attributes and without.
pub const INLINE_ROOTS: [u64; 2] = [INLINE_DENTRY, INLINE_DENTRY | INLINE_XATTR];

impl Scene {
    /// Unneeded slots of the nodes are holes.
    pub fn new(random: &mut Random, setting: Setting) -> Scene {
        let knobs = small_knobs(random);
        let card = Card::new(knobs, Random::new(random.number()));
        Scene::on(card, setting)
    }

    /// Unneeded slots of the nodes are junk.
    pub fn with_junk_slots(random: &mut Random, setting: Setting) -> Scene {
        let knobs = small_knobs(random);
        let card = Card::with_junk_slots(knobs, Random::new(random.number()));
        Scene::on(card, setting)
    }

    pub fn on(mut card: Card, setting: Setting) -> Scene {
        card.add_root(setting.root_inline, 1);
        let ino = card.add_file(setting.file_inline, setting.size);
        let linked = card.link(0, 0, &Dentry::new(NAME, ino));
        card.image.settle(&format!("{setting:?}"));
        Scene { card, ino, linked }
    }

    pub fn root_block(&self) -> u32 {
        self.card.inode_block(ROOT)
    }

    pub fn file_block(&self) -> u32 {
        self.card.inode_block(self.ino)
    }

    /// The next checkpoint, after a block of the file was written anew, and so were the nodes on its way.
    /// Returns the block.
    pub fn rewrite(&mut self, version: u64, index: u32) -> u32 {
        let way = self.card.way(self.ino, index);
        let moved: Vec<_> = way
            .iter()
            .map(|passage| (self.ino, passage.place))
            .collect();
        self.card.checkpoint(version, &moved);
        self.card.add_block(self.ino, index)
    }

    /// The lists of a pull that looked up so many nodes of a way and read so many of them.
    pub fn lists(&self, way: &[Passage], looked_up: usize, read: usize) -> (Vec<u32>, Vec<u32>) {
        let nids = way[..looked_up].iter().map(|passage| passage.node.nid);
        let blocks = way[..read].iter().map(|passage| passage.node.block);
        let found = [self.root_block(), self.linked.block];
        (
            [ROOT].into_iter().chain(nids).collect(),
            found.into_iter().chain(blocks).collect(),
        )
    }
}

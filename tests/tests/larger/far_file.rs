//! A card of the most blocks with a file at its very end: each node, directory block and data block is there.

use std::collections::{BTreeMap, BTreeSet};

use harptimber_tests::cards::card::{Card, Passage, ROOT};
use harptimber_tests::cards::directory::{in_slot, Dentry};
use harptimber_tests::cards::image::Image;
use harptimber_tests::cards::knobs::{Knobs, Pack};
use harptimber_tests::cards::layout::inode::I_SIZE;
use harptimber_tests::cards::layout::nat::MAP_BYTES_PER_SEGMENT;
use harptimber_tests::cards::layout::{dentry, BLOCK_SIZE};
use harptimber_tests::cards::one_file::{Scene, Setting, NAME};
use harptimber_tests::cards::random::shuffle;
use harptimber_tests::trial::Random;

/// The last block of the largest card.
pub const LAST_BLOCK: u32 = 4_194_303;
/// The longest node table whose map has room in a pack.
const NAT_SEGMENTS: u32 = 118;

/// Blocks in the inode, behind both direct nodes, both indirect ones and the double one, of 923 addresses.
pub const DATA: [u32; 6] = [0, 923, 2958, 2959, 1_039_283, 2_075_607];
/// Holes in the inode and in nodes beside these blocks.
pub const HOLES: [u32; 3] = [1, 924, 2960];
/// A hole because there is no node for it. It is the file's last block, of so many bytes.
pub const HOLE_AT_END: (u32, usize) = (3_000_000, 4000);
pub const PAST: u32 = HOLE_AT_END.0 + 1;
pub const MISSING: &[u8] = b"road.tbl";

const SETTING: Setting = Setting {
    root_inline: 0,
    file_inline: 0,
    size: (HOLE_AT_END.0 as usize * BLOCK_SIZE + HOLE_AT_END.1) as u64,
};

/// How many blocks the file and its directory have: the two inodes, a directory block, the data and nine nodes.
pub const USED: usize = 3 + DATA.len() + 9;

pub struct Far {
    pub scene: Scene,
    /// Its blocks by their indexes.
    pub data: BTreeMap<u32, u32>,
    other: Other,
}

/// What a search comes to that is led astray: another file, and a directory block that has it under any name.
struct Other {
    ino: u32,
    data: u32,
    directory: u32,
}

impl Far {
    /// The last block of the card is the one that is used after so many others.
    pub fn new(random: &mut Random, at_end: usize) -> Far {
        let mut scene = far_scene(random, at_end, SETTING);
        let mut block_at = |index| (index, scene.card.add_block(scene.ino, index));
        let data = DATA.into_iter().map(&mut block_at).collect();
        let other = Other::on(&mut scene.card);
        scene.card.image.settle("a file at the end");
        Far { scene, data, other }
    }

    pub fn image(&self) -> &Image {
        &self.scene.card.image
    }

    /// The ways to the data and to the holes beside it.
    pub fn ways(&mut self) -> BTreeMap<u32, Vec<Passage>> {
        let Scene { card, ino, .. } = &mut self.scene;
        let indexes = DATA.into_iter().chain(HOLES);
        indexes
            .map(|index| (index, card.way(*ino, index)))
            .collect()
    }

    /// The card with each of the file's blocks as a decoy: it belongs where it is, and leads to other data or to none.
    pub fn astray(&mut self) -> Image {
        let ways = self.ways();
        let root = self.scene.card.way(ROOT, 0)[0];
        let (linked, other) = (self.scene.linked, &self.other);
        let mut image = self.image().clone();
        image.set(root.node.block, root.slot, other.directory.into());
        image.set(self.scene.file_block(), I_SIZE, u64::MAX);
        let ino = in_slot(dentry::INO, linked.slot);
        image.set(linked.block, ino, other.ino.into());
        image.put_dentry(
            linked.block,
            linked.slot + 1,
            &Dentry::new(MISSING, other.ino),
        );
        for (last, before) in ways.values().filter_map(|way| way.split_last()) {
            image.set(last.node.block, last.slot, other.data.into());
            for passage in before {
                image.set(passage.node.block, passage.slot, 0);
            }
        }
        for &block in self.data.values() {
            let inverted: Vec<u8> = image.block(block).iter().map(|byte| !byte).collect();
            image.put("inverted", block, 0, &inverted);
        }
        image
    }

    /// All that the file and its directory have.
    pub fn used(&mut self) -> BTreeSet<u32> {
        let passages = self.ways().into_values().flatten();
        let nodes = passages.map(|passage| passage.node.block);
        let directory = [self.scene.root_block(), self.scene.linked.block];
        let data = self.data.values().copied();
        nodes.chain(directory).chain(data).collect()
    }
}

impl Other {
    fn on(card: &mut Card) -> Other {
        let ino = card.add_file(0, u64::MAX);
        let data = card.add_block(ino, 0);
        let directory = card.free_block();
        card.image.clear_slots(directory);
        for (slot, name) in [NAME, MISSING].into_iter().enumerate() {
            card.image
                .put_dentry(directory, slot, &Dentry::new(name, ino));
        }
        Other {
            ino,
            data,
            directory,
        }
    }
}

/// A root and a file at the card's end, whose last block is the one that is used after so many others.
pub fn far_scene(random: &mut Random, at_end: usize, setting: Setting) -> Scene {
    let blocks = last_blocks(random, at_end);
    let card = Card::within(knobs(random), Random::new(random.number()), blocks);
    Scene::on(card, setting)
}

/// The NAT map says now the one copy and now the other.
fn knobs(random: &mut Random) -> Knobs {
    let pack = Pack {
        nat_map: random.bytes((NAT_SEGMENTS * MAP_BYTES_PER_SEGMENT) as usize),
        ..Pack::compact(1)
    };
    Knobs::largest(NAT_SEGMENTS).with_pack(0, pack)
}

/// Those of the card's last two segments in no order, but for its last one.
fn last_blocks(random: &mut Random, at_end: usize) -> Vec<u32> {
    let mut blocks: Vec<u32> = (LAST_BLOCK - 1023..LAST_BLOCK).collect();
    shuffle(random, &mut blocks);
    // The last of the list is used first.
    blocks.insert(blocks.len() - at_end, LAST_BLOCK);
    blocks
}

//! A file with many blocks, and what a run of them gives by the tree of its nodes.

use std::ops::Range;

use harptimber_tests::calls::runs::{Given, RunCall};
use harptimber_tests::cards::card::{Card, Passage};
use harptimber_tests::cards::knobs::Knobs;
use harptimber_tests::cards::layout::inode::{INLINE_XATTR, I_SIZE};
use harptimber_tests::cards::layout::slots::PER_NODE;
use harptimber_tests::cards::layout::BLOCK_SIZE;
use harptimber_tests::cards::one_file::{small_knobs, Scene, Setting, NAME};
use harptimber_tests::cards::tree::last_index;
use harptimber_tests::trial::Random;

/// The inline byte of a file with 923 addresses in its inode, and of one with 873.
pub const INLINES: [u64; 2] = [0, INLINE_XATTR];

pub struct Stretch {
    pub scene: Scene,
    /// Where the file has blocks. All else is holes.
    pub indexes: Range<u32>,
}

impl Stretch {
    /// A file of so many bytes that has a block at each of these indexes.
    pub fn of(random: &mut Random, inline: u64, size: u64, indexes: Range<u32>) -> Stretch {
        let knobs = Knobs {
            main_segments: 3,
            ..small_knobs(random)
        };
        let setting = Setting {
            root_inline: 0,
            file_inline: inline,
            size,
        };
        let card = Card::new(knobs, Random::new(random.number()));
        let mut scene = Scene::on(card, setting);
        for index in indexes.clone() {
            scene.card.add_block(scene.ino, index);
        }
        scene.card.image.settle(&format!("blocks {indexes:?}"));
        Stretch { scene, indexes }
    }

    /// A file that is as long as a file can be.
    pub fn longest(random: &mut Random, inline: u64, indexes: Range<u32>) -> Stretch {
        Stretch::of(random, inline, u64::MAX, indexes)
    }

    pub fn call(&self, index: u32, blocks: u32) -> RunCall<'_> {
        RunCall::new(&self.scene.card.image, NAME, index, blocks)
    }

    pub fn way(&mut self, index: u32) -> Vec<Passage> {
        self.scene.card.way(self.scene.ino, index)
    }

    /// What a walk to the file's inode gives, which an index past the end ends with.
    pub fn found(&self, answer: u32) -> Given {
        let inode = self.scene.card.inline_way(self.scene.ino);
        let (nodes, blocks) = self.scene.lists(&inode, 1, 1);
        Given {
            nodes: nodes.into_iter().collect(),
            blocks: blocks.into_iter().collect(),
            ..Given::refused(answer)
        }
    }

    /// What a run gives whose nodes are all there. A number or an address of 0 on the way is a hole.
    pub fn told(&mut self, index: u32, blocks: u32) -> Given {
        let mut given = self.found(0);
        let size = self.scene.card.image.get(self.scene.file_block(), I_SIZE);
        let last = last_index(self.scene.card.addresses(self.scene.ino));
        for index in index..index.saturating_add(blocks) {
            let left = size.saturating_sub(u64::from(index) * BLOCK_SIZE as u64);
            if left == 0 || index > last {
                given.answer = 3;
                break;
            }
            given.byte_count = left.min(BLOCK_SIZE as u64) as u32;
            self.add_block(&mut given, index);
        }
        given
    }

    /// Adds the block at an index, and its way as far as it leads.
    fn add_block(&mut self, given: &mut Given, index: u32) {
        let way = self.way(index);
        let image = &self.scene.card.image;
        let mut number = 0;
        for passage in way {
            given.nodes.insert(passage.node.nid);
            given.blocks.insert(passage.node.block);
            number = image.get(passage.node.block, passage.slot) as u32;
            if [0, u32::MAX].contains(&number) {
                given.bytes.extend([0; BLOCK_SIZE]);
                return;
            }
        }
        given.blocks.insert(number);
        let count = given.byte_count as usize;
        given.bytes.extend(&image.block(number)[..count]);
        given.bytes.extend(vec![0; BLOCK_SIZE - count]);
    }
}

/// The first index behind each boundary of a file with so many addresses in its inode: to the first direct node, the
/// second, an indirect node, its next leaf, the second indirect node, its next leaf, the double one, its next leaf, its
/// next child.
pub fn boundaries(addresses: u32) -> [u32; 9] {
    let leaf = PER_NODE as u32;
    let child = leaf * leaf;
    let indirect = addresses + 2 * leaf;
    let double = indirect + 2 * child;
    [
        addresses,
        addresses + leaf,
        indirect,
        indirect + leaf,
        indirect + child,
        indirect + child + leaf,
        double,
        double + leaf,
        double + child,
    ]
}

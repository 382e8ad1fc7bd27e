//! Pull: node numbers that lead nowhere, node blocks outside the main area or of another place.

use harptimber_tests::calls::pulls::{Call, Pulls};
use harptimber_tests::cards::card::{Card, Passage, ROOT};
use harptimber_tests::cards::directory::{in_slot, Dentry, DirLevel};
use harptimber_tests::cards::image::Image;
use harptimber_tests::cards::layout::footer::OFFSET_BIT_SHIFT;
use harptimber_tests::cards::layout::{dentry, footer, inode, nat, Field};
use harptimber_tests::cards::names::name_with;
use harptimber_tests::cards::one_file::{small_knobs, Scene, Setting, NAME};
use harptimber_tests::cards::tree::last_index;
use harptimber_tests::trial::Random;

const LONGEST: Setting = Setting {
    root_inline: 0,
    file_inline: inode::INLINE_XATTR,
    size: u64::MAX,
};

/// A number to be changed, and the answer that follows.
struct Fault {
    answer: u32,
    place: (u32, Field),
    value: u64,
}

impl Fault {
    fn new(answer: u32, place: (u32, Field), value: u64) -> Fault {
        Fault {
            answer,
            place,
            value,
        }
    }

    fn apply(&self, image: &mut Image) {
        image.set(self.place.0, self.place.1, self.value);
    }

    /// How many blocks of a way are read if the node at this step has the fault.
    fn blocks_read(&self, step: usize) -> usize {
        step + usize::from(self.answer == 11)
    }
}

/// What can be wrong with a node, but for the number that leads to it.
fn faults(card: &Card, passage: Passage) -> Vec<Fault> {
    let (table, at) = card.entry_place(passage.node.nid);
    let address = (table, nat::BLOCK_ADDR.moved(at));
    let areas = card.image.areas;
    let outside = [
        1,
        areas.main - 1,
        areas.main_end,
        areas.block_count,
        u32::MAX,
    ];
    let outside = outside.map(|value| Fault::new(10, address, u64::from(value)));
    let none = [Fault::new(9, address, 0)];
    let elsewhere = belonging_elsewhere(card, passage);
    none.into_iter().chain(outside).chain(elsewhere).collect()
}

/// Each of the four numbers that say where a node belongs, with a bit changed.
fn belonging_elsewhere(card: &Card, passage: Passage) -> Vec<Fault> {
    let (table, at) = card.entry_place(passage.node.nid);
    let block = passage.node.block;
    let bits = [0, 1, 15, 16, 31];
    let places = [
        ((table, nat::INO.moved(at)), bits.to_vec()),
        ((block, footer::NID), bits.to_vec()),
        ((block, footer::INO), bits.to_vec()),
        ((block, footer::FLAG), (OFFSET_BIT_SHIFT..32).collect()),
    ];
    let mut faults = Vec::new();
    for (place, bits) in places {
        let right = card.image.get(place.0, place.1);
        let wrong = bits.iter().map(|bit| right ^ 1 << bit);
        faults.extend(wrong.map(|value| Fault::new(11, place, value)));
    }
    faults
}

const FAULTS: u64 = 1 + 5 + 3 * 5 + 29;

/// Each fault of each node on the way to a block, with the lists as far as the walk came.
#[test]
fn nodes_of_a_file() {
    let mut pulls = Pulls::new("pull by faults of a file's nodes");
    for index in [
        0,
        873,
        873 + 1018,
        2909,
        1_039_233,
        2_075_557,
        1_057_053_388,
    ] {
        let mut scene = Scene::new(&mut pulls.trial.random, LONGEST);
        scene.card.add_block(scene.ino, index);
        let way = scene.card.way(scene.ino, index);
        for (step, &passage) in way.iter().enumerate() {
            for fault in faults(&scene.card, passage) {
                let mark = scene.card.image.mark();
                fault.apply(&mut scene.card.image);
                let (nodes, blocks) = scene.lists(&way, step + 1, fault.blocks_read(step));
                let call = Call::new(&scene.card.image, NAME, index);
                pulls.expect_lists(&call, fault.answer, &nodes, &blocks);
                scene.card.image.undo(mark);
            }
        }
        pulls.expect(&scene.card.image, NAME, index, 0);
    }
    pulls.finish((1 + 2 + 2 + 3 + 3 + 4 + 4) * FAULTS + 7, &[0, 9, 10, 11]);
}

/// Nothing is found in a root with a fault, whatever the name.
#[test]
fn root_node() {
    let mut pulls = Pulls::new("pull by faults of the root");
    for root_inline in [0, inode::INLINE_DENTRY] {
        let setting = Setting {
            root_inline,
            ..LONGEST
        };
        let mut scene = Scene::new(&mut pulls.trial.random, setting);
        let root = scene.card.inline_way(ROOT)[0];
        for fault in faults(&scene.card, root) {
            fault.apply(&mut scene.card.image);
            for name in [NAME, b"other", b"."] {
                let call = Call::new(&scene.card.image, name, 0);
                let blocks = &[root.node.block][..fault.blocks_read(0)];
                pulls.expect_lists(&call, fault.answer, &[ROOT], blocks);
            }
            scene.card.image.undo(0);
        }
    }
    pulls.finish(2 * 3 * FAULTS, &[9, 10, 11]);
}

/// Each fault of the inode of an inline file, whose size is within its room or above it.
fn expect_inline_faults(pulls: &mut Pulls, root_inline: u64, size: u64, sound: u32) {
    let setting = Setting {
        root_inline,
        file_inline: inode::INLINE_DATA,
        size,
    };
    let mut scene = Scene::new(&mut pulls.trial.random, setting);
    let way = scene.card.inline_way(scene.ino);
    for fault in faults(&scene.card, way[0]) {
        fault.apply(&mut scene.card.image);
        let (nodes, blocks) = scene.lists(&way, 1, fault.blocks_read(0));
        let call = Call::new(&scene.card.image, NAME, 0);
        pulls.expect_lists(&call, fault.answer, &nodes, &blocks);
        scene.card.image.undo(0);
    }
    pulls.expect(&scene.card.image, NAME, 0, sound);
}

/// An inline inode is looked up, read and listed as any other is before it is asked for its kind and size.
#[test]
fn inline_inodes() {
    let mut pulls = Pulls::new("pull by faults of inline inodes");
    for root_inline in [0, inode::INLINE_DENTRY] {
        for (size, sound) in [(100, 0), (u64::MAX, 12)] {
            expect_inline_faults(&mut pulls, root_inline, size, sound);
        }
    }
    pulls.finish(2 * 2 * (FAULTS + 1), &[0, 9, 10, 11, 12]);
}

/// A card whose one directory block is in this hash level, behind nodes.
fn with_level(random: &mut Random, dir_level: DirLevel, level: u32) -> (Card, Vec<u8>, u32) {
    let last = u64::from(last_index(inode::ADDRESSES_WITH_XATTR));
    let inside = |hash| dir_level.index(level, hash, 1) < last;
    let name = name_with(random, 12, inside);
    let mut card = Card::new(small_knobs(random), Random::new(random.number()));
    card.add_root_with(dir_level, inode::INLINE_XATTR, level + 1);
    let ino = card.add_file(0, 1);
    let dentry = Dentry::new(&name, ino);
    card.link(level, 0, &dentry);
    card.add_block(ino, 0);
    let index = dir_level.index(level, dentry.hash, 0);
    (card, name, index as u32)
}

/// Each fault of each node below the root on the way to a directory block.
fn expect_faults(pulls: &mut Pulls, dir_level: u32, level: u32) {
    let random = &mut pulls.trial.random;
    let (mut card, name, index) = with_level(random, DirLevel(dir_level), level);
    pulls.expect(&card.image, &name, 0, 0);
    for &passage in &card.way(ROOT, index)[1..] {
        for fault in faults(&card, passage) {
            let mark = card.image.mark();
            fault.apply(&mut card.image);
            pulls.expect(&card.image, &name, 0, fault.answer);
            card.image.undo(mark);
        }
    }
}

#[test]
fn nodes_of_the_directory() {
    const LEVELS: [u32; 10] = [9, 10, 11, 14, 17, 20, 21, 24, 27, 28];
    let mut pulls = Pulls::new("pull by faults of the directory's nodes");
    for level in LEVELS {
        expect_faults(&mut pulls, 0, level);
    }
    pulls.finish(10 + 20 * FAULTS, &[0, 9, 10, 11]);
}

/// The farthest hash level of each directory level is behind a double indirect node.
#[test]
fn nodes_of_a_directory_with_a_level() {
    let mut pulls = Pulls::new("pull by faults of a directory's nodes, by its level");
    for dir_level in DirLevel::all() {
        let level = dir_level.in_reach() - 1;
        expect_faults(&mut pulls, dir_level.0, level);
    }
    pulls.finish(31 + 31 * 3 * FAULTS, &[0, 9, 10, 11]);
}

/// The numbers that lead to nodes: out of range, of no node, of another node, and the node's own.
#[test]
fn node_numbers() {
    let mut pulls = Pulls::new("pull by node numbers");
    let index = 2_075_557;
    let mut scene = Scene::new(&mut pulls.trial.random, LONGEST);
    scene.card.add_block(scene.ino, index);
    let way = scene.card.way(scene.ino, index);
    let to_inode = (scene.linked.block, in_slot(dentry::INO, scene.linked.slot));
    let slots = way.iter().map(|passage| (passage.node.block, passage.slot));
    let leads: Vec<_> = [to_inode]
        .into_iter()
        .chain(slots)
        .take(way.len())
        .collect();
    let past = scene.card.node_numbers;
    for (step, &(block, field)) in leads.iter().enumerate() {
        let others = way.iter().filter(|other| other.node != way[step].node);
        let elsewhere = others.map(|other| (other.node.nid, 11));
        let outside = [past, past + 1, 1 << 31, u32::MAX].map(|number| (number, 9));
        for (number, answer) in elsewhere.chain(outside) {
            let mark = scene.card.image.mark();
            scene.card.image.set(block, field, u64::from(number));
            pulls.expect(&scene.card.image, NAME, index, answer);
            scene.card.image.undo(mark);
        }
    }
    // In a directory entry 0 is looked up like any other number.
    scene.card.image.set(to_inode.0, to_inode.1, 0);
    let blocks = [scene.root_block(), scene.linked.block];
    let call = Call::new(&scene.card.image, NAME, index);
    pulls.expect_lists(&call, 9, &[0, ROOT], &blocks);
    pulls.finish(4 * (3 + 4) + 1, &[9, 11]);
}

/// Nodes in the first and the last block of the main area are read.
#[test]
fn nodes_at_the_ends_of_the_main_area() {
    let mut pulls = Pulls::new("pull by nodes at the ends of the main area");
    let index = 2_075_557;
    let mut scene = Scene::new(&mut pulls.trial.random, LONGEST);
    let data = scene.card.add_block(scene.ino, index);
    let areas = scene.card.image.areas;
    let way = scene.card.way(scene.ino, index);
    for node in [
        way[0].node,
        way[1].node,
        way[3].node,
        scene.card.node(ROOT, 0),
    ] {
        for address in [areas.main, areas.main_end - 1] {
            let image = &mut scene.card.image;
            let mark = image.mark();
            let bytes = image.block(node.block).to_vec();
            image.put("node", address, 0, &bytes);
            let (table, at) = scene.card.entry_place(node.nid);
            let field = nat::BLOCK_ADDR.moved(at);
            scene.card.image.set(table, field, u64::from(address));
            let image = &scene.card.image;
            pulls.expect_data(image, NAME, index, image.block(data));
            scene.card.image.undo(mark);
        }
    }
    pulls.finish(4 * 2, &[0]);
}

/// The flag's lowest bits and what else a footer holds aren't consulted.
#[test]
fn rest_of_the_footer() {
    let mut pulls = Pulls::new("pull by the rest of the footer");
    let index = 2909;
    let mut scene = Scene::new(&mut pulls.trial.random, LONGEST);
    let data = scene.card.add_block(scene.ino, index);
    let mut passages = scene.card.way(scene.ino, index);
    passages.extend(scene.card.way(ROOT, 0));
    for Passage { node, .. } in passages {
        let flag = scene.card.image.get(node.block, footer::FLAG);
        for bits in 0..1 << OFFSET_BIT_SHIFT {
            let image = &mut scene.card.image;
            let mark = image.mark();
            image.set(node.block, footer::FLAG, flag | bits);
            image.put("rest of the footer", node.block, 4084, &[bits as u8; 12]);
            pulls.expect_data(image, NAME, index, image.block(data));
            image.undo(mark);
        }
    }
    pulls.finish(4 * 8, &[0]);
}

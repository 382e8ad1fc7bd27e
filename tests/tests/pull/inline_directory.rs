//! Pull: a root directory whose entries stand in its inode.

use harptimber_tests::calls::pulls::{Call, Pulls};
use harptimber_tests::cards::card::ROOT;
use harptimber_tests::cards::dentry_block::{aside, leftovers, DentryBlock, Mixture};
use harptimber_tests::cards::directory::{Dentry, Slots};
use harptimber_tests::cards::layout::dentry::*;
use harptimber_tests::cards::layout::inode::*;
use harptimber_tests::cards::layout::slots::{node_numbers, I_ADDR};
use harptimber_tests::cards::maps::*;
use harptimber_tests::cards::names::good_name;
use harptimber_tests::cards::one_file::{Scene, Setting, INLINE_ROOTS, NAME};

const SLOTS: usize = 182;
const MISSING: &[u8] = b"missing";

/// An inline root with the name of a file, which has one block.
struct Inline {
    scene: Scene,
    root: u32,
    data: u32,
}

impl Inline {
    fn new(pulls: &mut Pulls, root_inline: u64) -> Inline {
        let setting = Setting {
            root_inline,
            file_inline: 0,
            size: 100,
        };
        let mut scene = Scene::new(&mut pulls.trial.random, setting);
        let data = scene.card.add_block(scene.ino, 0);
        scene.card.image.settle("one block");
        let root = scene.root_block();
        Inline { scene, root, data }
    }

    fn slots(&self) -> Slots {
        self.scene.card.inline_slots().expect("an inline root")
    }

    /// Writes all slots anew.
    fn put(&mut self, block: &DentryBlock) {
        let image = &mut self.scene.card.image;
        image.put("slots", self.root, INLINE_AT, block.slot_bytes());
    }

    /// Expects that the name is found, and the lists: no block of the directory's own is read.
    fn expect_found(&self, pulls: &mut Pulls, name: &[u8]) {
        let call = Call::new(&self.scene.card.image, name, 0);
        let blocks = [self.root, self.scene.file_block(), self.data];
        pulls.expect_lists(&call, 0, &[ROOT, self.scene.ino], &blocks);
    }

    /// Expects an answer that the root's inode comes to.
    fn expect_stopped(&self, pulls: &mut Pulls, name: &[u8], answer: u32) {
        let call = Call::new(&self.scene.card.image, name, 0);
        pulls.expect_lists(&call, answer, &[ROOT], &[self.root]);
    }

    /// Expects this answer of the name: 0, or one that the root's inode comes to.
    fn expect(&self, pulls: &mut Pulls, answer: u32) {
        match answer {
            0 => self.expect_found(pulls, NAME),
            _ => self.expect_stopped(pulls, NAME, answer),
        }
    }
}

/// 0 is 2, and any size above the room is 12, with the bit for attributes or without. The size is asked for no more.
#[test]
fn sizes() {
    let mut pulls = Pulls::new("pull by the size of an inline directory");
    let within = [1, 22, 23, 30, 364, 2032, 3487, 3488].map(|size| (size, 0));
    let above = [3489, 3490, 3687, 3688, 3689, 4096, 4097].map(|size| (size, 12));
    let far = [32, 33, 40, 63].map(|bit| 1 << bit);
    let far = far.map(|far| [(far, 12), (far + 1, 12), (far + 3488, 12)]);
    for inline in INLINE_ROOTS {
        let mut directory = Inline::new(&mut pulls, inline);
        for (size, answer) in [[(0, 2)].as_slice(), &within, &above, &far.concat()].concat() {
            let image = &mut directory.scene.card.image;
            image.set(directory.root, I_SIZE, size);
            directory.expect(&mut pulls, answer);
            let missing = if answer == 0 { 2 } else { answer };
            directory.expect_stopped(&mut pulls, MISSING, missing);
        }
    }
    pulls.finish(2 * (1 + 8 + 7 + 12) * 2, &[0, 2, 12]);
}

/// The slots are scanned once at any depth that is read, 0 too, and with any level that is. 12 for the depth, the level
/// or the size comes before 2 for no size.
#[test]
fn depths_and_levels() {
    let mut pulls = Pulls::new("pull by depth and level of an inline directory");
    let near = [0, 1, 2, 28, 29, 31, 62, 63, 64, 65, 255, 256];
    let depths = near.into_iter().chain([1 << 31, 0xFFFF_FFFF]);
    let levels = [0, 1, 2, 29, 30, 31, 32, 63, 0x80, 0xFF];
    let mut directory = Inline::new(&mut pulls, INLINE_DENTRY);
    for (depth, level) in depths.flat_map(|depth| levels.map(|level| (depth, level))) {
        for size in [0, 1, 3488, 3489] {
            let fields = [
                (I_CURRENT_DEPTH, depth),
                (I_DIR_LEVEL, level),
                (I_SIZE, size),
            ];
            let image = &mut directory.scene.card.image;
            image.set_all(directory.root, &fields);
            let answer = match (depth > 63 || level > 30 || size > 3488, size) {
                (true, _) => 12,
                (_, 0) => 2,
                _ => 0,
            };
            directory.expect(&mut pulls, answer);
            directory.expect_stopped(&mut pulls, MISSING, answer.max(2));
        }
    }
    pulls.finish(14 * 10 * 4 * 2, &[0, 2, 12]);
}

/// Names of any hash, each at a slot of its own: neither depth nor level says where a name is.
#[test]
fn any_hash() {
    let mut pulls = Pulls::new("pull of any name from an inline directory");
    let mut directory = Inline::new(&mut pulls, INLINE_DENTRY);
    for n in 0..400 {
        let name = good_name(&mut pulls.trial.random, 1 + n % 255);
        let dentry = Dentry::new(&name, directory.scene.ino);
        let slot = n % (SLOTS - dentry.slots() + 1);
        let slots = directory.slots();
        let image = &mut directory.scene.card.image;
        let fields = [
            (I_CURRENT_DEPTH, n as u64 % 64),
            (I_DIR_LEVEL, n as u64 % 31),
        ];
        image.set_all(directory.root, &fields);
        image.clear_slots(slots);
        image.put_dentry(slots, slot, &dentry);
        directory.expect_found(&mut pulls, &name);
        directory.scene.card.image.undo(0);
    }
    pulls.finish(400, &[0]);
}

/// Bits 182 and 183 and those of the reserved bytes, in an empty directory, a full one, and one with the name at its
/// first or its last slot.
#[test]
fn bits_behind_the_slots() {
    let mut pulls = Pulls::new("pull by bits behind the slots of an inline directory");
    let mut directory = Inline::new(&mut pulls, INLINE_DENTRY);
    let (aside, right) = (aside(NAME, ROOT), Dentry::new(NAME, directory.scene.ino));
    let single = (SLOTS..BITS).map(|bit| bit..bit + 1);
    let behind: Vec<_> = single.chain([182..184, 184..240, 182..240]).collect();
    for map in [plain(SLOTS)[0].clone(), plain(SLOTS)[1].clone()] {
        for named in [None, Some(0), Some(SLOTS - 1)] {
            let mut block = DentryBlock::with_map(IN_INODE, &map, &aside, &aside);
            if let Some(slot) = named {
                block.put(slot, &right);
            }
            for bits in &behind {
                let mut block = block.clone();
                block.set_bits(bits.clone(), true);
                directory.put(&block);
                directory.expect(&mut pulls, if named.is_some() { 0 } else { 2 });
                directory.scene.card.image.undo(0);
            }
        }
    }
    pulls.finish(2 * 3 * (58 + 3), &[0, 2]);
}

/// What stands where other layouts would have the slots isn't read.
#[test]
fn other_layouts() {
    let mut pulls = Pulls::new("pull by what an inline directory has elsewhere");
    let mut directory = Inline::new(&mut pulls, INLINE_DENTRY);
    let from = |start| Layout { start, ..IN_INODE };
    let longer = Layout {
        slots: 214,
        ..IN_INODE
    };
    // Neither the bits of these slots nor their entries lie in the map.
    let elsewhere = [
        (from(360), [0, 1, 31]),
        (from(356), [1, 33, 63]),
        (from(368), [152, 153, 181]),
        (from(372), [120, 151, 181]),
        (longer, [182, 183, 184]),
        (longer, [190, 200, 211]),
        // The mode's lowest bits are set, with which a directory block's map would start.
        (IN_BLOCK, [0, 2, 3]),
    ];
    let slots = directory.slots();
    for (layout, elsewhere) in elsewhere {
        for slot in elsewhere {
            let image = &mut directory.scene.card.image;
            image.clear_slots(slots);
            let place = Slots {
                block: directory.root,
                layout,
            };
            image.put_dentry(place, slot, &Dentry::new(NAME, directory.scene.ino));
            directory.expect(&mut pulls, 2);
            directory.scene.card.image.undo(0);
        }
    }
    pulls.finish(7 * 3, &[2]);
}

/// The addresses and the five node numbers aren't looked at, also if the first address leads to a directory block with
/// the name.
#[test]
fn addresses_and_numbers() {
    let mut pulls = Pulls::new("pull by addresses and node numbers of an inline directory");
    for inline in INLINE_ROOTS {
        let mut directory = Inline::new(&mut pulls, inline);
        let card = &mut directory.scene.card;
        let block = card.free_block();
        card.image.clear_slots(block);
        card.image.put_dentry(block, 0, &Dentry::new(NAME, ROOT));
        card.image.put_dentry(block, 9, &Dentry::new(MISSING, ROOT));
        card.image.settle("a directory block");
        let (past, areas) = (card.node_numbers, card.image.areas);
        let ino = directory.scene.ino;
        for value in [0, block, ROOT, ino, areas.main_end, past, u32::MAX] {
            for field in node_numbers().chain([I_ADDR]) {
                let image = &mut directory.scene.card.image;
                image.set(directory.root, field, value.into());
                directory.expect_found(&mut pulls, NAME);
                directory.expect_stopped(&mut pulls, MISSING, 2);
            }
        }
    }
    pulls.finish(2 * 7 * 6 * 2, &[0, 2]);
}

/// Entries that lead to the root, to number 0, past the table, and to a number that isn't in use.
#[test]
fn inode_numbers() {
    let mut pulls = Pulls::new("pull by inode numbers in an inline directory");
    let mut directory = Inline::new(&mut pulls, INLINE_DENTRY);
    let unused = directory.scene.card.free_number();
    directory.scene.card.set_entry(unused, unused, 0);
    directory
        .scene
        .card
        .image
        .settle("a number that isn't in use");
    let past = directory.scene.card.node_numbers;
    let linked = directory.scene.linked;
    for number in [0, past, u32::MAX, unused] {
        let image = &mut directory.scene.card.image;
        image.set(linked.block, linked.field(INO), number.into());
        let call = Call::new(image, NAME, 0);
        pulls.expect_lists(&call, 9, &[ROOT, number], &[directory.root]);
    }
    let image = &mut directory.scene.card.image;
    image.set(linked.block, linked.field(INO), ROOT.into());
    directory.expect_stopped(&mut pulls, NAME, 12);
    pulls.finish(5, &[9, 12]);
}

/// The slots have this map. First they are without the name, then it is in the last slot in use, or in the very last if
/// none is, and then that slot is malformed.
fn try_map(pulls: &mut Pulls, directory: &mut Inline, map: &Map, left: &Dentry) {
    let mut block = DentryBlock::with_map(IN_INODE, map, &aside(NAME, ROOT), left);
    block.set_bits(SLOTS..BITS, true);
    directory.put(&block);
    directory.expect(pulls, 2);
    let slot = map.iter().rposition(|&used| used).unwrap_or(SLOTS - 1);
    block.put(slot, &Dentry::new(NAME, directory.scene.ino));
    directory.put(&block);
    directory.expect(pulls, 0);
    for len in [0, 256, 0xFFFF] {
        block.set_len(slot, len);
        directory.put(&block);
        directory.expect(pulls, 14);
    }
    directory.scene.card.image.undo(0);
}

#[test]
fn maps() {
    let mut pulls = Pulls::new("pull by maps of an inline directory");
    let mut directory = Inline::new(&mut pulls, INLINE_DENTRY);
    let lefts = leftovers(NAME, ROOT);
    for map in plain(SLOTS) {
        for left in &lefts {
            try_map(&mut pulls, &mut directory, &map, left);
        }
    }
    let ends = word_edges(SLOTS);
    let single = (0..SLOTS).map(|slot| slot..slot + 1);
    for (nth, run) in runs(&ends).chain(single).enumerate() {
        for used in [true, false] {
            let map = with_run(SLOTS, run.clone(), used);
            try_map(&mut pulls, &mut directory, &map, &lefts[nth % 4]);
        }
    }
    pulls.finish((10 * 4 + 2 * (45 + 182)) * 5, &[0, 2, 14]);
}

/// Random slots, of entries of any lengths.
#[test]
fn random_slots() {
    let mut pulls = Pulls::new("pull by random slots of an inline directory");
    let mut directory = Inline::new(&mut pulls, INLINE_DENTRY);
    let ino = directory.scene.ino;
    for _ in 0..pulls.trial.times(10) {
        for mixture in Mixture::all() {
            let block = mixture.block(IN_INODE, &mut pulls.trial.random, NAME, ino);
            directory.put(&block);
            pulls.compare(&directory.scene.card.image, NAME, 0);
            directory.scene.card.image.undo(0);
        }
    }
    pulls.finish(10 * 60, &[0, 2, 14]);
}

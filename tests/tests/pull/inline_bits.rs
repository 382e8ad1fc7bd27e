//! Pull: every mix of inline bits, with inodes that can be read both by their addresses and by what stands in them.

use harptimber_tests::calls::pulls::{Call, Pulls};
use harptimber_tests::cards::card::ROOT;
use harptimber_tests::cards::directory::{Dentry, Slots};
use harptimber_tests::cards::layout::dentry::IN_INODE;
use harptimber_tests::cards::layout::inode::*;
use harptimber_tests::cards::layout::{slots, BLOCK_SIZE};
use harptimber_tests::cards::one_file::{Scene, Setting, NAME};

/// The root's first address leads to a directory block that has the name for a file, and its inline slots have it for
/// another file. Each file's first address leads to a block, and other bytes stand in its inode.
struct TwoWays {
    scene: Scene,
    root: u32,
    /// The other file's number.
    other: u32,
}

/// Mixes of the bits for attributes, inline data, inline entries, data that exists and extra attributes.
fn mixes() -> impl Iterator<Item = u64> {
    (0..=0xFF).filter(|inline| inline & !0x2F == 0)
}

fn has(inline: u64, bit: u64) -> bool {
    inline & bit != 0
}

impl TwoWays {
    fn new(pulls: &mut Pulls) -> TwoWays {
        let setting = Setting {
            root_inline: 0,
            file_inline: 0,
            size: 100,
        };
        let mut scene = Scene::new(&mut pulls.trial.random, setting);
        scene.card.add_block(scene.ino, 0);
        let root = scene.root_block();
        let other = scene.card.add_file(0, 100);
        scene.card.add_block(other, 0);
        let files = [scene.ino, other].map(|ino| scene.card.inode_block(ino));
        for block in files.into_iter().chain([root]) {
            let junk = pulls.trial.random.bytes(INLINE_ROOM);
            let image = &mut scene.card.image;
            image.put("contents of an inode", block, INLINE_AT, &junk);
        }
        let inline = Slots {
            block: root,
            layout: IN_INODE,
        };
        scene.card.image.clear_slots(inline);
        let dentry = Dentry::new(NAME, other);
        scene.card.image.put_dentry(inline, 100, &dentry);
        scene.card.image.settle("two ways to read the inodes");
        TwoWays { scene, root, other }
    }

    /// The block to which a file's first address leads.
    fn data(&self, ino: u32) -> u32 {
        let inode = self.scene.card.inode_block(ino);
        self.scene.card.image.get(inode, slots::I_ADDR) as u32
    }

    /// Expects the answer of a pull that goes by the file's inline byte and size, and the lists.
    fn expect_file(&mut self, pulls: &mut Pulls, inline: u64, size: u64) {
        let file = self.scene.file_block();
        let fields = [(I_INLINE, inline), (I_SIZE, size)];
        self.scene.card.image.set_all(file, &fields);
        let image = &self.scene.card.image;
        let call = Call::new(image, NAME, 0);
        let nodes = [ROOT, self.scene.ino];
        let mut blocks = vec![self.root, self.scene.linked.block, file];
        let room = if has(inline, 1) { 3488 } else { 3688 };
        let unread = has(inline, 4) || has(inline, 0x20);
        if unread || has(inline, 2) && size > room {
            pulls.expect_lists(&call, 12, &nodes, &blocks);
        } else if size == 0 {
            pulls.expect_lists(&call, 3, &nodes, &blocks);
        } else {
            let count = size.min(4096) as usize;
            let bytes = match has(inline, 2) {
                true => &image.block(file)[364..364 + count],
                false => {
                    let data = self.data(self.scene.ino);
                    blocks.push(data);
                    &image.block(data)[..count]
                }
            };
            pulls.expect_data(image, NAME, 0, bytes);
            pulls.expect_lists(&call, 0, &nodes, &blocks);
        }
        self.scene.card.image.undo(0);
    }

    /// The same by the root's inline byte and size: which of the files is found.
    fn expect_root(&mut self, pulls: &mut Pulls, inline: u64, size: u64) {
        let fields = [(I_INLINE, inline), (I_SIZE, size)];
        self.scene.card.image.set_all(self.root, &fields);
        let call = Call::new(&self.scene.card.image, NAME, 0);
        let unread = has(inline, 2) || has(inline, 0x20);
        if unread || has(inline, 4) && size > 3488 {
            pulls.expect_lists(&call, 12, &[ROOT], &[self.root]);
        } else if size == 0 {
            pulls.expect_lists(&call, 2, &[ROOT], &[self.root]);
        } else {
            let (ino, directory) = match has(inline, 4) {
                true => (self.other, self.root),
                false => (self.scene.ino, self.scene.linked.block),
            };
            let file = self.scene.card.inode_block(ino);
            let blocks = [self.root, directory, file, self.data(ino)];
            pulls.expect_lists(&call, 0, &[ROOT, ino], &blocks);
        }
        self.scene.card.image.undo(0);
    }
}

/// Within each room, at its end and above it.
const SIZES: [u64; 5] = [100, 3488, 3489, 3688, 3689];

/// The same in more than 12 or 32 bits, and none.
const MORE_SIZES: [u64; 10] = [
    0,
    1,
    3487,
    3687,
    BLOCK_SIZE as u64,
    BLOCK_SIZE as u64 + 1,
    1 << 32,
    (1 << 32) + 100,
    1 << 63,
    u64::MAX,
];

/// Each inline byte with some sizes, and each mix of bits with more.
fn by_bytes_and_sizes(
    what: &'static str,
    answers: &[u32],
    expect: fn(&mut TwoWays, &mut Pulls, u64, u64),
) {
    let mut pulls = Pulls::new(what);
    let mut ways = TwoWays::new(&mut pulls);
    for inline in 0..=0xFF {
        for size in SIZES {
            expect(&mut ways, &mut pulls, inline, size);
        }
    }
    for inline in mixes() {
        for size in MORE_SIZES {
            expect(&mut ways, &mut pulls, inline, size);
        }
    }
    pulls.finish(256 * 5 + 32 * 10, answers);
}

#[test]
fn bytes_of_a_file() {
    by_bytes_and_sizes(
        "pull by the file's inline byte",
        &[0, 3, 12],
        TwoWays::expect_file,
    );
}

#[test]
fn bytes_of_the_root() {
    by_bytes_and_sizes(
        "pull by the root's inline byte",
        &[0, 2, 12],
        TwoWays::expect_root,
    );
}

/// Each mix on both at once, and what isn't read of the root comes first.
#[test]
fn bytes_of_both() {
    let mut pulls = Pulls::new("pull by both inline bytes");
    let mut ways = TwoWays::new(&mut pulls);
    let file = ways.scene.card.inode_block(ways.other);
    for root_inline in mixes() {
        for file_inline in mixes() {
            let image = &mut ways.scene.card.image;
            image.set(ways.root, I_INLINE, root_inline);
            image.set(ways.root, I_SIZE, 1);
            image.set(file, I_INLINE, file_inline);
            // The root's block has the name for a file without any bit.
            let other = has(root_inline, 4);
            let unread = other && (has(file_inline, 4) || has(file_inline, 0x20));
            let answer = match has(root_inline, 2) || has(root_inline, 0x20) || unread {
                true => 12,
                false => 0,
            };
            pulls.expect(image, NAME, 0, answer);
            image.undo(0);
        }
    }
    pulls.finish(32 * 32, &[0, 12]);
}

/// The kind decides before any bit does: an inline directory is no file, and an inline file is no root.
#[test]
fn kinds() {
    let mut pulls = Pulls::new("pull by mode and inline bits");
    let mut ways = TwoWays::new(&mut pulls);
    let file = ways.scene.file_block();
    for kind in 0..16 {
        for inline in [0, 2, 4, 6, 0x20] {
            let fields = [
                (I_MODE, kind << 12 | 0o755),
                (I_INLINE, inline),
                (I_SIZE, 1),
            ];
            for (block, right, bit) in [(ways.root, 4, 4), (file, 8, 2)] {
                ways.scene.card.image.set_all(block, &fields);
                let read = kind == right && (inline == 0 || inline == bit);
                let answer = if read { 0 } else { 12 };
                pulls.expect(&ways.scene.card.image, NAME, 0, answer);
                ways.scene.card.image.undo(0);
            }
        }
    }
    pulls.finish(16 * 5 * 2, &[0, 12]);
}

//! Pull: where a file's blocks are, holes, its size, and addresses of data.

use harptimber_tests::calls::pulls::{Call, Pulls};
use harptimber_tests::cards::card::ROOT;
use harptimber_tests::cards::layout::inode::{INLINE_XATTR, I_SIZE};
use harptimber_tests::cards::layout::BLOCK_SIZE;
use harptimber_tests::cards::one_file::{Scene, Setting, INLINES, NAME};
use harptimber_tests::cards::tree::{last_index, sample_indexes};

/// Files of any length.
const LONGEST: Setting = Setting {
    root_inline: 0,
    file_inline: 0,
    size: u64::MAX,
};
const BLOCK: u64 = BLOCK_SIZE as u64;

fn with_addresses([root_inline, file_inline]: [u64; 2]) -> Setting {
    Setting {
        root_inline,
        file_inline,
        ..LONGEST
    }
}

/// Blocks at indexes of each kind of place, of which a step aside leads to junk.
#[test]
fn every_kind_of_place() {
    let mut pulls = Pulls::new("pull from every kind of place");
    for inlines in INLINES {
        let setting = with_addresses(inlines);
        let mut scene = Scene::with_junk_slots(&mut pulls.trial.random, setting);
        let indexes = sample_indexes(scene.card.addresses(scene.ino));
        assert!(indexes.len() > 25, "indexes of every kind");
        for &index in &indexes {
            let data = scene.card.add_block(scene.ino, index);
            let way = scene.card.way(scene.ino, index);
            let (nodes, mut blocks) = scene.lists(&way, way.len(), way.len());
            blocks.push(data);
            let image = &scene.card.image;
            pulls.expect_data(image, NAME, index, image.block(data));
            pulls.expect_lists(&Call::new(image, NAME, index), 0, &nodes, &blocks);
        }
        // The blocks that came later haven't taken the place of any.
        for &index in &indexes {
            pulls.expect(&scene.card.image, NAME, index, 0);
        }
    }
    pulls.finish(4 * 25 * 3, &[0]);
}

/// A hole by each number and by the address on the way to each kind of place.
#[test]
fn holes() {
    let mut pulls = Pulls::new("pull of holes");
    for inlines in INLINES {
        let setting = with_addresses(inlines);
        let mut scene = Scene::new(&mut pulls.trial.random, setting);
        for index in sample_indexes(scene.card.addresses(scene.ino)) {
            scene.card.add_block(scene.ino, index);
            let way = scene.card.way(scene.ino, index);
            let last = way.len() - 1;
            let numbers = (0..last).map(|step| (step, 0));
            for (step, value) in numbers.chain([(last, 0), (last, u64::from(u32::MAX))]) {
                let mark = scene.card.image.mark();
                let passage = way[step];
                scene
                    .card
                    .image
                    .set(passage.node.block, passage.slot, value);
                let (nodes, blocks) = scene.lists(&way, step + 1, step + 1);
                let image = &scene.card.image;
                pulls.expect_hole(image, NAME, index, BLOCK_SIZE);
                pulls.expect_lists(&Call::new(image, NAME, index), 1, &nodes, &blocks);
                scene.card.image.undo(mark);
            }
        }
    }
    pulls.finish(4 * 25 * 2 * 2, &[1]);
}

/// Addresses at both ends of the main area, beside the numbers that stand for a hole, and of other
/// areas. Behind the main area there are more blocks.
#[test]
fn data_addresses() {
    let mut pulls = Pulls::new("pull by data address");
    for index in [0, 922, 923, 2959, 2_075_607] {
        let mut scene = Scene::new(&mut pulls.trial.random, LONGEST);
        let way = scene.card.way(scene.ino, index);
        let areas = scene.card.image.areas;
        let inside = [areas.main, areas.main + 1, areas.main_end - 1];
        for address in inside {
            scene.card.set_address(scene.ino, index, address);
            let image = &scene.card.image;
            pulls.expect_data(image, NAME, index, image.block(address));
        }
        let around = [areas.main - 1, areas.main_end, areas.main_end + 1];
        let others = [1, 2, areas.cp, areas.nat, areas.block_count, 1 << 31];
        let beside_hole = [u32::MAX - 1, u32::MAX / 2];
        for address in around.into_iter().chain(others).chain(beside_hole) {
            scene.card.set_address(scene.ino, index, address);
            let (nodes, blocks) = scene.lists(&way, way.len(), way.len());
            let call = Call::new(&scene.card.image, NAME, index);
            pulls.expect_lists(&call, 13, &nodes, &blocks);
        }
    }
    pulls.finish(5 * (3 + 11), &[0, 13]);
}

/// Data in a block that the walk has read before is listed once, and handed out all the same.
#[test]
fn data_that_is_something_else_too() {
    let mut pulls = Pulls::new("pull of data that is a node too");
    for index in [0, 923, 2959, 2_075_607] {
        let mut scene = Scene::new(&mut pulls.trial.random, LONGEST);
        let way = scene.card.way(scene.ino, index);
        let (nodes, blocks) = scene.lists(&way, way.len(), way.len());
        for &address in &blocks {
            scene.card.set_address(scene.ino, index, address);
            let image = &scene.card.image;
            pulls.expect_data(image, NAME, index, image.block(address));
            pulls.expect_lists(&Call::new(image, NAME, index), 0, &nodes, &blocks);
        }
    }
    pulls.finish(2 * (3 + 4 + 5 + 6), &[0]);
}

/// Whatever the bytes are, they are data: zeros in a block don't make it a hole.
#[test]
fn plain_contents() {
    let mut pulls = Pulls::new("pull of plain contents");
    let mut scene = Scene::new(&mut pulls.trial.random, LONGEST);
    let data = scene.card.add_block(scene.ino, 0);
    for byte in [0x00, 0x01, 0x80, 0xFF] {
        let contents = vec![byte; BLOCK_SIZE];
        scene.card.image.put("contents", data, 0, &contents);
        for size in [BLOCK - 1, BLOCK] {
            scene.card.image.set(scene.file_block(), I_SIZE, size);
            pulls.expect_data(&scene.card.image, NAME, 0, &contents[..size as usize]);
        }
    }
    pulls.finish(4 * 2, &[0]);
}

/// Sizes around the start and the end of a block, also with a high half.
#[test]
fn sizes() {
    let mut pulls = Pulls::new("pull by file size");
    for index in [0, 1, 2, 922, 923, 1_048_575, 1_048_576, 1_057_053_438] {
        let mut scene = Scene::new(&mut pulls.trial.random, LONGEST);
        let data = scene.card.add_block(scene.ino, index);
        let hole = if index < 3 { index + 3 } else { index - 1 };
        for (asked, is_hole) in [(index, false), (hole, true)] {
            let start = u64::from(asked) * BLOCK;
            let near = [0, 1, 2, 100, 4094, 4095, 4096, 4097, 8191, 8192, 8193];
            let far = [32, 43, 44, 45, 63].map(|bit| 1 << bit);
            let before = [0, 1, 4095, 4096, start / 2].map(|less| start.saturating_sub(less));
            for size in near
                .map(|more| start + more)
                .into_iter()
                .chain(far)
                .chain(before)
            {
                scene.card.image.set(scene.file_block(), I_SIZE, size);
                let image = &scene.card.image;
                let count = size.saturating_sub(start).min(BLOCK) as usize;
                match (count, is_hole) {
                    (0, _) => pulls.expect(image, NAME, asked, 3),
                    (_, true) => pulls.expect_hole(image, NAME, asked, count),
                    _ => pulls.expect_data(image, NAME, asked, &image.block(data)[..count]),
                }
            }
        }
    }
    pulls.finish(8 * 2 * 21, &[0, 1, 3]);
}

/// However long the file is, its indexes end where the tree of nodes does.
#[test]
fn indexes_past_the_last() {
    let mut pulls = Pulls::new("pull past the last index");
    for inlines in INLINES {
        let setting = with_addresses(inlines);
        let mut scene = Scene::with_junk_slots(&mut pulls.trial.random, setting);
        let last = last_index(scene.card.addresses(scene.ino));
        let data = scene.card.add_block(scene.ino, last);
        pulls.expect_data(&scene.card.image, NAME, last, scene.card.image.block(data));
        let way = scene.card.way(scene.ino, 0);
        let (nodes, blocks) = scene.lists(&way, 1, 1);
        for past in [last + 1, last + 2, last + 50, last + 51, 1 << 31, u32::MAX] {
            let call = Call::new(&scene.card.image, NAME, past);
            pulls.expect_lists(&call, 3, &nodes, &blocks);
        }
    }
    pulls.finish(4 * 7, &[0, 3]);
}

/// Of the inline byte only one bit decides how many addresses there are.
#[test]
fn bits_beside_the_one_for_addresses() {
    let mut pulls = Pulls::new("pull by inline bits that are read");
    for bit in [0x08, 0x10, 0x40, 0x80, 0xD8] {
        for inline in [bit, bit | INLINE_XATTR] {
            let setting = with_addresses([inline, inline]);
            let mut scene = Scene::with_junk_slots(&mut pulls.trial.random, setting);
            for index in [872, 873, 922, 923] {
                let data = scene.card.add_block(scene.ino, index);
                let image = &scene.card.image;
                pulls.expect_data(image, NAME, index, image.block(data));
            }
        }
    }
    pulls.finish(5 * 2 * 4, &[0]);
}

/// An entry that leads back to the root, which is listed once and is no regular file.
#[test]
fn root_as_a_file() {
    let mut pulls = Pulls::new("pull from the root itself");
    let mut scene = Scene::new(&mut pulls.trial.random, LONGEST);
    let root = scene.root_block();
    let directory = scene.linked.block;
    for name in [b".".as_slice(), b"..", b"loop"] {
        let dentry = harptimber_tests::cards::directory::Dentry::new(name, ROOT);
        scene.card.link(0, 0, &dentry);
        let call = Call::new(&scene.card.image, name, 0);
        pulls.expect_lists(&call, 12, &[ROOT], &[root, directory]);
    }
    pulls.finish(3, &[12]);
}

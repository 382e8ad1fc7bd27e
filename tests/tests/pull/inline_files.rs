//! Pull: files whose bytes stand in their inode.

use harptimber_tests::calls::pulls::{Call, Pulls};
use harptimber_tests::cards::card::ROOT;
use harptimber_tests::cards::directory::Dentry;
use harptimber_tests::cards::layout::inode::*;
use harptimber_tests::cards::layout::slots::{node_numbers, I_ADDR};
use harptimber_tests::cards::layout::BLOCK_SIZE;
use harptimber_tests::cards::one_file::{Scene, Setting, NAME};

/// Inline bytes of a file, and the room that it has by the paper.
const ROOMS: [(u64, usize); 4] = [(0x02, 3688), (0x03, 3488), (0xDA, 3688), (0xDB, 3488)];
/// In a root with blocks, and in an inline one.
const ROOTS: [u64; 2] = [0, INLINE_DENTRY];

fn scene(pulls: &mut Pulls, root_inline: u64, file_inline: u64, size: usize) -> Scene {
    let setting = Setting {
        root_inline,
        file_inline,
        size: size as u64,
    };
    Scene::new(&mut pulls.trial.random, setting)
}

/// Expects an answer without data, with the lists of every pull that comes to an inline file.
fn expect_without(pulls: &mut Pulls, scene: &Scene, index: u32, answer: u32) {
    let blocks = [scene.root_block(), scene.linked.block, scene.file_block()];
    let call = Call::new(&scene.card.image, NAME, index);
    pulls.expect_lists(&call, answer, &[ROOT, scene.ino], &blocks);
}

/// Expects so many bytes from the inode, and the same lists.
fn expect_bytes(pulls: &mut Pulls, scene: &Scene, size: usize) {
    let image = &scene.card.image;
    let bytes = &image.block(scene.file_block())[364..364 + size];
    pulls.expect_data(image, NAME, 0, bytes);
    expect_without(pulls, scene, 0, 0);
}

/// Every size at or near which something changes, in both rooms. There is no second block.
#[test]
fn sizes() {
    const SIZES: [usize; 18] = [
        0, 1, 2, 3, 4, 8, 100, 512, 2048, 3343, 3344, 3345, 3487, 3488, 3489, 3687, 3688, 3689,
    ];
    const LARGER: [u64; 11] = [
        3690,
        3711,
        4095,
        4096,
        4097,
        1 << 16,
        (1 << 32) - 1,
        1 << 32,
        (1 << 32) + 100,
        1 << 63,
        u64::MAX,
    ];
    const FURTHER: [u32; 8] = [1, 2, 872, 873, 922, 923, 1 << 20, u32::MAX];
    let mut pulls = Pulls::new("pull of inline files by size");
    for (root_inline, (inline, room)) in ROOTS.into_iter().flat_map(|r| ROOMS.map(|f| (r, f))) {
        let mut scene = scene(&mut pulls, root_inline, inline, 0);
        let file = scene.file_block();
        for size in SIZES.map(|size| size as u64).into_iter().chain(LARGER) {
            scene.card.image.set(file, I_SIZE, size);
            let answer = if size > room as u64 { 12 } else { 3 };
            match (answer, size) {
                (12, _) | (_, 0) => expect_without(&mut pulls, &scene, 0, answer),
                _ => expect_bytes(&mut pulls, &scene, size as usize),
            }
            for index in FURTHER {
                expect_without(&mut pulls, &scene, index, answer);
            }
        }
    }
    pulls.finish(2 * 4 * (18 + 11) * 9, &[0, 3, 12]);
}

#[test]
fn every_size() {
    let mut pulls = Pulls::new("pull of inline files of every size");
    for (inline, room) in [ROOMS[0], ROOMS[1]] {
        let mut scene = scene(&mut pulls, 0, inline, 0);
        let file = scene.file_block();
        for size in 1..=room {
            scene.card.image.set(file, I_SIZE, size as u64);
            let image = &scene.card.image;
            let bytes = &image.block(file)[364..364 + size];
            pulls.expect_data(image, NAME, 0, bytes);
        }
    }
    pulls.finish(3688 + 3488, &[0]);
}

/// Whatever the bytes are, they are data: zeros don't make a hole, and ones no address.
#[test]
fn plain_contents() {
    let mut pulls = Pulls::new("pull of plain contents of inline files");
    for (inline, room) in ROOMS {
        let mut scene = scene(&mut pulls, 0, inline, room);
        let file = scene.file_block();
        for byte in [0x00, 0x01, 0x80, 0xFF] {
            let contents = vec![byte; room];
            let image = &mut scene.card.image;
            image.put("contents", file, 364, &contents);
            for size in [1, 4, 5, room - 1, room] {
                scene.card.image.set(file, I_SIZE, size as u64);
                pulls.expect_data(&scene.card.image, NAME, 0, &contents[..size]);
            }
        }
    }
    pulls.finish(4 * 4 * 5, &[0]);
}

/// One byte that isn't 0, at each place in turn: it is handed out where it stands, as far as the file goes.
#[test]
fn one_byte() {
    let mut pulls = Pulls::new("pull of inline files with one byte");
    for (inline, room) in [ROOMS[0], ROOMS[1]] {
        let mut scene = scene(&mut pulls, 0, inline, room);
        let file = scene.file_block();
        let zeros = vec![0; 4072 - 360];
        let image = &mut scene.card.image;
        image.put("zeros", file, 360, &zeros);
        image.settle("an empty inode");
        let ends = [360, 362, 363, 364, 365, 363 + room, 364 + room, 365 + room];
        for at in ends.into_iter().chain((366..4072).step_by(97)) {
            scene.card.image.put("byte", file, at, &[0xA5]);
            let mut bytes = vec![0; room];
            if let Some(byte) = at.checked_sub(364).and_then(|at| bytes.get_mut(at)) {
                *byte = 0xA5;
            }
            pulls.expect_data(&scene.card.image, NAME, 0, &bytes);
            scene.card.image.undo(0);
        }
    }
    pulls.finish(2 * (8 + 39), &[0]);
}

/// The first address and the five node numbers lead to nodes and blocks which are there, or nowhere.
#[test]
fn addresses_and_numbers() {
    let mut pulls = Pulls::new("pull of inline files by their addresses and node numbers");
    for (root_inline, (inline, room)) in ROOTS.into_iter().flat_map(|r| ROOMS.map(|f| (r, f))) {
        let mut scene = scene(&mut pulls, root_inline, inline, room);
        let file = scene.file_block();
        let sound = scene.card.add_file(0, u64::MAX);
        let direct = scene.card.way(sound, ADDRESSES)[1].node;
        let data = scene.card.add_block(sound, 0);
        scene.card.image.settle("a file with nodes");
        let (past, areas) = (scene.card.node_numbers, scene.card.image.areas);
        let values = [
            0,
            ROOT,
            scene.ino,
            direct.nid,
            direct.block,
            data,
            areas.main_end,
            past,
            u32::MAX,
        ];
        for value in values {
            for field in node_numbers().chain([I_ADDR]) {
                scene.card.image.set(file, field, value.into());
                expect_bytes(&mut pulls, &scene, room);
                scene.card.image.undo(0);
            }
            for field in node_numbers().chain([I_ADDR]) {
                scene.card.image.set(file, field, value.into());
            }
            // What would be the second address and on are the file's bytes.
            let addresses = value.to_le_bytes().repeat(room / 4);
            scene.card.image.put("addresses", file, 364, &addresses);
            expect_bytes(&mut pulls, &scene, room);
            scene.card.image.undo(0);
        }
    }
    pulls.finish(2 * 4 * 9 * 7 * 2, &[0]);
}

/// Two names for one inline file, and an inline file beside one with blocks.
#[test]
fn files_side_by_side() {
    let mut pulls = Pulls::new("pull of inline files beside others");
    for root_inline in ROOTS {
        let mut scene = scene(&mut pulls, root_inline, INLINE_DATA, 3688);
        let ino = scene.card.add_file(0, BLOCK_SIZE as u64);
        let data = scene.card.add_block(ino, 0);
        let names = [(b"other".as_slice(), ino), (b"again", scene.ino)];
        for (name, ino) in names {
            scene.card.link(0, 0, &Dentry::new(name, ino));
        }
        let image = &scene.card.image;
        let inline = &image.block(scene.file_block())[364..4052];
        pulls.expect_data(image, NAME, 0, inline);
        pulls.expect_data(image, b"again", 0, inline);
        pulls.expect_data(image, b"other", 0, image.block(data));
        for name in [NAME, b"again", b"other"] {
            pulls.expect(image, name, 1, 3);
        }
    }
    pulls.finish(2 * 6, &[0, 3]);
}

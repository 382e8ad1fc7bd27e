//! Pull: inodes of kinds that are read and that aren't.

use harptimber_tests::calls::pulls::{Call, Pulls};
use harptimber_tests::cards::card::ROOT;
use harptimber_tests::cards::directory::Dentry;
use harptimber_tests::cards::layout::inode::*;
use harptimber_tests::cards::layout::{slots, Field};
use harptimber_tests::cards::one_file::{Scene, Setting, NAME};

const PLAIN: Setting = Setting {
    root_inline: 0,
    file_inline: 0,
    size: 100,
};

/// A file with one block, and the blocks of the root and of the file.
fn scene(pulls: &mut Pulls) -> (Scene, u32, u32) {
    let mut scene = Scene::new(&mut pulls.trial.random, PLAIN);
    scene.card.add_block(scene.ino, 0);
    scene.card.image.settle("one block");
    let (root, file) = (scene.root_block(), scene.file_block());
    (scene, root, file)
}

/// Pulls with a number changed in a block.
fn expect_with(pulls: &mut Pulls, scene: &mut Scene, change: (u32, Field, u64), answer: u32) {
    let (block, field, value) = change;
    scene.card.image.set(block, field, value);
    pulls.expect(&scene.card.image, NAME, 0, answer);
    scene.card.image.undo(0);
}

/// The top four bits decide alone.
#[test]
fn modes() {
    let mut pulls = Pulls::new("pull by mode");
    let (mut scene, root, file) = scene(&mut pulls);
    for kind in 0..16 {
        for low in [0, 1, 0o644, 0o755, 0xFFF] {
            let mode = kind << 12 | low;
            for (block, right) in [(root, S_IFDIR), (file, S_IFREG)] {
                let answer = if kind << 12 == right { 0 } else { 12 };
                expect_with(&mut pulls, &mut scene, (block, I_MODE, mode), answer);
            }
        }
    }
    pulls.finish(16 * 5 * 2, &[0, 12]);
}

/// Depths up to 63 are read. With 0 no level is searched.
#[test]
fn depths() {
    let mut pulls = Pulls::new("pull by depth");
    let (mut scene, root, file) = scene(&mut pulls);
    let large = (8..32).map(|bit| 1 << bit);
    for depth in (0..=70)
        .chain([255])
        .chain(large)
        .chain([u64::from(u32::MAX)])
    {
        let answer = match depth {
            0 => 2,
            1..=63 => 0,
            _ => 12,
        };
        expect_with(
            &mut pulls,
            &mut scene,
            (root, I_CURRENT_DEPTH, depth),
            answer,
        );
        // Only a directory is asked for it.
        expect_with(&mut pulls, &mut scene, (file, I_CURRENT_DEPTH, depth), 0);
    }
    pulls.finish(2 * (71 + 1 + 24 + 1), &[0, 2, 12]);
}

/// "." has hash 0, so that every level that is read has it in the directory's first block.
const FIRST_BUCKET: &[u8] = b".";

/// A scene in which that name leads to the file, too.
fn with_first_bucket(pulls: &mut Pulls) -> (Scene, u32, u32) {
    let (mut scene, root, file) = scene(pulls);
    let ino = scene.ino;
    scene.card.link(0, 0, &Dentry::new(FIRST_BUCKET, ino));
    scene.card.image.settle("a name of hash 0");
    (scene, root, file)
}

/// Level 30 is read and 31 isn't. A file isn't asked for one.
#[test]
fn directory_levels() {
    let mut pulls = Pulls::new("pull by directory level");
    let (mut scene, root, file) = with_first_bucket(&mut pulls);
    let data = scene.card.image.get(file, slots::I_ADDR) as u32;
    let found = [root, scene.linked.block, file, data];
    for level in 0..=0xFF {
        scene.card.image.set(root, I_DIR_LEVEL, level);
        let call = Call::new(&scene.card.image, FIRST_BUCKET, 0);
        match level {
            0..=30 => pulls.expect_lists(&call, 0, &[ROOT, scene.ino], &found),
            _ => pulls.expect_lists(&call, 12, &[ROOT], &[root]),
        }
        scene.card.image.undo(0);
        scene.card.image.set(file, I_DIR_LEVEL, level);
        for name in [NAME, FIRST_BUCKET] {
            let call = Call::new(&scene.card.image, name, 0);
            pulls.expect_lists(&call, 0, &[ROOT, scene.ino], &found);
        }
        scene.card.image.undo(0);
    }
    pulls.finish(3 * 256, &[0, 12]);
}

/// With a level that isn't read nothing else is asked: no depth, size or name.
#[test]
fn levels_too_large() {
    let mut pulls = Pulls::new("pull by too large a directory level");
    let (mut scene, root, _) = with_first_bucket(&mut pulls);
    for level in [31, 32, 33, 62, 63, 64, 0x7F, 0x80, 0xFE, 0xFF] {
        for depth in [0, 1, 2, 62, 63, 64, u64::from(u32::MAX)] {
            for size in [0, 1, 4096, u64::MAX] {
                let fields = [
                    (I_DIR_LEVEL, level),
                    (I_CURRENT_DEPTH, depth),
                    (I_SIZE, size),
                ];
                scene.card.image.set_all(root, &fields);
                for name in [NAME, FIRST_BUCKET, b"other"] {
                    let call = Call::new(&scene.card.image, name, 0);
                    pulls.expect_lists(&call, 12, &[ROOT], &[root]);
                }
                scene.card.image.undo(0);
            }
        }
    }
    pulls.finish(10 * 7 * 4 * 3, &[12]);
}

/// With a level that is read, 12 for the depth comes first, then 2 for size 0.
#[test]
fn levels_with_depths_and_sizes() {
    let mut pulls = Pulls::new("pull by directory level, depth and size");
    let (mut scene, root, _) = with_first_bucket(&mut pulls);
    for level in 0..=30 {
        for (depth, size, answer) in [
            (64, 0, 12),
            (64, 4096, 12),
            (u64::from(u32::MAX), 0, 12),
            (63, 0, 2),
            (1, 0, 2),
            (0, 0, 2),
            (0, 4096, 2),
            (1, 1, 0),
            (63, u64::MAX, 0),
        ] {
            let fields = [
                (I_DIR_LEVEL, level),
                (I_CURRENT_DEPTH, depth),
                (I_SIZE, size),
            ];
            scene.card.image.set_all(root, &fields);
            let call = Call::new(&scene.card.image, FIRST_BUCKET, 0);
            match answer {
                0 => pulls.expect_call(&call, 0),
                _ => pulls.expect_lists(&call, answer, &[ROOT], &[root]),
            }
            scene.card.image.undo(0);
        }
    }
    pulls.finish(31 * 9, &[0, 2, 12]);
}

/// The bytes beside a directory's level decide nothing, whether it has one that is read or not.
#[test]
fn bytes_beside_the_level() {
    let mut pulls = Pulls::new("pull by the bytes beside the directory level");
    let (mut scene, root, file) = with_first_bucket(&mut pulls);
    let beside = [346, 348].map(|at| Field {
        name: "byte beside the level",
        at,
        size: 1,
    });
    for (level, answer) in [(0, 0), (1, 0), (30, 0), (31, 12), (0xFF, 12)] {
        for value in [0, 1, 30, 31, 0xFF] {
            for field in beside {
                let image = &mut scene.card.image;
                image.set(root, I_DIR_LEVEL, level);
                image.set(root, field, value);
                image.set(file, field, value);
                pulls.expect(image, FIRST_BUCKET, 0, answer);
                image.undo(0);
            }
        }
    }
    pulls.finish(5 * 5 * 2, &[0, 12]);
}

/// A directory's size only matters if it is 0, in all 64 bits.
#[test]
fn directory_sizes() {
    let mut pulls = Pulls::new("pull by the directory's size");
    let (mut scene, root, _) = scene(&mut pulls);
    for bit in 0..64 {
        expect_with(&mut pulls, &mut scene, (root, I_SIZE, 1 << bit), 0);
    }
    expect_with(&mut pulls, &mut scene, (root, I_SIZE, u64::MAX), 0);
    scene.card.image.set(root, I_SIZE, 0);
    for name in [NAME, b"other"] {
        let call = Call::new(&scene.card.image, name, 0);
        pulls.expect_lists(&call, 2, &[ROOT], &[root]);
    }
    pulls.finish(64 + 1 + 2, &[0, 2]);
}

/// A kind that isn't read comes before the size; in the root before the search, too.
#[test]
fn kind_before_size() {
    let mut pulls = Pulls::new("pull by kind and size");
    let (mut scene, root, file) = scene(&mut pulls);
    let unread = [
        (root, I_MODE, S_IFREG),
        (root, I_INLINE, INLINE_DATA),
        (root, I_INLINE, EXTRA_ATTR),
        (root, I_CURRENT_DEPTH, 64),
        (root, I_DIR_LEVEL, 31),
        (root, I_DIR_LEVEL, 255),
        (file, I_MODE, S_IFDIR),
        (file, I_INLINE, INLINE_DENTRY),
        (file, I_INLINE, EXTRA_ATTR),
    ];
    for (block, field, value) in unread {
        scene.card.image.set(block, I_SIZE, 0);
        scene.card.image.set(block, field, value);
        for index in [0, 1, u32::MAX] {
            pulls.expect(&scene.card.image, NAME, index, 12);
        }
        scene.card.image.undo(0);
    }
    pulls.finish(9 * 3, &[12]);
}

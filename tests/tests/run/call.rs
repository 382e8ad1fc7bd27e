//! Run: the shape of the call.

use harptimber_tests::calls::lent::Lens;
use harptimber_tests::calls::pulls::Call;
use harptimber_tests::calls::runs::{RunCall, Runs};
use harptimber_tests::cards::folders::{Folders, Shape};
use harptimber_tests::cards::image::Image;
use harptimber_tests::cards::layout::superblock::MAGIC;
use harptimber_tests::cards::layout::BLOCK_SIZE;
use harptimber_tests::cards::one_file::NAME;
use harptimber_tests::sizes::RUN_MOST;

use crate::stretch::Stretch;

/// A file of so many blocks, all there.
fn file(runs: &mut Runs, blocks: u32) -> Image {
    let size = u64::from(blocks) * BLOCK_SIZE as u64;
    let stretch = Stretch::of(&mut runs.trial.random, 0, size, 0..blocks);
    stretch.scene.card.image
}

/// The same card without a superblock.
fn unopened(image: &Image) -> Image {
    let mut image = image.clone();
    image.set(0, MAGIC, 0);
    image.set(1, MAGIC, 0);
    image
}

/// A run of 1 to 512 blocks is one. A buffer just long enough doesn't help the others.
#[test]
fn numbers_of_blocks() {
    let mut runs = Runs::new("runs by how many blocks");
    let image = file(&mut runs, 520);
    let unopened = unopened(&image);
    for blocks in [0, 1, 2, 3, 255, 256, 511, 512, 513, 514, 520, 521, 1024] {
        let is_run = (1..=RUN_MOST).contains(&blocks);
        let call = RunCall::new(&image, NAME, 0, blocks);
        let (answer, count) = if is_run { (0, blocks) } else { (4, 0) };
        runs.expect_with(call.least(), &call, answer, count);
        // Out of shape comes before what opening answers.
        let call = call.on(&unopened);
        runs.expect_with(call.least(), &call, if is_run { 5 } else { 4 }, 0);
    }
    runs.finish(2 * 13, &[(0, true), (4, false), (5, false)]);
}

/// Products that would wrap, in 32 bits or as a number of blocks.
#[test]
fn far_too_many_blocks() {
    let mut runs = Runs::new("runs of far too many blocks");
    let image = file(&mut runs, 3);
    for blocks in [1 << 9, 1 << 16, 1 << 20, 1 << 30, 1 << 31, 3 << 30] {
        for more in [0, 1, 2] {
            for buffer in [0, 1, 2, 512] {
                let lens = Lens::of_run(1, buffer);
                let call = RunCall::new(&image, NAME, 0, blocks + more);
                let fits = call.blocks == buffer;
                let (answer, count) = if fits { (3, 3) } else { (4, 0) };
                runs.expect_with(lens, &call, answer, count);
            }
        }
    }
    let call = RunCall::new(&image, NAME, 0, u32::MAX);
    runs.expect_with(Lens::of_run(1, 512), &call, 4, 0);
    runs.finish(6 * 3 * 4 + 1, &[(3, true), (4, false)]);
}

/// The buffer has exactly 4,096 bytes a block.
#[test]
fn buffers() {
    let mut runs = Runs::new("runs by the buffer's length");
    let image = file(&mut runs, 512);
    for blocks in [1, 2, 3, 511, 512] {
        let exact = blocks as usize * BLOCK_SIZE;
        let less = [1, 4, 4095, 4096].map(|less| exact - less);
        let more = [1, 4, 4095, 4096].map(|more| exact + more);
        for len in less.into_iter().chain(more).chain([0, exact]) {
            let call = RunCall::new(&image, NAME, 0, blocks);
            let lens = Lens {
                block: len,
                ..call.least()
            };
            let (answer, count) = if len == exact { (0, blocks) } else { (4, 0) };
            runs.expect_with(lens, &call, answer, count);
        }
    }
    runs.finish(5 * 10, &[(0, true), (4, false)]);
}

/// Rooms around what so many names need, and those that are enough for a single pull.
fn expect_rooms(runs: &mut Runs, image: &Image, path: &[u8], blocks: u32) {
    let call = RunCall::new(image, path, 0, blocks);
    let least = call.least();
    let around = |least: usize, of_pull| {
        let near = [least - 8, least - 4, least - 3, least - 1];
        let enough = [least, least + 1, least + 3, least + 4];
        [&near[..], &enough, &[of_pull, 0]].concat()
    };
    let of_pull = Lens::of(call.first.names());
    for nodes in around(least.nodes, of_pull.nodes) {
        for blocks in around(least.blocks, of_pull.blocks) {
            let lens = Lens {
                nodes,
                blocks,
                ..least
            };
            let in_shape = nodes >= least.nodes && blocks >= least.blocks;
            let (answer, count) = if in_shape { (0, call.blocks) } else { (4, 0) };
            runs.expect_with(lens, &call, answer, count);
        }
    }
}

/// By the paper 175k + 6 and 233k + 518 numbers, however few blocks the run has.
#[test]
fn rooms() {
    let mut runs = Runs::new("runs by the lists' rooms");
    for names in [1, 2, 3, 7, 8] {
        let shapes = vec![Shape::PLAIN; names];
        let folders = Folders::new(&mut runs.trial.random, &shapes, 1);
        let image = &folders.card.image;
        for blocks in [1, 2] {
            expect_rooms(&mut runs, image, &folders.path(), blocks);
        }
    }
    let image = file(&mut runs, 512);
    expect_rooms(&mut runs, &image, NAME, 512);
    runs.finish(11 * 100, &[(0, true), (4, false)]);
    assert_eq!(Lens::of_run(1, 1).nodes, 4 * 181);
    assert_eq!(Lens::of_run(1, 1).blocks, 4 * 751);
    assert_eq!(Lens::of_run(8, 1).nodes, 4 * 1406);
    assert_eq!(Lens::of_run(8, 1).blocks, 4 * 2382);
}

/// Also where the image doesn't open: the call's shape comes first.
#[test]
fn paths() {
    let mut runs = Runs::new("runs by the shape of the path");
    let image = file(&mut runs, 2);
    let long = [b'x'; 256];
    let bad: [&[u8]; 8] = [
        b"",
        b"/",
        b"/road.bin",
        b"road.bin/",
        b"a//b",
        b"a\0b",
        b"1/2/3/4/5/6/7/8/9",
        &long,
    ];
    let missing: [&[u8]; 3] = [b"road", b"a/b", b"1/2/3/4/5/6/7/8"];
    for image in [&image, &unopened(&image)] {
        let opened = image.get(0, MAGIC) != 0;
        for blocks in [1, 512] {
            for path in bad {
                runs.expect(&RunCall::new(image, path, 0, blocks), 4, 0);
            }
            for path in missing {
                let answer = if opened { 2 } else { 5 };
                runs.expect(&RunCall::new(image, path, 0, blocks), answer, 0);
            }
        }
    }
    let through = RunCall::new(&image, b"road.bin/x", 0, 2);
    runs.expect(&through, 12, 0);
    let every = [(2, false), (4, false), (5, false), (12, false)];
    runs.finish(2 * 2 * 11 + 1, &every);
}

/// An image that is cut, by blocks and within one.
#[test]
fn image_lengths() {
    let mut runs = Runs::new("runs by image length");
    let image = file(&mut runs, 2);
    let whole = image.bytes().len();
    let needed = image.areas.block_count as usize * BLOCK_SIZE;
    let two = 2 * BLOCK_SIZE;
    for (len, answer) in [
        (0, 4),
        (BLOCK_SIZE, 4),
        (two, 5),
        (two + 1, 4),
        (needed - BLOCK_SIZE, 5),
        (needed - 1, 4),
        (needed, 0),
        (whole, 0),
    ] {
        for blocks in [1, 2] {
            let first = Call {
                bytes: &image.bytes()[..len],
                ..Call::new(&image, NAME, 0)
            };
            let count = if answer == 0 { blocks } else { 0 };
            runs.expect(&RunCall { first, blocks }, answer, count);
        }
    }
    runs.finish(8 * 2, &[(0, true), (4, false), (5, false)]);
}

#[test]
fn image_is_only_read() {
    let mut runs = Runs::new("runs and the image");
    let image = file(&mut runs, 512);
    let before = image.bytes().to_vec();
    for (index, blocks, answer, count) in [(0, 512, 0, 512), (500, 20, 3, 12), (512, 1, 3, 0)] {
        runs.expect(&RunCall::new(&image, NAME, index, blocks), answer, count);
    }
    assert!(image.bytes() == before, "a run wrote to {image:?}");
    runs.finish(3, &[(0, true), (3, true), (3, false)]);
}

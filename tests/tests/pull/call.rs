//! Pull: the shape of the call, and the bench sheet.

use harptimber_tests::calls::lent::Lens;
use harptimber_tests::calls::pulls::{Call, Pulls};
use harptimber_tests::cards::card::ROOT;
use harptimber_tests::cards::image::Image;
use harptimber_tests::cards::layout::journal::{MOST_ENTRIES, N_NATS};
use harptimber_tests::cards::layout::superblock::MAGIC;
use harptimber_tests::cards::layout::BLOCK_SIZE;
use harptimber_tests::cards::lengths::{lengths, LENGTHS};
use harptimber_tests::cards::names::good_name;
use harptimber_tests::cards::one_file::{Scene, Setting, NAME};

const PLAIN: Setting = Setting {
    root_inline: 0,
    file_inline: 0,
    size: 3 * BLOCK_SIZE as u64,
};

fn scene(pulls: &mut Pulls) -> Scene {
    let mut scene = Scene::new(&mut pulls.trial.random, PLAIN);
    scene.card.add_block(scene.ino, 0);
    scene
}

fn expect_at_length(pulls: &mut Pulls, image: &Image, len: usize, answer: u32) {
    let call = Call {
        bytes: &image.bytes()[..len],
        ..Call::new(image, NAME, 0)
    };
    pulls.expect_call(&call, answer);
}

#[test]
fn image_lengths() {
    let mut pulls = Pulls::new("pull by image length");
    let image = scene(&mut pulls).card.image;
    let blocks = image.areas.block_count as usize;
    let by_blocks = [(0, 4), (1, 4), (2, 5), (3, 5), (blocks - 1, 5), (blocks, 0)];
    for (blocks, answer) in by_blocks {
        expect_at_length(&mut pulls, &image, blocks * BLOCK_SIZE, answer);
    }
    for blocks in [1, 2, 3, blocks] {
        for less in [1, 2, 4, 512, 1024, BLOCK_SIZE / 2, BLOCK_SIZE - 1] {
            expect_at_length(&mut pulls, &image, blocks * BLOCK_SIZE - less, 4);
        }
    }
    pulls.finish(6 + 4 * 7, &[0, 4, 5]);
}

/// A sound card that is longer than it needs to be, and one without a superblock.
#[test]
fn largest_images() {
    let mut pulls = Pulls::new("pull from the largest images");
    for (image, opened) in Image::rootless_to_be_cut() {
        for (len, in_shape) in lengths() {
            let answer = if in_shape { opened } else { 4 };
            expect_at_length(&mut pulls, &image, len, answer);
        }
    }
    pulls.finish(2 * LENGTHS, &[4, 5, 9]);
}

/// The block buffer has exactly 4,096 bytes, and the lists at least 179 and 238 numbers.
#[test]
fn lent_lengths() {
    let mut pulls = Pulls::new("pull by lent lengths");
    let image = scene(&mut pulls).card.image;
    let call = Call::new(&image, NAME, 0);
    let least = Lens::least();
    let around = |least| {
        [
            0,
            4,
            least - 4,
            least - 3,
            least - 1,
            least,
            least + 1,
            least + 3,
            4096,
        ]
    };
    for block in [0, 1, 4092, 4095, 4096, 4097, 4100, 8192] {
        for nodes in around(least.nodes) {
            for blocks in around(least.blocks) {
                let in_shape = block == 4096 && nodes >= least.nodes && blocks >= least.blocks;
                let lens = Lens {
                    block,
                    nodes,
                    blocks,
                };
                pulls.expect_with(lens, &call, if in_shape { 0 } else { 4 });
            }
        }
    }
    pulls.finish(8 * 9 * 9, &[0, 4]);
}

/// Whether a name may have so many bytes.
fn is_name(len: usize) -> bool {
    (1..=255).contains(&len)
}

/// Also where the image doesn't open: the call's shape comes first. A slash between two names makes a path of them, and
/// the first isn't there.
#[test]
fn names() {
    let mut pulls = Pulls::new("pull by the shape of the name");
    let mut image = scene(&mut pulls).card.image;
    for opened in [true, false] {
        let missing = if opened { 2 } else { 5 };
        let answer = |is_path| if is_path { missing } else { 4 };
        for len in [0, 1, 2, 8, 254, 255, 256, 257, 300, 511, 4096] {
            let good = good_name(&mut pulls.trial.random, len);
            pulls.expect(&image, &good, 0, answer(is_name(len)));
            for place in (0..len).filter(|place| [0, 1, len / 2, len - 1].contains(place)) {
                let two_names = is_name(place) && is_name(len - place - 1);
                for (bad, is_path) in [(0, false), (b'/', two_names)] {
                    let mut name = good.clone();
                    name[place] = bad;
                    pulls.expect(&image, &name, 0, answer(is_path));
                }
            }
        }
        for copy in [0, 1] {
            image.set(copy, MAGIC, 0);
        }
    }
    pulls.finish(2 * (11 + 2 * (1 + 2 + 8 * 4)), &[2, 4, 5]);
}

/// The bench sheet: size 4,097, of which index 1 gives count 1 and index 2 gives 3.
#[test]
fn size_4097() {
    let mut pulls = Pulls::new("pull from a file of 4,097 bytes");
    let setting = Setting {
        size: 4097,
        ..PLAIN
    };
    let Scene { mut card, ino, .. } = Scene::new(&mut pulls.trial.random, setting);
    let data = [0, 1, 2].map(|index| card.add_block(ino, index));
    pulls.expect_data(&card.image, NAME, 0, card.image.block(data[0]));
    pulls.expect_data(&card.image, NAME, 1, &card.image.block(data[1])[..1]);
    pulls.expect(&card.image, NAME, 2, 3);
    card.set_address(ino, 1, 0);
    pulls.expect_hole(&card.image, NAME, 1, 1);
    pulls.finish(4, &[0, 1, 3]);
}

/// The bench sheet: journal count 38 is read, 39 is 8. The root is its last entry.
#[test]
fn journal_counts() {
    let mut pulls = Pulls::new("pull by journal count");
    let Scene { mut card, .. } = scene(&mut pulls);
    let mut numbers = card.free_numbers(MOST_ENTRIES - 1);
    numbers.push(ROOT);
    card.journal(&numbers);
    let (block, at) = card.image.journal_place(card.which_pack);
    pulls.expect(&card.image, NAME, 0, 0);
    for (count, answer) in [(39, 8), (37, 11), (0, 11), (38, 0)] {
        card.image.set(block, N_NATS.moved(at), count);
        pulls.expect(&card.image, NAME, 0, answer);
    }
    pulls.finish(5, &[0, 8, 11]);
}

#[test]
fn image_is_only_read() {
    let mut pulls = Pulls::new("pull and the image");
    let image = scene(&mut pulls).card.image;
    let before = image.bytes().to_vec();
    for (name, index, answer) in [(NAME, 0, 0), (NAME, 1, 1), (NAME, 3, 3), (b"road", 0, 2)] {
        pulls.expect(&image, name, index, answer);
    }
    assert!(image.bytes() == before, "a pull wrote to {image:?}");
    pulls.finish(4, &[0, 1, 2, 3]);
}

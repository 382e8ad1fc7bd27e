//! Keep: the shape of the call, and which of several answers comes first.

use harptimber_tests::calls::keeps::Keeps;
use harptimber_tests::calls::pulls::Call;
use harptimber_tests::cards::damage::all_faults;
use harptimber_tests::cards::folders::{Folders, Shape};
use harptimber_tests::cards::image::Image;
use harptimber_tests::cards::layout::superblock::MAGIC;
use harptimber_tests::cards::layout::BLOCK_SIZE;
use harptimber_tests::cards::lengths::{lengths, LENGTHS};
use harptimber_tests::cards::names::good_name;

/// A call on the first bytes of an image.
fn cut<'a>(image: &'a Image, len: usize, path: &'a [u8]) -> Call<'a> {
    Call {
        bytes: &image.bytes()[..len],
        ..Call::new(image, path, 0)
    }
}

/// A sound card without a root in longer and longer images, and one without a superblock.
#[test]
fn image_lengths() {
    let mut keeps = Keeps::new("keep by image length");
    for (image, opened) in Image::rootless_to_be_cut() {
        for (len, in_shape) in lengths() {
            let answer = if in_shape { opened } else { 4 };
            keeps.expect(&cut(&image, len, b"road"), answer);
        }
        for (blocks, answer) in [(0, 4), (1, 4), (2, 5), (3, 5)] {
            keeps.expect(&cut(&image, blocks * BLOCK_SIZE, b"road"), answer);
        }
    }
    keeps.finish(2 * (LENGTHS + 4), &[4, 5, 9]);
}

/// Paths in shape and out of it, with the answer of a pull: by the names, of which the first isn't there.
fn paths(name: impl Fn(usize) -> Vec<u8>) -> Vec<(Vec<u8>, u32)> {
    let path = |names: usize, len: usize| vec![name(len); names].join(&b'/');
    let mut paths = vec![
        (vec![], 4),
        (b"/".to_vec(), 4),
        (b"a/".to_vec(), 4),
        (b"/a".to_vec(), 4),
        (b"a//a".to_vec(), 4),
        (b"a\0".to_vec(), 4),
        (b"a/\0/a".to_vec(), 4),
    ];
    for len in [1, 8, 254, 255] {
        paths.extend([1, 2, 7, 8].map(|names| (path(names, len), 2)));
        paths.extend([9, 10, 16].map(|names| (path(names, len), 4)));
    }
    for len in [256, 300, 4096] {
        paths.extend([1, 2, 8].map(|names| (path(names, len), 4)));
    }
    paths
}

/// Also where the image doesn't open: the call's shape comes first.
#[test]
fn shapes_of_paths() {
    let mut keeps = Keeps::new("keep by the shape of the path");
    let random = &mut keeps.trial.random;
    let bytes = good_name(random, 4096);
    let mut image = Folders::new(random, &[Shape::PLAIN], 0).card.image;
    for opened in [true, false] {
        for (path, answer) in paths(|len| bytes[..len].to_vec()) {
            let answer = if answer == 2 && !opened { 5 } else { answer };
            keeps.expect(&Call::new(&image, &path, 0), answer);
        }
        for copy in [0, 1] {
            image.set(copy, MAGIC, 0);
        }
    }
    keeps.finish(2 * (7 + 4 * 7 + 3 * 3), &[2, 4, 5]);
}

/// An image with everything wrong at once, of which one fault after the other is taken away. Rooms are too short all
/// the while, and others aren't; that is told last.
#[test]
fn first_answer_that_applies() {
    let mut keeps = Keeps::new("keep with several faults");
    let folders = Folders::any(&mut keeps.trial.random, 2, 0);
    let path = folders.path();
    let mut image = folders.card.image;
    let whole = image.bytes().len();
    let sound = image.mark();
    let faults = all_faults(&mut image);
    for (len, path) in [(whole - 1, &path[..]), (whole, b"a/"), (whole - 1, b"a/")] {
        keeps.expect(&cut(&image, len, path), 4);
    }
    keeps.expect(&cut(&image, whole, &path), 5);
    for (mark, answer) in faults {
        image.undo(mark);
        keeps.expect(&cut(&image, whole, &path), answer);
        keeps.expect(&cut(&image, whole, b"a//b"), 4);
    }
    image.undo(sound);
    keeps.expect(&cut(&image, whole, &path), 0);
    keeps.finish(3 + 1 + 2 * 3 + 1, &[0, 4, 5, 6, 7, 8]);
}

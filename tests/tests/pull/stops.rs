//! Pull: which of several answers comes first, at each folder of a path and at the file.

use harptimber_tests::calls::pulls::Pulls;
use harptimber_tests::cards::folders::{Folders, Shape};
use harptimber_tests::cards::image::Image;
use harptimber_tests::cards::layout::checkpoint::{
    CHECKSUM_OFFSET, CKPT_FLAGS, CP_LARGE_NAT_BITMAP_FLAG,
};
use harptimber_tests::cards::layout::superblock::{FEATURE, MAGIC};
use harptimber_tests::cards::random::pick;
use harptimber_tests::cards::stops::{stops, Stop, INDEX};
use harptimber_tests::sizes::NAMES_MOST;

const EIGHT: usize = NAMES_MOST as usize;

/// Makes everything wrong that can be, the first faults last. Each answer comes with the mark that
/// takes its fault away.
fn spoil(image: &mut Image, stops: &[Stop]) -> Vec<(usize, u32)> {
    let mut marks = Vec::new();
    for &(answer, block, field, value) in stops.iter().rev() {
        marks.push((image.mark(), answer));
        image.set(block, field, value);
    }
    let first = image.first_block(0);
    marks.push((image.mark(), 8));
    image.set_sealed(first, CKPT_FLAGS, u64::from(CP_LARGE_NAT_BITMAP_FLAG));
    marks.push((image.mark(), 7));
    image.set(first, CHECKSUM_OFFSET, 0);
    for (answer, field, value) in [(6, FEATURE, 1), (5, MAGIC, 0)] {
        marks.push((image.mark(), answer));
        for copy in [0, 1] {
            image.set(copy, field, value);
        }
    }
    marks
}

/// A card with everything wrong at once, of which one fault after the other is taken away. The folders are of any kind,
/// and all of the plainest.
#[test]
fn first_answer_that_applies() {
    let mut pulls = Pulls::new("pull with several faults");
    for names in 1..=EIGHT {
        let random = &mut pulls.trial.random;
        let plain = vec![Shape::PLAIN; names];
        let all = [
            Folders::new(random, &plain, INDEX),
            Folders::any(random, names, INDEX),
            Folders::any(random, names, INDEX),
        ];
        for mut folders in all {
            let stops = stops(&mut folders);
            let path = folders.path();
            let image = &mut folders.card.image;
            let marks = spoil(image, &stops);
            pulls.expect(image, &[&path[..], b"/"].concat(), INDEX, 4);
            for (mark, answer) in marks.into_iter().rev() {
                pulls.expect(image, &path, INDEX, answer);
                image.undo(mark);
            }
            pulls.expect_data(image, &path, INDEX, image.block(folders.data));
        }
    }
    let every_answer: Vec<u32> = (0..=14).collect();
    pulls.finish(3 * (8 * 15 + 36 * 10), &every_answer);
}

/// Each fault by itself, and with one that comes later.
#[test]
fn faults_of_each_folder() {
    let mut pulls = Pulls::new("pull with one fault or two");
    for names in 1..=EIGHT {
        let mut folders = Folders::any(&mut pulls.trial.random, names, INDEX);
        let stops = stops(&mut folders);
        let path = folders.path();
        let image = &mut folders.card.image;
        for (nth, &(answer, block, field, value)) in stops.iter().enumerate() {
            image.set(block, field, value);
            pulls.expect(image, &path, INDEX, answer);
            image.undo(0);
            let later = &stops[nth + 1..];
            if later.is_empty() {
                continue;
            }
            let (_, other, other_field, other_value) = pick(&mut pulls.trial.random, later);
            image.set(other, other_field, other_value);
            image.set(block, field, value);
            pulls.expect(image, &path, INDEX, answer);
            image.undo(0);
        }
    }
    pulls.finish(2 * (8 * 10 + 36 * 10), &[1, 2, 3, 9, 10, 11, 12, 13, 14]);
}

//! Cards that are damaged at random.

use harptimber_tests::calls::guard_script::Script;
use harptimber_tests::calls::pulls::{lists, Call};
use harptimber_tests::cards::damage::Damage;
use harptimber_tests::cards::image::Image;
use harptimber_tests::cards::knobs::{Knobs, Pack};
use harptimber_tests::cards::layout::BLOCK_SIZE;
use harptimber_tests::cards::random::pick;
use harptimber_tests::cards::random_files::{any_target, random_files, RandomFiles};
use harptimber_tests::cards::random_segments::random_segments;
use harptimber_tests::cards::segments::SegmentCard;
use harptimber_tests::cards::walk_damage::{strike_block, strike_either};
use harptimber_tests::tools::published::{contents, filled_with, File};
use harptimber_tests::trial::Random;

/// One in so many damages is to what a card is opened by.
const OPENING: u64 = 4;

/// Damages a card of random files so many times, after pulls from it as it is.
pub(crate) fn damage_files(script: &mut Script, random: &mut Random, damages: u64) {
    let files = random_files(random);
    damage_card(script, random, files, damages);
}

pub(crate) fn damage_card(
    script: &mut Script,
    random: &mut Random,
    files: RandomFiles,
    damages: u64,
) {
    let RandomFiles { mut card, targets } = files;
    let sound = card.image.clone();
    let opening = Damage::of(&sound);
    script.card(&sound);
    for target in &targets[..4] {
        script.pull(&sound, &sound, &target.name, target.index);
    }
    for _ in 0..damages {
        let target = any_target(&targets, random);
        for _ in 0..1 + random.below(3) {
            strike_either(&mut card, (&opening, OPENING), target, random);
        }
        let (name, index) = target.any_call(random);
        script.pull(&sound, &card.image, &name, index);
        card.image.undo(0);
    }
}

/// Cards with a SIT of random entries, damaged in what they are opened by and there. The last has no main segment, so
/// that it takes any list.
pub(crate) fn damage_sits(script: &mut Script, random: &mut Random, damages: u64) {
    for (segments, pack) in [1, 55, 57, 3].into_iter().zip(Pack::kinds()) {
        let knobs = Knobs::sound().with_segments(segments).with_pack(0, pack);
        let SegmentCard { mut image, sit } = random_segments(random, knobs).card;
        let opening = Damage::of(&image);
        script.card(&image);
        assert_eq!(script.segments(&image), 0);
        for _ in 0..damages {
            match random.below(OPENING) {
                0 => opening.strike(&mut image, random),
                _ => sit.strike(&mut image, random),
            }
            script.segments(&image);
            image.undo(0);
        }
    }
    let none = Image::new(&Knobs::sound().with_segments(0));
    script.card(&none);
    assert_eq!(script.segments(&none), 0);
}

/// A card by the published tools, damaged in what it is opened by and in blocks that a pull reads.
pub(crate) fn damage_published(script: &mut Script, random: &mut Random, damages: u64) {
    let file = (b"file".to_vec(), contents(random, 880 * BLOCK_SIZE));
    let files: [File; 2] = [file, (b"short".to_vec(), contents(random, 5000))];
    let mut image = filled_with(100, "", &files);
    let sound = image.clone();
    let opening = Damage::of(&sound);
    script.card(&sound);
    script.pull(&sound, &sound, b"short", 1);
    assert_eq!(script.segments(&sound), 0);
    for _ in 0..damages {
        let index = pick(random, &[0, 872, 873, 879, 880]);
        let (_, blocks) = lists(&Call::new(&image, b"file", index));
        match random.below(OPENING) {
            0 => opening.strike(&mut image, random),
            _ => strike_block(&mut image, pick(random, &blocks), random),
        }
        script.pull(&sound, &image, b"file", index);
        image.undo(0);
    }
}

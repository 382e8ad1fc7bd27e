//! Pulls from random cards, sound and damaged.

use std::ops::RangeInclusive;

use harptimber_tests::calls::answers::Answers;
use harptimber_tests::calls::pulls::{Call, Pulls};
use harptimber_tests::cards::card::ROOT;
use harptimber_tests::cards::damage::Damage;
use harptimber_tests::cards::directory::DirLevel;
use harptimber_tests::cards::layout::inode::{INLINE_DATA, INLINE_DENTRY, I_DIR_LEVEL, I_INLINE};
use harptimber_tests::cards::names::good_name;
use harptimber_tests::cards::random::within;
use harptimber_tests::cards::random_files::{
    any_target, large_random_files, random_files, random_files_with, RandomFiles,
};
use harptimber_tests::cards::random_trees::random_trees;
use harptimber_tests::cards::versions::Apart;
use harptimber_tests::cards::walk_damage::strike_either;
use harptimber_tests::trial::Random;

/// One in so many damages is to what a card is opened by.
const OPENING: u64 = 6;

/// Makes a card.
type Files = fn(&mut Random) -> RandomFiles;

/// Each target of a card, and names that aren't there. With a level that isn't read nothing is, of an inline root too.
fn expect_targets(pulls: &mut Pulls, files: RandomFiles) {
    let RandomFiles { mut card, targets } = files;
    let root = card.inode_block(ROOT);
    for target in &targets {
        pulls.compare(&card.image, &target.name, target.index);
        let name = good_name(&mut pulls.trial.random, 6);
        pulls.expect(&card.image, &name, target.index, 2);
    }
    let level = 31 + pulls.trial.random.below(225);
    card.image.set(root, I_DIR_LEVEL, level);
    let target = any_target(&targets, &mut pulls.trial.random);
    let call = Call::new(&card.image, &target.name, target.index);
    pulls.expect_lists(&call, 12, &[ROOT], &[root]);
}

/// Whether the root's entries stand in its inode, and a file's bytes in its.
fn note_inline(met: &mut Answers<[bool; 2]>, RandomFiles { card, targets }: &RandomFiles) {
    for target in targets {
        let inode = |nth: usize| card.image.get(target.inodes[nth], I_INLINE);
        met.note([inode(0) & INLINE_DENTRY != 0, inode(1) & INLINE_DATA != 0]);
    }
}

/// Returns how the packs' versions lay to each other.
fn expect_sound(name: &'static str, cards: u64, files: Files) -> Answers<Apart> {
    let mut pulls = Pulls::new(name);
    let mut met = Answers::default();
    let mut inline = Answers::default();
    for _ in 0..pulls.trial.times(cards) {
        let files = files(&mut pulls.trial.random);
        met.note_versions(&files.card.image);
        note_inline(&mut inline, &files);
        expect_targets(&mut pulls, files);
    }
    pulls.finish(cards * 33, &[0, 1, 2, 3, 12]);
    inline.finish(&[[false, false], [false, true], [true, false], [true, true]]);
    met
}

#[test]
fn sound_cards() {
    let met = expect_sound("pull from random cards", 150, random_files);
    met.finish(&Apart::ALL);
}

#[test]
fn large_sound_cards() {
    expect_sound("pull from large random cards", 40, large_random_files);
}

/// Files in folders, by paths of one to eight names.
#[test]
fn sound_trees() {
    const CARDS: u64 = 60;
    let mut pulls = Pulls::new("pull from random trees");
    let mut names = Answers::default();
    for _ in 0..pulls.trial.times(CARDS) {
        let files = random_trees(&mut pulls.trial.random);
        for target in &files.targets {
            names.note(Call::new(&files.card.image, &target.name, 0).names());
        }
        expect_targets(&mut pulls, files);
    }
    pulls.finish(CARDS * 41, &[0, 1, 2, 3, 12]);
    let one_to_eight: Vec<u32> = (1..=8).collect();
    names.finish(&one_to_eight);
}

/// Every level that is read.
#[test]
fn sound_cards_of_every_level() {
    let mut pulls = Pulls::new("pull from random cards of every directory level");
    for _ in 0..pulls.trial.times(1) {
        for dir_level in DirLevel::all() {
            let files = random_files_with(&mut pulls.trial.random, dir_level);
            expect_targets(&mut pulls, files);
        }
    }
    pulls.finish(31 * 33, &[0, 1, 2, 12]);
}

/// Damages a card, each time with so many strikes, which are undone before the next ones.
fn damage(pulls: &mut Pulls, files: RandomFiles, damages: u64, strikes: &RangeInclusive<u64>) {
    let RandomFiles { mut card, targets } = files;
    let opening = Damage::of(&card.image);
    for _ in 0..damages {
        let random = &mut pulls.trial.random;
        let target = any_target(&targets, random);
        for _ in 0..within(random, strikes) {
            strike_either(&mut card, (&opening, OPENING), target, random);
        }
        let (name, index) = target.any_call(random);
        pulls.compare(&card.image, &name, index);
        card.image.undo(0);
    }
}

fn every_answer() -> Vec<u32> {
    (0..=14).collect()
}

fn damaged_cards(name: &'static str, cards: u64, files: Files, strikes: RangeInclusive<u64>) {
    const DAMAGES: u64 = 1000;
    let mut pulls = Pulls::new(name);
    for _ in 0..pulls.trial.times(cards) {
        let files = files(&mut pulls.trial.random);
        damage(&mut pulls, files, DAMAGES, &strikes);
    }
    pulls.finish(cards * DAMAGES, &every_answer());
}

#[test]
fn damaged_cards_of_every_level() {
    const DAMAGES: u64 = 400;
    let mut pulls = Pulls::new("pull from cards of every directory level, damaged");
    for _ in 0..pulls.trial.times(1) {
        for dir_level in DirLevel::all() {
            let files = random_files_with(&mut pulls.trial.random, dir_level);
            damage(&mut pulls, files, DAMAGES, &(1..=2));
        }
    }
    pulls.finish(31 * DAMAGES, &every_answer());
}

#[test]
fn cards_damaged_once() {
    damaged_cards("pull from cards damaged once", 30, random_files, 1..=1);
}

#[test]
fn trees_damaged() {
    damaged_cards("pull from trees, damaged", 16, random_trees, 1..=3);
}

#[test]
fn cards_damaged_several_times() {
    let name = "pull from cards damaged several times";
    damaged_cards(name, 30, random_files, 2..=4);
}

#[test]
fn large_cards_damaged() {
    let name = "pull from large cards, damaged";
    damaged_cards(name, 5, large_random_files, 1..=3);
}

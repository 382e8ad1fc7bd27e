//! Runs from random cards, sound and damaged, and of random addresses.

use harptimber_tests::calls::lent::Lens;
use harptimber_tests::calls::runs::{RunCall, Runs};
use harptimber_tests::cards::card::addresses_by;
use harptimber_tests::cards::damage::Damage;
use harptimber_tests::cards::image::Image;
use harptimber_tests::cards::random::{between, pick};
use harptimber_tests::cards::random_files::{
    any_target, large_random_files, random_files, RandomFiles,
};
use harptimber_tests::cards::random_trees::random_trees;
use harptimber_tests::cards::walk_damage::strike_either;
use harptimber_tests::sizes::{NAMES_MOST, RUN_MOST};
use harptimber_tests::trial::Random;

use crate::stretch::{boundaries, Stretch, INLINES};

/// One in so many damages is to what a card is opened by.
const OPENING: u64 = 8;

/// Makes a card.
type Files = fn(&mut Random) -> RandomFiles;

/// How many blocks before an index a run starts, and how many it has: mostly few, so that it gets past the index.
fn any_run(random: &mut Random) -> (u32, u32) {
    match random.below(40) {
        0 => (between(random, 0, 511), between(random, 500, 512)),
        1 => (0, pick(random, &[0, 513, 1 << 20, u32::MAX])),
        _ => (between(random, 0, 4), between(random, 1, 8)),
    }
}

fn compare_any(runs: &mut Runs, image: &Image, path: &[u8], index: u32) {
    let (before, blocks) = any_run(&mut runs.trial.random);
    let call = RunCall::new(image, path, index.saturating_sub(before), blocks);
    match blocks {
        1..=RUN_MOST => runs.compare(&call),
        _ => runs.expect_with(Lens::of_run(NAMES_MOST, 1), &call, 4, 0),
    }
}

/// Each target of a card as it is, and then after damage on the way of some.
fn run_all(runs: &mut Runs, mut files: RandomFiles, damages: u64) {
    for target in &files.targets {
        compare_any(runs, &files.card.image, &target.name, target.index);
    }
    let opening = Damage::of(&files.card.image);
    for _ in 0..damages {
        let random = &mut runs.trial.random;
        let target = any_target(&files.targets, random);
        for _ in 0..1 + random.below(3) {
            strike_either(&mut files.card, (&opening, OPENING), target, random);
        }
        let (path, index) = target.any_call(random);
        compare_any(runs, &files.card.image, &path, index);
        files.card.image.undo(0);
    }
}

fn expect_cards(name: &'static str, cards: u64, files: Files) {
    const DAMAGES: u64 = 300;
    let mut runs = Runs::new(name);
    for _ in 0..runs.trial.times(cards) {
        let files = files(&mut runs.trial.random);
        run_all(&mut runs, files, DAMAGES);
    }
    let nothing = (2..=14).map(|answer| (answer, false));
    let stood = [0, 3, 9, 10, 11, 13].map(|answer| (answer, true));
    let every: Vec<_> = nothing.chain(stood).collect();
    runs.finish(cards * (16 + DAMAGES), &every);
}

#[test]
fn cards() {
    expect_cards("runs from random cards", 16, random_files);
}

#[test]
fn trees() {
    expect_cards("runs from random trees", 12, random_trees);
}

#[test]
fn large_cards() {
    expect_cards("runs from large random cards", 8, large_random_files);
}

/// Addresses of any kind around a boundary: mostly of blocks, also of one twice, of nodes, of none and outside.
fn any_addresses(random: &mut Random, stretch: &mut Stretch) {
    let areas = stretch.scene.card.image.areas;
    let way = stretch.way(stretch.indexes.end - 1);
    for index in stretch.indexes.clone() {
        let any = areas.main + random.below(u64::from(areas.main_end - areas.main)) as u32;
        let node = pick(random, &way).node.block;
        let address = match random.below(400) {
            0 => pick(random, &[areas.main_end, areas.main - 1, 1]),
            1..20 => pick(random, &[0, u32::MAX]),
            20..40 => node,
            40..100 => any,
            _ => continue,
        };
        stretch
            .scene
            .card
            .set_address(stretch.scene.ino, index, address);
    }
}

#[test]
fn addresses() {
    const ROUNDS: u64 = 2;
    const RUNS: u64 = 12;
    let mut runs = Runs::new("runs of random addresses");
    for _ in 0..runs.trial.times(ROUNDS) {
        for inline in INLINES {
            let random = &mut runs.trial.random;
            let boundary = pick(random, &boundaries(addresses_by(inline)));
            let indexes = boundary - 400..boundary + 400;
            let mut stretch = Stretch::longest(random, inline, indexes.clone());
            any_addresses(random, &mut stretch);
            for _ in 0..RUNS {
                let random = &mut runs.trial.random;
                let index = indexes.start + random.below(800) as u32;
                let blocks = between(random, 1, 512);
                runs.compare(&stretch.call(index, blocks));
            }
        }
    }
    runs.finish(ROUNDS * 2 * RUNS, &[(0, true), (13, true)]);
}

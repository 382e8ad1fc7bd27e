//! Compare on random cards, of which either is damaged, or both with the same.

use harptimber_tests::calls::compares::{Compares, Kept};
use harptimber_tests::cards::damage::Damage;
use harptimber_tests::cards::image::Image;
use harptimber_tests::cards::random::pick;
use harptimber_tests::cards::random_files::{
    large_random_files, random_files, RandomFiles, Target,
};
use harptimber_tests::cards::random_trees::random_trees;
use harptimber_tests::cards::walk_damage::strike_either;
use harptimber_tests::trial::Random;

/// One in so many damages is to what a card is opened by.
const OPENING: u64 = 8;

/// Two cards that are the same until they are damaged. The one in the files is struck.
struct Twins {
    files: RandomFiles,
    other: Image,
    opening: Damage,
}

impl Twins {
    fn new(files: RandomFiles) -> Twins {
        Twins {
            other: files.card.image.clone(),
            opening: Damage::of(&files.card.image),
            files,
        }
    }

    fn swap(&mut self) {
        std::mem::swap(&mut self.files.card.image, &mut self.other);
    }

    /// Damages of this seed, on the way to a target or in what the card is opened by.
    fn strike(&mut self, target: usize, strikes: u64, seed: u64) {
        let random = &mut Random::new(seed);
        let RandomFiles { card, targets } = &mut self.files;
        for _ in 0..strikes {
            strike_either(card, (&self.opening, OPENING), &targets[target], random);
        }
    }

    /// The same damage to both, mostly none, and then another to each.
    fn damage(&mut self, target: usize, random: &mut Random) {
        let strikes = pick(random, &[0, 0, 1]);
        let seed = random.number();
        for _ in 0..2 {
            self.strike(target, strikes, seed);
            let own = pick(random, &[0, 0, 1, 2]);
            self.strike(target, own, random.number());
            self.swap();
        }
    }

    fn undo(&mut self) {
        self.files.card.image.undo(0);
        self.other.undo(0);
    }
}

fn expect_damaged(name: &'static str, cards: u64, files: fn(&mut Random) -> RandomFiles) {
    const DAMAGES: u64 = 400;
    let mut compares = Compares::new(name);
    for _ in 0..compares.trial.times(cards) {
        let mut twins = Twins::new(files(&mut compares.trial.random));
        for _ in 0..DAMAGES {
            let random = &mut compares.trial.random;
            let struck = random.below(twins.files.targets.len() as u64) as usize;
            let pulled = random.below(twins.files.targets.len() as u64) as usize;
            let pulled = pick(random, &[struck, struck, pulled]);
            twins.damage(struck, random);
            let Target { name, index, .. } = &twins.files.targets[pulled];
            let kept = Kept::new(&twins.files.card.image, name, *index);
            compares.compare(&kept, &twins.other);
            twins.undo();
        }
    }
    let refused = (5..9).flat_map(|answer| [(answer, 1, 0), (answer, 2, 0)]);
    let opened = [(15, 0, 0), (16, 0, 2), (16, 0, 3)];
    let every: Vec<_> = refused.chain(opened).collect();
    compares.finish(cards * DAMAGES, &every);
}

#[test]
fn damaged_cards() {
    expect_damaged("compare on random cards, damaged", 24, random_files);
}

#[test]
fn large_damaged_cards() {
    let name = "compare on large random cards, damaged";
    expect_damaged(name, 8, large_random_files);
}

#[test]
fn damaged_trees() {
    expect_damaged("compare on random trees, damaged", 8, random_trees);
}

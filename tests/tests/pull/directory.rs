//! Pull: the hash levels, buckets and blocks of a root directory without a level of its own.

use harptimber_tests::calls::pulls::Pulls;
use harptimber_tests::cards::card::Card;
use harptimber_tests::cards::deep::Deep;
use harptimber_tests::cards::directory::{Dentry, DirLevel, BUCKET_BLOCKS};
use harptimber_tests::cards::layout::inode::INLINE_XATTR;
use harptimber_tests::cards::names::good_name;
use harptimber_tests::cards::one_file::small_knobs;
use harptimber_tests::trial::Random;

/// Some names, each in a directory whose root has many addresses and in one that has few.
fn for_deep(pulls: &mut Pulls, names: u64, test: impl Fn(&mut Pulls, Deep)) {
    for _ in 0..pulls.trial.times(names) {
        for inline in [0, INLINE_XATTR] {
            let random = &mut pulls.trial.random;
            let len = 1 + random.below(30) as usize;
            let name = good_name(random, len);
            let deep = Deep::new(random, DirLevel(0), inline, &name);
            test(pulls, deep);
        }
    }
}

#[test]
fn every_hash_level() {
    let mut pulls = Pulls::new("pull from every hash level");
    for_deep(&mut pulls, 8, |pulls, mut deep| deep.try_every_block(pulls));
    pulls.finish(8 * 2 * 56 * (1 + 3 * 2), &[0, 2]);
}

#[test]
fn every_depth() {
    let mut pulls = Pulls::new("pull of a missing name by depth");
    for_deep(&mut pulls, 4, |pulls, mut deep| deep.try_every_depth(pulls));
    pulls.finish(4 * 2 * 65, &[2, 12]);
}

/// Two entries with the name, in whichever blocks they are.
#[test]
fn first_of_two() {
    let mut pulls = Pulls::new("pull of a name that is there twice");
    for_deep(&mut pulls, 1, |pulls, mut deep| {
        for first in 0..deep.buckets.len() {
            for second in first + 1..deep.buckets.len() {
                deep.try_twice(pulls, [first, second]);
            }
        }
    });
    pulls.finish(2 * 3 * 56 * 55 / 2, &[0, 12]);
}

#[test]
fn holes() {
    let mut pulls = Pulls::new("pull with holes in the directory");
    for_deep(&mut pulls, 2, |pulls, mut deep| deep.try_holes(pulls));
    pulls.finish(2 * 2 * 55 * 3, &[0, 2]);
}

#[test]
fn addresses_outside() {
    let mut pulls = Pulls::new("pull with directory blocks outside");
    for_deep(&mut pulls, 2, |pulls, mut deep| {
        let areas = deep.card.image.areas;
        let outside = [areas.main - 1, areas.main_end, u32::MAX - 1, 1];
        deep.try_addresses_outside(pulls, &outside);
    });
    pulls.finish(2 * 2 * 4 * 55 * 2, &[0, 13]);
}

/// An entry in a bucket to which its hash doesn't lead isn't found.
#[test]
fn wrong_buckets() {
    let mut pulls = Pulls::new("pull of names in wrong buckets");
    for level in 1..12 {
        let random = &mut pulls.trial.random;
        let name = good_name(random, 10);
        let mut card = Card::new(small_knobs(random), Random::new(random.number()));
        card.add_root(0, level + 1);
        let ino = card.add_file(0, 1);
        let dentry = Dentry::new(&name, ino);
        let buckets = 1u32 << level;
        for step in [1, buckets / 2, buckets - 1] {
            for nth in 0..BUCKET_BLOCKS {
                let wrong = dentry.hash.wrapping_add(step);
                let block = card.bucket_block(level, wrong, nth);
                card.image.put_dentry(block, 0, &dentry);
            }
        }
        pulls.expect(&card.image, &name, 0, 2);
        card.link(level, 1, &dentry);
        pulls.expect(&card.image, &name, 0, 1);
    }
    pulls.finish(11 * 2, &[1, 2]);
}

//! Keep files of random cards, sound and damaged, and random files.

use harptimber_tests::calls::compares::Kept;
use harptimber_tests::calls::keep_files::KeepFiles;
use harptimber_tests::calls::keep_parts::Parts;
use harptimber_tests::calls::keeps::Keeps;
use harptimber_tests::calls::pulls::Call;
use harptimber_tests::cards::damage::{altered, Damage};
use harptimber_tests::cards::layout::{Field, BLOCK_SIZE};
use harptimber_tests::cards::random::{between, pick};
use harptimber_tests::cards::random_files::{
    any_target, large_random_files, random_files, RandomFiles,
};
use harptimber_tests::cards::random_trees::random_trees;
use harptimber_tests::cards::walk_damage::strike_either;
use harptimber_tests::trial::Random;

/// One in so many damages is to what a card is opened by.
const OPENING: u64 = 6;

/// Makes a card.
type Files = fn(&mut Random) -> RandomFiles;

/// Each target of a card as it is, and then after damage on the way of some.
fn keep_all(keeps: &mut Keeps, files: RandomFiles, damages: u64) {
    let RandomFiles { mut card, targets } = files;
    for target in &targets {
        keeps.compare(&Call::new(&card.image, &target.name, target.index));
    }
    let opening = Damage::of(&card.image);
    for _ in 0..damages {
        let random = &mut keeps.trial.random;
        let target = any_target(&targets, random);
        for _ in 0..1 + random.below(3) {
            strike_either(&mut card, (&opening, OPENING), target, random);
        }
        let (path, index) = target.any_call(random);
        keeps.compare(&Call::new(&card.image, &path, index));
        card.image.undo(0);
    }
}

fn expect_cards(name: &'static str, cards: u64, files: Files) {
    const DAMAGES: u64 = 150;
    let mut keeps = Keeps::new(name);
    for _ in 0..keeps.trial.times(cards) {
        let files = files(&mut keeps.trial.random);
        keep_all(&mut keeps, files, DAMAGES);
    }
    let every_answer: Vec<u32> = (0..=14).collect();
    keeps.finish(cards * (16 + DAMAGES), &every_answer);
}

#[test]
fn cards() {
    expect_cards("keep from random cards", 16, random_files);
}

#[test]
fn trees() {
    expect_cards("keep from random trees", 16, random_trees);
}

#[test]
fn large_cards() {
    expect_cards("keep from large random cards", 8, large_random_files);
}

/// Gives a number of a file, or a byte of a block, another value.
fn strike(file: &mut [u8], parts: &Parts, random: &mut Random) {
    let places = parts.places();
    let (range, place) = &places[random.below(places.len() as u64) as usize];
    let (at, size) = match place.is_number() {
        true => (range.start, range.len()),
        false if range.is_empty() => return,
        false => (range.start + random.below(range.len() as u64) as usize, 1),
    };
    let field = Field {
        name: "part of a file",
        at,
        size,
    };
    let mut old = [0; 8];
    old[..size].copy_from_slice(&file[at..at + size]);
    let likely = parts.bounds.map(u64::from);
    let likely = [&likely[..], &[9, 4140, 16, 4100, file.len() as u64]].concat();
    let new = altered(random, u64::from_le_bytes(old), field, &likely);
    file[at..at + size].copy_from_slice(&new.to_le_bytes()[..size]);
}

/// The same of its parts, which are laid out anew, so that the header fits them.
fn strike_parts(parts: &mut Parts, random: &mut Random) {
    let any = random.number() as u32;
    let small = random.below(10) as u32;
    let nodes = parts.nodes.len() as u64;
    let blocks = parts.blocks.len() as u64;
    match random.below(7) {
        0 => parts.path.truncate(random.below(20) as usize),
        1 => parts.pull[random.below(3) as usize] = pick(random, &[any, small]),
        2 => parts.bounds[random.below(2) as usize] = pick(random, &[any, 0, u32::MAX]),
        3 if nodes > 0 => _ = parts.nodes.remove(random.below(nodes) as usize),
        4 if nodes > 0 => {
            let node = &mut parts.nodes[random.below(nodes) as usize];
            node[random.below(4) as usize] = pick(random, &[any, small, 0, 9]);
        }
        5 if blocks > 0 => _ = parts.blocks.remove(random.below(blocks) as usize),
        6 if blocks > 0 => {
            let (number, bytes) = &mut parts.blocks[random.below(blocks) as usize];
            let [start, end] = parts.bounds;
            *number = pick(random, &[*number, start, end, number.wrapping_add(1)]);
            bytes[random.below(BLOCK_SIZE as u64) as usize] ^= small as u8;
        }
        _ => {
            let answer = pick(random, &[0, 9, any]);
            parts.nodes.push([u32::MAX, answer, 0, 0]);
        }
    }
}

/// Files of random cards, damaged, with the card as it is and damaged too.
#[test]
fn damaged_files() {
    const CARDS: u64 = 20;
    const DAMAGES: u64 = 200;
    let mut files = KeepFiles::new("keep files, damaged");
    for nth in 0..files.trial.times(CARDS) {
        let made: [Files; 2] = [random_files, random_trees];
        let RandomFiles { mut card, targets } = made[nth as usize % 2](&mut files.trial.random);
        let sound = card.image.clone();
        let opening = Damage::of(&sound);
        for _ in 0..DAMAGES {
            let random = &mut files.trial.random;
            let target = any_target(&targets, random);
            let kept = Kept::new(&sound, &target.name, target.index);
            let mut parts = Parts::of_pull(&kept.call, &kept.outcome);
            for _ in 0..random.below(3) {
                strike_parts(&mut parts, random);
            }
            let mut file = parts.laid_out();
            for _ in 0..random.below(2) {
                strike(&mut file, &parts, random);
            }
            for _ in 0..random.below(2) {
                strike_either(&mut card, (&opening, OPENING), target, random);
            }
            files.compare((&target.name, &card.image), &file, card.image.bytes());
            card.image.undo(0);
        }
    }
    let opened = [(15, 0, 0), (16, 0, 1), (16, 0, 2), (16, 0, 3), (18, 0, 0)];
    let every = [&opened[..], &[(5, 2, 0), (7, 2, 0), (8, 2, 0)]].concat();
    files.finish(CARDS * DAMAGES, &every);
}

/// Up to so many numbers, from behind this one on, that mostly rise.
fn any_numbers(random: &mut Random, behind: u32, most: u32) -> Vec<u32> {
    let mut next = behind;
    let count = between(random, 0, most);
    let step = |_| {
        next = next.wrapping_add(pick(random, &[1, 1, 1, 2, 100, 0]));
        next
    };
    (0..count).map(step).collect()
}

/// A number with a table answer, mostly.
fn any_node(random: &mut Random, nid: u32) -> [u32; 4] {
    let [inode, address] = [0, 1].map(|_| random.number() as u32);
    let in_use = [nid, 0, inode, address];
    let other = [nid, random.below(12) as u32, 0, 0];
    pick(random, &[in_use, in_use, in_use, [nid, 9, 0, 0], other])
}

/// Parts of no pull. The bounds are these, or others.
fn any_parts(random: &mut Random, [main, end]: [u32; 2]) -> Parts {
    let bounds = pick(
        random,
        &[[main, end], [main, end], [0, main], [main, 1 << 31]],
    );
    let path_len = random.below(40) as usize;
    let pull = [0, 1, 2].map(|_| random.number() as u32);
    let nodes = any_numbers(random, 2, 6).into_iter();
    let nodes = nodes.map(|nid| any_node(random, nid)).collect();
    let blocks = any_numbers(random, main - 1, 4).into_iter();
    let blocks = blocks.map(|block| (block, vec![7; BLOCK_SIZE]));
    Parts {
        path: random.bytes(path_len),
        pull,
        block: random.bytes(BLOCK_SIZE),
        bounds,
        nodes,
        blocks: blocks.collect(),
    }
}

/// Files that nothing wrote.
#[test]
fn any_files() {
    const ROUNDS: u64 = 3_000;
    let mut files = KeepFiles::new("keep files that nothing wrote");
    let image = random_files(&mut files.trial.random).card.image;
    let bounds = [image.areas.main, image.areas.main_end];
    for _ in 0..files.trial.times(ROUNDS) {
        let parts = any_parts(&mut files.trial.random, bounds);
        files.compare(&parts.nodes, &parts.laid_out(), image.bytes());
    }
    files.finish(ROUNDS, &[(16, 0, 1), (16, 0, 2), (18, 0, 0)]);
}

/// Bytes of any length, some of them with small counts.
#[test]
fn any_bytes() {
    const ROUNDS: u64 = 20_000;
    let mut files = KeepFiles::new("any bytes as keep files");
    let image = random_files(&mut files.trial.random).card.image;
    for _ in 0..files.trial.times(ROUNDS) {
        let random = &mut files.trial.random;
        let most = pick(random, &[30, 300, 10_000]);
        let len = random.below(most) as usize;
        let mut file = random.bytes(len);
        let bytes_of_number = pick(random, &[1, 2, 4]);
        let header = file.chunks_exact_mut(4).take(6);
        header.for_each(|number| number[bytes_of_number..].fill(0));
        files.compare((), &file, image.bytes());
    }
    files.finish(ROUNDS, &[(18, 0, 0)]);
}

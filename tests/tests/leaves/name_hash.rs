//! Name hash against the reference, on well over 100,000 names.

use harptimber_tests::cards::names::good_name;
use harptimber_tests::trial::Trial;
use harptimber_tests::Hashed;

const LONGEST: u64 = 300;

fn compare(trial: &mut Trial, name: &[u8]) {
    let expected = match reference::hash::name_hash(name) {
        Some(hash) => Hashed { answer: 0, hash },
        None => Hashed { answer: 4, hash: 0 },
    };
    trial.compare(name, harptimber_tests::name_hash(name), expected);
}

#[test]
fn every_length_with_every_bad_byte() {
    let mut trial = Trial::new("name hash by length and bad byte");
    for len in (0..=LONGEST as usize)
        .cycle()
        .take(trial.times(4 * (LONGEST + 1)) as usize)
    {
        let good = good_name(&mut trial.random, len);
        compare(&mut trial, &good);
        for bad in [0, b'/'] {
            for place in [0, len / 2, len.saturating_sub(1)] {
                let mut name = good.clone();
                if let Some(byte) = name.get_mut(place) {
                    *byte = bad;
                }
                compare(&mut trial, &name);
            }
        }
    }
    trial.finish(4 * 7 * (LONGEST + 1));
}

#[test]
fn every_name_of_one_or_two_bytes() {
    let mut trial = Trial::new("name hash of one and two bytes");
    for first in 0..=255 {
        compare(&mut trial, &[first]);
        for second in 0..=255 {
            compare(&mut trial, &[first, second]);
        }
    }
    trial.finish(256 + 256 * 256);
}

/// Dots and the bytes beside them, among them the slash: only "." and ".." are special.
#[test]
fn dots_and_neighbours() {
    let mut trial = Trial::new("name hash of dots and neighbours");
    let alphabet = [0, b'-', b'.', b'/', b'0', 0xAE];
    let mut names = vec![Vec::new()];
    for _ in 0..4 {
        let longer = |name: &Vec<u8>| alphabet.map(|byte| [name.as_slice(), &[byte]].concat());
        names = names.iter().flat_map(longer).collect();
        for name in &names {
            compare(&mut trial, name);
        }
    }
    trial.finish(6 + 36 + 216 + 1296);
}

#[test]
fn random_bytes() {
    let mut trial = Trial::new("name hash of random bytes");
    for _ in 0..trial.times(20_000) {
        let len = trial.random.below(LONGEST + 1) as usize;
        let name = trial.random.bytes(len);
        compare(&mut trial, &name);
    }
    trial.finish(20_000);
}

#[test]
fn random_names() {
    let mut trial = Trial::new("name hash of random names");
    for _ in 0..trial.times(40_000) {
        let len = 1 + trial.random.below(255) as usize;
        let name = good_name(&mut trial.random, len);
        compare(&mut trial, &name);
    }
    trial.finish(40_000);
}

/// Bytes from 80 hex: a hash that takes bytes as signed gets these wrong.
#[test]
fn high_bytes() {
    let mut trial = Trial::new("name hash of high bytes");
    for _ in 0..trial.times(20_000) {
        let len = 1 + trial.random.below(255) as usize;
        let mut name = trial.random.bytes(len);
        name.iter_mut().for_each(|byte| *byte |= 0x80);
        compare(&mut trial, &name);
    }
    trial.finish(20_000);
}

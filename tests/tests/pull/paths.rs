//! Pull: the shape of a path, and the rooms that its names ask for.

use harptimber_tests::calls::lent::{Lens, NUMBER_SIZE};
use harptimber_tests::calls::pulls::{Call, Pulls};
use harptimber_tests::cards::card::Card;
use harptimber_tests::cards::directory::{Dentry, DirLevel};
use harptimber_tests::cards::folders::Folders;
use harptimber_tests::cards::image::Image;
use harptimber_tests::cards::layout::superblock::MAGIC;
use harptimber_tests::cards::names::good_name;
use harptimber_tests::cards::one_file::small_knobs;
use harptimber_tests::cards::random::pick;
use harptimber_tests::sizes::NAMES_MOST;
use harptimber_tests::trial::Random;

const EIGHT: usize = NAMES_MOST as usize;

/// So much room is enough for any path, also for one that has too many names.
const AMPLE: u32 = 40;

/// Expects an answer whatever the names ask for.
fn expect(pulls: &mut Pulls, image: &Image, path: &[u8], answer: u32) {
    let call = Call::new(image, path, 0);
    pulls.expect_with(Lens::of(AMPLE), &call, answer);
}

/// A folder that has itself as `a`, the root as `b`, a file as `f`, itself as `.` and the root as `..`.
struct Round {
    image: Image,
}

impl Round {
    fn new(random: &mut Random) -> Round {
        let mut card = Card::new(small_knobs(random), Random::new(random.number()));
        card.add_root(0, 1);
        let root = card.folder;
        let folder = card.add_folder(DirLevel(0), pick(random, &[0, 4]), 1);
        let file = card.add_file(0, 1);
        card.add_block(file, 0);
        for (name, ino) in [("a", folder), ("b", root), ("f", file)] {
            for at in [root, folder] {
                card.enter(at);
                card.link(0, 0, &Dentry::new(name.as_bytes(), ino));
            }
        }
        for (name, ino) in [(".", folder), ("..", root)] {
            card.link(0, 0, &Dentry::new(name.as_bytes(), ino));
        }
        card.image.settle("a folder in itself");
        Round { image: card.image }
    }

    /// What a path answers: worked out by letters, without the names' hashes or places.
    fn answer(path: &[u8]) -> u32 {
        let names: Vec<&[u8]> = path.split(|&byte| byte == b'/').collect();
        let is_name = |name: &&[u8]| !name.is_empty() && !name.contains(&0);
        if names.len() > EIGHT || !names.iter().all(is_name) {
            return 4;
        }
        let mut at = 'r';
        for name in names {
            at = match (at, name) {
                ('f', _) => return 12,
                (_, b"a") | ('a', b".") => 'a',
                (_, b"b") | ('a', b"..") => 'r',
                (_, b"f") => 'f',
                _ => return 2,
            };
        }
        if at == 'f' {
            0
        } else {
            12
        }
    }
}

#[test]
fn one_to_nine_names() {
    let mut pulls = Pulls::new("pull by how many names");
    let Round { image } = Round::new(&mut pulls.trial.random);
    for names in 1..=20 {
        let path = [vec!["a"; names - 1], vec!["f"]].concat().join("/");
        let answer = if names <= EIGHT { 0 } else { 4 };
        assert_eq!(Round::answer(path.as_bytes()), answer);
        expect(&mut pulls, &image, path.as_bytes(), answer);
        pulls.expect(&image, path.as_bytes(), 0, answer);
    }
    for names in [100, 256, 257, 1000, 65_536, 65_537] {
        let path = [vec!["a"; names - 1], vec!["f"]].concat().join("/");
        expect(&mut pulls, &image, path.as_bytes(), 4);
    }
    pulls.finish(2 * 20 + 6, &[0, 4]);
}

/// At the front, at the end, and after each of the names; and nothing else than slashes. Also on a card that doesn't
/// open: the call's shape comes first.
#[test]
fn slashes() {
    let mut pulls = Pulls::new("pull by the slashes of a path");
    let Round { mut image } = Round::new(&mut pulls.trial.random);
    for (opened, found) in [(true, 0), (false, 5)] {
        for names in 1..=EIGHT {
            let path = [vec!["a"; names - 1], vec!["f"]].concat().join("/");
            let path = path.as_bytes();
            expect(&mut pulls, &image, path, found);
            for at in (0..=path.len()).filter(|at| *at % 2 == 1 || *at == 0) {
                for more in 1..=3 {
                    let slashes = vec![b'/'; more];
                    let path = [&path[..at], &slashes, &path[at..]].concat();
                    expect(&mut pulls, &image, &path, 4);
                }
            }
            expect(&mut pulls, &image, &[b"/", path, b"/"].concat(), 4);
            expect(&mut pulls, &image, &vec![b'/'; names], 4);
        }
        if opened {
            for copy in [0, 1] {
                image.set(copy, MAGIC, 0);
            }
        }
    }
    pulls.finish(2 * (8 * 3 + 3 * 44), &[0, 4, 5]);
}

/// Eight names of 255 bytes, which with their slashes are 2,047; then one of them has a byte more, or less.
#[test]
fn longest_paths() {
    let mut pulls = Pulls::new("pull of the longest paths");
    let folders = Folders::of_len(&mut pulls.trial.random, EIGHT, 255);
    let (image, path) = (&folders.card.image, folders.path());
    assert_eq!(path.len(), 2047);
    pulls.expect_data(image, &path, 0, image.block(folders.data));
    for nth in 0..EIGHT {
        let name = &folders.folders[nth].name;
        let longer = folders.path_with(nth, &[name.as_slice(), b"x"].concat());
        assert_eq!(longer.len(), 2048);
        expect(&mut pulls, image, &longer, 4);
        let shorter = folders.path_with(nth, &name[..254]);
        expect(&mut pulls, image, &shorter, 2);
        let zero = [&name[..nth * 30], b"\0", &name[nth * 30 + 1..]].concat();
        expect(&mut pulls, image, &folders.path_with(nth, &zero), 4);
        // What comes behind has one name less.
        let joined = folders.path_with(nth, &[name.as_slice(), b"xx"].concat());
        expect(&mut pulls, image, &joined, 4);
    }
    for more in [b"x".as_slice(), b"/", b"/x", b"\0"] {
        expect(&mut pulls, image, &[&path, more].concat(), 4);
        expect(&mut pulls, image, &[more, &path].concat(), 4);
    }
    pulls.finish(1 + 8 * 4 + 8, &[0, 2, 4]);
}

/// A zero in any name of a path, and at any place there.
#[test]
fn zeros() {
    let mut pulls = Pulls::new("pull of paths with a zero");
    let Round { image } = Round::new(&mut pulls.trial.random);
    for names in 1..=EIGHT {
        let random = &mut pulls.trial.random;
        let path: Vec<Vec<u8>> = (0..names).map(|_| good_name(random, 3)).collect();
        let path = path.join(&b'/');
        expect(&mut pulls, &image, &path, 2);
        for at in 0..path.len() {
            let zero = [&path[..at], b"\0", &path[at + 1..]].concat();
            expect(&mut pulls, &image, &zero, 4);
            let one_more = [&path[..at], b"\0", &path[at..]].concat();
            expect(&mut pulls, &image, &one_more, 4);
        }
    }
    pulls.finish(8 + 2 * (4 * 36 - 8), &[2, 4]);
}

/// Lengths of a list, each with whether it is enough: just that, one byte or one number short, and for one name less.
fn around(enough: usize, less: usize) -> Vec<(usize, bool)> {
    let short = [enough - 1, enough - NUMBER_SIZE, less, 0].map(|len| (len, false));
    let long = [enough, enough + 1, enough + NUMBER_SIZE, 4 * enough].map(|len| (len, true));
    [short, long].concat()
}

/// A block buffer of another length, and lists with enough room for the names and with less. Where the card doesn't open
/// 4 comes first.
#[test]
fn rooms() {
    let mut pulls = Pulls::new("pull by the rooms for each count of names");
    let Round { mut image } = Round::new(&mut pulls.trial.random);
    for found in [0, 5] {
        for names in 1..=EIGHT {
            let path = [vec!["a"; names - 1], vec!["f"]].concat().join("/");
            let call = Call::new(&image, path.as_bytes(), 0);
            let [less, enough] = [names - 1, names].map(|names| Lens::of(names as u32));
            for block in [0, 4092, 4095, 4097, 8192] {
                pulls.expect_with(Lens { block, ..enough }, &call, 4);
            }
            for (nodes, enough_nodes) in around(enough.nodes, less.nodes) {
                for (blocks, enough_blocks) in around(enough.blocks, less.blocks) {
                    let lens = Lens {
                        nodes,
                        blocks,
                        ..enough
                    };
                    let in_shape = enough_nodes && enough_blocks;
                    pulls.expect_with(lens, &call, if in_shape { found } else { 4 });
                }
            }
        }
        for copy in [0, 1] {
            image.set(copy, MAGIC, 0);
        }
    }
    pulls.finish(2 * 8 * (64 + 5), &[0, 4, 5]);
}

/// Any bytes of slashes, letters, dots and, now and then, a zero.
#[test]
fn random_paths() {
    const PATHS: u64 = 30_000;
    let mut pulls = Pulls::new("pull of random paths");
    let Round { image } = Round::new(&mut pulls.trial.random);
    for _ in 0..pulls.trial.times(PATHS) {
        let random = &mut pulls.trial.random;
        let len = 1 + random.below(20);
        let slashes = pick(random, &[2, 3, 9]);
        let mut path: Vec<u8> = Vec::new();
        for _ in 0..len {
            // Mostly one name and then a slash.
            let after_name = path.last().is_some_and(|last| *last != b'/');
            let slash = random.below(slashes) == 0;
            path.push(match after_name != slash {
                true => b'/',
                false => pick(random, b"aaaabf.."),
            });
        }
        if random.below(30) == 0 {
            let last = path.len() - 1;
            path[last] = 0;
        }
        let answer = Round::answer(&path);
        pulls.expect(&image, &path, 0, answer);
    }
    pulls.finish(PATHS, &[0, 2, 4, 12]);
}

//! Pull: root directories with a level of their own, which makes their hash levels larger.

use reference::hash::raw_hash;
use reference::levels::hash_levels;

use harptimber_tests::calls::pulls::{lists, Call, Pulls};
use harptimber_tests::cards::card::{addresses_by, Card, ROOT};
use harptimber_tests::cards::deep::{all_blocks, Deep};
use harptimber_tests::cards::directory::{Dentry, DirLevel, BUCKET_BLOCKS, MOST_DEPTH};
use harptimber_tests::cards::layout::inode::{INLINE_XATTR, I_CURRENT_DEPTH, I_DIR_LEVEL};
use harptimber_tests::cards::layout::{slots, BLOCK_SIZE};
use harptimber_tests::cards::names::{name_with, LAST_NAMES};
use harptimber_tests::cards::one_file::small_knobs;
use harptimber_tests::cards::tree::last_index;
use harptimber_tests::trial::Random;

/// Blocks in which a name is sought at most, by level: 2 x (29 - level) up to 22, then 2 x (30 - level), and 2 at 30.
const IN_REACH: [usize; 31] = [
    58, 56, 54, 52, 50, 48, 46, 44, 42, 40, 38, 36, 34, 32, 30, 28, 26, 24, 22, 20, 18, 16, 14, 14,
    12, 10, 8, 6, 4, 2, 2,
];
/// All of them, and with many and with few addresses.
const BLOCKS: u64 = 2 * 886;
const DIRECTORIES: u64 = 2 * 31;

/// Many addresses in the root's inode, and few.
const INLINES: [u64; 2] = [0, INLINE_XATTR];

/// A directory of each level, and a name that leads to a whole bucket in each hash level in reach.
fn for_levels(pulls: &mut Pulls, test: impl Fn(&mut Pulls, Deep)) {
    for dir_level in DirLevel::all() {
        for inline in INLINES {
            let deep = Deep::reaching(&mut pulls.trial.random, dir_level, inline);
            let blocks = IN_REACH[dir_level.0 as usize];
            assert_eq!(deep.buckets.len(), blocks, "blocks of {dir_level:?}");
            test(pulls, deep);
        }
    }
}

#[test]
fn every_hash_level() {
    let mut pulls = Pulls::new("pull from every hash level of every directory level");
    for_levels(&mut pulls, |pulls, mut deep| deep.try_every_block(pulls));
    pulls.finish(BLOCKS * (1 + 3 * 2), &[0, 2]);
}

#[test]
fn every_depth() {
    let mut pulls = Pulls::new("pull of a missing name by directory level and depth");
    for_levels(&mut pulls, |pulls, mut deep| deep.try_every_depth(pulls));
    pulls.finish(DIRECTORIES * 65, &[2, 12]);
}

/// The name in a block and in the next one, or in the last.
#[test]
fn first_of_two() {
    let mut pulls = Pulls::new("pull of a name that is there twice, by directory level");
    for_levels(&mut pulls, |pulls, mut deep| {
        let last = deep.buckets.len() - 1;
        for first in 0..last {
            deep.try_twice(pulls, [first, first + 1]);
            deep.try_twice(pulls, [first, last]);
        }
    });
    pulls.finish((BLOCKS - DIRECTORIES) * 2 * 3, &[0, 12]);
}

#[test]
fn holes() {
    let mut pulls = Pulls::new("pull with holes in the directory, by its level");
    for_levels(&mut pulls, |pulls, mut deep| deep.try_holes(pulls));
    pulls.finish((BLOCKS - DIRECTORIES) * 3, &[0, 2]);
}

#[test]
fn addresses_outside() {
    let mut pulls = Pulls::new("pull with directory blocks outside, by the directory's level");
    for_levels(&mut pulls, |pulls, mut deep| {
        let outside = deep.card.image.areas.main_end;
        deep.try_addresses_outside(pulls, &[outside]);
    });
    pulls.finish(BLOCKS - DIRECTORIES, &[0, 13]);
}

#[test]
fn malformed_slots() {
    let mut pulls = Pulls::new("pull with malformed slots, by directory level");
    for_levels(&mut pulls, |pulls, mut deep| deep.try_malformed(pulls));
    pulls.finish(BLOCKS + 2 * (BLOCKS - DIRECTORIES), &[0, 14]);
}

/// A search through all blocks in reach. A listed node is also a listed block, so what there are more of blocks are
/// those of the directory.
#[test]
fn blocks_in_reach() {
    let mut pulls = Pulls::new("pull through all blocks in reach");
    for_levels(&mut pulls, |pulls, mut deep| {
        let blocks = deep.buckets.len();
        deep.expect_missing(pulls, blocks);
        deep.link(blocks - 1, deep.ino);
        deep.expect_found(pulls, blocks - 1);
        let level = deep.card.dir_level().0 as usize;
        let call = Call::new(&deep.card.image, &deep.name, 0);
        let (nodes, blocks) = lists(&call);
        let more = blocks.len() - nodes.len();
        // Those and the file's own.
        pulls
            .trial
            .compare(("blocks of level", level), more, IN_REACH[level] + 1);
    });
    pulls.finish(DIRECTORIES * 4, &[0, 2]);
}

/// "." has hash 0, so that it leads to the first bucket of every hash level: all first blocks in reach are listed, and a
/// hash level out of reach that started too early would be, too.
#[test]
fn first_buckets() {
    let mut pulls = Pulls::new("pull from the first bucket of every hash level");
    for dir_level in DirLevel::all() {
        for inline in INLINES {
            let random = &mut pulls.trial.random;
            let mut deep = Deep::new(random, dir_level, inline, b".");
            let blocks = deep.buckets.len();
            assert_eq!(blocks, IN_REACH[dir_level.0 as usize], "{dir_level:?}");
            deep.expect_missing(&mut pulls, blocks);
            for bucket in 0..blocks {
                deep.link(bucket, deep.ino);
                deep.expect_found(&mut pulls, bucket);
                deep.card.image.undo(0);
            }
        }
    }
    pulls.finish(DIRECTORIES + 2 * BLOCKS, &[0, 2]);
}

/// The name's hash is 4AF528E4 hex.
const BY_HAND: &[u8] = b"mu.bin";

/// First blocks of its buckets, worked out by hand. Level 3, for one, has 8, 16, 32 and so on buckets from 0, 16, 48,
/// 112, 240 and 496 on, of which the name takes numbers 4, 4, 4, 24 hex, 64 hex and E4 hex.
const FIRST_BLOCKS: [(u32, &[u32]); 9] = [
    (0, &[0, 2, 6, 22, 38, 70, 198, 454, 966]),
    (1, &[0, 4, 20, 36, 68, 196, 452, 964, 1476, 2500]),
    (3, &[8, 24, 56, 184, 440, 952]),
    (8, &[456, 968, 1992, 4040, 12_232]),
    (16, &[20_936, 283_080, 545_224, 1_593_800, 2_642_376]),
    (22, &[6_967_752, 23_744_968, 57_299_400, 90_853_832]),
    (27, &[99_242_440, 636_113_352]),
    (28, &[367_677_896, 904_548_808]),
    (30, &[367_677_896]),
];

#[test]
fn blocks_by_hand() {
    let mut pulls = Pulls::new("pull from blocks by hand");
    assert_eq!(raw_hash(BY_HAND), 0x4AF5_28E4);
    for (level, firsts) in FIRST_BLOCKS {
        for inline in INLINES {
            let both = |(n, &first): (usize, &u32)| [first, first + 1].map(|at| (n as u32, at));
            let blocks: Vec<_> = firsts.iter().enumerate().flat_map(both).collect();
            let random = &mut pulls.trial.random;
            let mut deep = Deep::with(random, DirLevel(level), inline, BY_HAND, &blocks);
            deep.set_depth(firsts.len() as u32);
            deep.card.image.settle("just as deep");
            for bucket in 0..blocks.len() {
                deep.link(bucket, deep.ino);
                deep.expect_found(&mut pulls, bucket);
                deep.card.image.undo(0);
            }
            deep.expect_missing(&mut pulls, blocks.len());
        }
    }
    pulls.finish(2 * (9 + 2 * 2 * 44), &[0, 2]);
}

#[test]
fn last_buckets() {
    let mut pulls = Pulls::new("pull around the directory's last index, by its level");
    for (dir_level, names) in DirLevel::all().zip(LAST_NAMES) {
        let whole = IN_REACH[dir_level.0 as usize];
        for (inline, names) in INLINES.into_iter().zip(names.chunks(2)) {
            let last = last_index(addresses_by(inline));
            for (past, name) in names.iter().enumerate() {
                let hash = raw_hash(name.as_bytes());
                let first = dir_level.index(dir_level.in_reach() - 1, hash, 0);
                let farther = u64::from(BUCKET_BLOCKS) * past as u64;
                assert_eq!(first, u64::from(last) + farther, "{name} {dir_level:?}");
                let random = &mut pulls.trial.random;
                let deep = Deep::new(random, dir_level, inline, name.as_bytes());
                assert_eq!(deep.buckets.len(), whole - 1 - past, "blocks for {name}");
                expect_last(&mut pulls, deep);
            }
        }
    }
    pulls.finish(4 * 31 + 4 * 2 * 29, &[0, 2]);
}

/// Any names whose buckets in the last hash level in reach are past the last index.
#[test]
fn past_the_last_index() {
    let mut pulls = Pulls::new("pull past the directory's last index, by its level");
    for dir_level in DirLevel::all() {
        for inline in INLINES {
            let last = u64::from(last_index(addresses_by(inline)));
            let farthest = dir_level.in_reach() - 1;
            let random = &mut pulls.trial.random;
            let name = name_with(random, 9, |hash| dir_level.index(farthest, hash, 0) > last);
            let deep = Deep::new(random, dir_level, inline, &name);
            let blocks = IN_REACH[dir_level.0 as usize] - 2;
            assert_eq!(deep.buckets.len(), blocks, "blocks of {dir_level:?}");
            expect_last(&mut pulls, deep);
        }
    }
    pulls.finish(DIRECTORIES + 2 * 2 * 29, &[0, 2]);
}

/// The name isn't there, or in the last block in reach. There is none if nothing is in reach.
fn expect_last(pulls: &mut Pulls, mut deep: Deep) {
    let blocks = deep.buckets.len();
    deep.expect_missing(pulls, blocks);
    if blocks > 0 {
        deep.link(blocks - 1, deep.ino);
        deep.expect_found(pulls, blocks - 1);
    }
}

/// Entries where readers would find them that leave out the level, take another one or step aside by a bucket.
#[test]
fn entries_of_other_levels() {
    let mut pulls = Pulls::new("pull beside the entries of other directory levels");
    for_levels(&mut pulls, |pulls, mut deep| {
        let own = deep.card.dir_level();
        let others = [0, own.0.saturating_sub(1), own.0 + 1].map(DirLevel);
        let others = others.into_iter().filter(|&other| other != own);
        let by_others = others.flat_map(|other| all_blocks(other, &deep.name));
        let beside = deep.buckets.iter().flat_map(|bucket| {
            let index = u64::from(bucket.index);
            [index.wrapping_sub(2), index + 2].map(|beside| (bucket.level, beside))
        });
        let astray: Vec<_> = by_others.chain(beside).collect();
        let astray = astray.iter().filter(|(_, index)| deep.link_astray(*index));
        assert!(astray.count() > 1, "entries beside those of {own:?}");
        deep.expect_missing(pulls, deep.buckets.len());
    });
    pulls.finish(DIRECTORIES, &[2]);
}

/// Indexes past the last, cut to 29 to 32 bits, as narrow numbers would be: the entries that are there aren't found.
#[test]
fn indexes_cut_short() {
    let mut pulls = Pulls::new("pull beside the entries of indexes cut short");
    for_levels(&mut pulls, |pulls, mut deep| {
        let own = deep.card.dir_level();
        let past = u64::from(deep.last_index()) + 1;
        let indexes = all_blocks(own, &deep.name).into_iter();
        let indexes = indexes
            .map(|(_, index)| index)
            .filter(|index| *index >= past);
        let cut = indexes.flat_map(|index| {
            let narrow = [29, 30, 31, 32].map(|bits| index % (1 << bits));
            [narrow.to_vec(), vec![index - past, index % past]].concat()
        });
        let cut: Vec<u64> = cut.collect();
        let astray = cut.iter().filter(|&&index| deep.link_astray(index));
        assert!(astray.count() > 10, "entries of indexes cut short");
        deep.expect_missing(pulls, deep.buckets.len());
    });
    pulls.finish(DIRECTORIES, &[2]);
}

/// Level 30 has 2^30 buckets in hash level 0, so that bit 29 of a hash counts and the two above it don't. With bit 29 a
/// bucket is past the last index: a reader with 2^29 buckets would find the entry.
#[test]
fn top_bits_of_a_hash() {
    let mut pulls = Pulls::new("pull by the top bits of a hash");
    for (level, counted) in [(30, 30), (29, 29), (28, 28)] {
        for top in 0..8 {
            for inline in INLINES {
                let random = &mut pulls.trial.random;
                // Low enough to be in reach without the top bits.
                let wanted = |hash: u32| hash >> 29 == top && hash % (1 << 28) < 1 << 27;
                let name = name_with(random, 8, wanted);
                let mut deep = Deep::new(random, DirLevel(level), inline, &name);
                let bucket = u64::from(raw_hash(&name)) % (1 << counted);
                let first = deep.buckets.first().map(|block| u64::from(block.index));
                let in_reach = bucket < 1 << 29;
                assert_eq!(first, in_reach.then_some(2 * bucket), "bits {top}");
                deep.link_astray(2 * (bucket % (1 << 29)));
                deep.link_astray(2 * (bucket % (1 << 28)));
                expect_last(&mut pulls, deep);
            }
        }
    }
    pulls.finish(3 * 8 * 2 + 2 * 2 * (4 + 8 + 8), &[0, 2]);
}

/// The hash level with the most blocks that are mostly in reach, and a name with two blocks there that are in different
/// nodes: these are so wide.
fn across(pulls: &mut Pulls, dir_level: DirLevel, inline: u64, span: u64) -> (Deep, usize) {
    let level = 28u32.saturating_sub(dir_level.0);
    let addresses = addresses_by(inline);
    let last = u64::from(last_index(addresses));
    // The tree below the double indirect node starts behind all others.
    let double = u64::from(addresses) + 2 * slots::PER_NODE + 2 * slots::PER_NODE.pow(2);
    let wanted = |hash| {
        let second = dir_level.index(level, hash, 1);
        (double + 1..=last).contains(&second) && (second - double) % span == 0
    };
    let random = &mut pulls.trial.random;
    let name = name_with(random, 7, wanted);
    let deep = Deep::new(random, dir_level, inline, &name);
    let place = deep.buckets.iter().position(|bucket| bucket.level == level);
    (deep, place.expect("a block of the hash level"))
}

/// The two blocks of a bucket, of which each has its own last node: what is below such a node ends at an even index, as
/// the first blocks of buckets are.
#[test]
fn buckets_across_nodes() {
    let mut pulls = Pulls::new("pull from buckets across nodes");
    for dir_level in DirLevel::all() {
        for inline in INLINES {
            let (mut deep, first) = across(&mut pulls, dir_level, inline, slots::PER_NODE);
            let [one, other] = [first, first + 1].map(|at| deep.buckets[at].way[3].node);
            assert_ne!(one, other, "the nodes of {dir_level:?}");
            for bucket in [first, first + 1] {
                deep.link(bucket, deep.ino);
                deep.expect_found(&mut pulls, bucket);
                deep.card.image.undo(0);
            }
        }
    }
    pulls.finish(DIRECTORIES * 2 * 2, &[0]);
}

/// The most that pulls list with levels 29 and 30: root and double indirect node, twice two nodes for the two blocks of
/// the one bucket, and four for a block of the file; all these and three more blocks.
#[test]
fn most_listed() {
    let mut pulls = Pulls::new("pull with the most nodes of levels 29 and 30");
    for level in [29, 30] {
        for inline in INLINES {
            let width = slots::PER_NODE.pow(2);
            let (mut deep, first) = across(&mut pulls, DirLevel(level), inline, width);
            let addresses = addresses_by(inline);
            let far = last_index(addresses);
            let ino = deep
                .card
                .add_file(inline, (u64::from(far) + 1) * BLOCK_SIZE as u64);
            let data = deep.card.add_block(ino, far);
            deep.link(first + 1, ino);
            let (mut nodes, mut blocks) = deep.lists(first + 2);
            for passage in deep.card.way(ino, far) {
                nodes.push(passage.node.nid);
                blocks.push(passage.node.block);
            }
            blocks.push(data);
            let call = Call::new(&deep.card.image, &deep.name, far);
            pulls.expect_lists(&call, 0, &nodes, &blocks);
            let (nodes, blocks) = lists(&call);
            let counts = (nodes.len(), blocks.len());
            pulls.trial.compare(("level", level), counts, (10, 13));
        }
    }
    pulls.finish(2 * 2 * 2, &[0]);
}

/// A directory with a name in each hash level in reach and nothing else: all other blocks and nodes are holes.
fn sparse(random: &mut Random, dir_level: DirLevel, inline: u64) -> (Card, Vec<(Vec<u8>, u32)>) {
    let mut card = Card::new(small_knobs(random), Random::new(random.number()));
    card.add_root_with(dir_level, inline, MOST_DEPTH);
    let last = u64::from(last_index(addresses_by(inline)));
    let mut names = Vec::new();
    for level in 0..dir_level.in_reach() {
        let ino = card.add_file(inline, 10);
        let data = card.add_block(ino, 0);
        let nth = random.below(u64::from(BUCKET_BLOCKS)) as u32;
        let inside = |hash| dir_level.index(level, hash, nth) <= last;
        let name = name_with(random, 10, inside);
        card.link(level, nth, &Dentry::new(&name, ino));
        names.push((name, data));
    }
    card.image.settle("a name in each hash level");
    (card, names)
}

#[test]
fn a_name_in_each_hash_level() {
    let mut pulls = Pulls::new("pull of a name in each hash level");
    for dir_level in DirLevel::all() {
        for inline in INLINES {
            let (mut card, names) = sparse(&mut pulls.trial.random, dir_level, inline);
            let root = card.inode_block(ROOT);
            for (level, (name, data)) in names.iter().enumerate() {
                let enough = level as u64 + 1;
                for depth in [enough, enough + 1, u64::from(MOST_DEPTH)] {
                    card.image.set(root, I_CURRENT_DEPTH, depth);
                    let bytes = &card.image.block(*data)[..10];
                    pulls.expect_data(&card.image, name, 0, bytes);
                }
                card.image.set(root, I_CURRENT_DEPTH, enough - 1);
                pulls.expect(&card.image, name, 0, 2);
                card.image.undo(0);
                for other in [31, 32, 255] {
                    card.image.set(root, I_DIR_LEVEL, other);
                    let call = Call::new(&card.image, name, 0);
                    pulls.expect_lists(&call, 12, &[ROOT], &[root]);
                    card.image.undo(0);
                }
            }
        }
    }
    pulls.finish(BLOCKS / 2 * 7, &[0, 2, 12]);
}

/// Nothing in reach: the root is all that is listed, however deep the directory is.
#[test]
fn no_block_in_reach() {
    let mut pulls = Pulls::new("pull without a block in reach");
    for (level, inline, name) in [
        (30, 0, b"eejgqqn".as_slice()),
        (30, INLINE_XATTR, b"bcszlka"),
        (30, 0, b"track.bin"),
        (29, 0, b"cbhlnsf"),
        (29, INLINE_XATTR, b"bcszlka"),
    ] {
        let random = &mut pulls.trial.random;
        let mut deep = Deep::new(random, DirLevel(level), inline, name);
        let root = deep.card.inode_block(ROOT);
        for depth in [0, 1, 2, 31, 32, 63] {
            deep.set_depth(depth);
            let call = Call::new(&deep.card.image, name, 0);
            pulls.expect_lists(&call, 2, &[ROOT], &[root]);
        }
    }
    pulls.finish(5 * 6, &[2]);
}

/// The first blocks of all hash levels, as the tests work them out and as the reference adds them up.
#[test]
fn first_blocks() {
    let mut compared = 0;
    for dir_level in DirLevel::all() {
        let levels = hash_levels(dir_level.0 as u8, MOST_DEPTH).expect("a level that is read");
        for (n, level) in levels.iter().enumerate() {
            let n = n as u32;
            assert_eq!(dir_level.start(n), level.start, "{dir_level:?}, {n}");
            assert_eq!(dir_level.buckets(n), level.buckets, "{dir_level:?}, {n}");
            compared += 1;
        }
        for (inline, in_reach) in INLINES.map(|inline| (inline, dir_level.in_reach())) {
            let last = u64::from(last_index(addresses_by(inline)));
            assert!(dir_level.start(in_reach - 1) <= last, "{dir_level:?}");
            assert!(dir_level.start(in_reach) > last, "{dir_level:?}");
        }
    }
    assert_eq!(compared, 31 * 63);
}

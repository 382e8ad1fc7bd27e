//! Node lookup in images that the published tools write: mkfs.f2fs and sload.f2fs, which Debian has
//! in f2fs-tools.

use harptimber_tests::calls::lookups::Lookups;
use harptimber_tests::cards::card::ROOT;
use harptimber_tests::cards::damage::Damage;
use harptimber_tests::cards::image::Image;
use harptimber_tests::cards::layout::nat::{BLOCKS_PER_SEGMENT, ENTRIES_PER_BLOCK};
use harptimber_tests::cards::layout::{checkpoint, footer, superblock};
use harptimber_tests::cards::random::pick;
use harptimber_tests::node_lookup;
use harptimber_tests::sizes::CARD_BLOCKS_MOST;
use harptimber_tests::tools::published::{filled_with, formatted, LARGEST};

/// The first number past the table.
fn numbers_of(image: &Image) -> u32 {
    let segments = image.get(0, superblock::SEGMENT_COUNT_NAT) as u32;
    ENTRIES_PER_BLOCK * BLOCKS_PER_SEGMENT * segments
}

/// Small numbers, those at borders of table blocks, around the end, and random ones. In a long table some of the
/// borders are enough.
fn expect_opened(lookups: &mut Lookups, image: &Image) {
    let past = numbers_of(image);
    let blocks = past / ENTRIES_PER_BLOCK;
    let some = (1..blocks).step_by(1 + blocks as usize / 1500);
    let borders = some.map(|block| block * ENTRIES_PER_BLOCK);
    let mut numbers: Vec<u32> = borders.flat_map(|border| [border - 1, border]).collect();
    numbers.extend((0..2000).chain(past - 2..past + 2).chain([u32::MAX]));
    for _ in 0..lookups.trial.times(500) {
        let random = &mut lookups.trial.random;
        numbers.extend([random.below(u64::from(past)) as u32, random.number() as u32]);
    }
    for number in numbers {
        let in_range = 0 < number && number < past;
        lookups.expect(image, number, if in_range { 0 } else { 9 });
    }
}

/// Where the table leads to a block of the main area, that is the number's node. Returns how many
/// such numbers there are below 2,000.
fn expect_nodes(lookups: &mut Lookups, image: &Image) -> usize {
    let main = image.areas.main..image.areas.main_end;
    let mut nodes = 0;
    for number in 1..2000 {
        let entry = node_lookup(image.bytes(), number);
        if main.contains(&entry.address) {
            nodes += 1;
            let written = [footer::NID, footer::INO].map(|field| image.get(entry.address, field));
            let found = [number, entry.inode].map(u64::from);
            let input = ("footer of number", number, image);
            lookups.trial.compare(input, found, written);
        }
    }
    nodes
}

/// A fresh image has the root directory and nothing else.
fn expect_fresh(name: &'static str, megabytes: usize, options: &str) -> Image {
    let mut lookups = Lookups::new(name);
    let image = formatted(megabytes, options);
    expect_opened(&mut lookups, &image);
    let nodes = expect_nodes(&mut lookups, &image);
    lookups.finish(2 * 511 + 2000 + 5 + 1000 + 1, &[0, 9]);
    assert_eq!(nodes, 1, "nodes of {image:?}");
    let root = node_lookup(image.bytes(), ROOT);
    assert!(root.address >= image.areas.main, "root of {image:?}");
    image
}

#[test]
fn formatted_64_mb() {
    expect_fresh("mkfs 64 MB", 64, "");
}

#[test]
fn formatted_100_mb() {
    let image = expect_fresh("mkfs 100 MB", 100, "");
    // As in the tour's dump of such a volume.
    assert_eq!((image.areas.main, image.areas.main_end), (4096, 25600));
}

/// The largest image that was in shape before larger cards were read.
#[test]
fn formatted_1_gib() {
    let image = expect_fresh("mkfs 1 GiB", 1024, "");
    assert_eq!(image.areas.block_count, 262_144);
}

/// The largest image in shape. With -a the root directory is at its end.
#[test]
fn formatted_16_gib() {
    for options in ["", "-a 1"] {
        let image = expect_fresh("mkfs 16 GiB", LARGEST, options);
        assert_eq!(image.areas.block_count, CARD_BLOCKS_MOST);
        assert_eq!(image.areas.main_end, 4_194_304);
    }
}

#[test]
fn formatted_with_sections_and_zones() {
    expect_fresh("mkfs with larger zones", 64, "-z 2");
    expect_fresh("mkfs with larger sections", 100, "-s 2");
}

/// Numbers in and out of range, of a card that doesn't open.
fn expect_refused(lookups: &mut Lookups, options: &str, answer: u32) {
    let image = formatted(64, options);
    for number in [0, 1, ROOT, numbers_of(&image), u32::MAX] {
        lookups.expect(&image, number, answer);
    }
}

#[test]
fn formatted_with_features() {
    let mut lookups = Lookups::new("mkfs with features");
    let features = [
        "-O extra_attr",
        "-O extra_attr,inode_checksum,sb_checksum",
        "-O encrypt",
        "-O quota",
        "-O lost_found",
        "-g android",
    ];
    for options in features {
        expect_refused(&mut lookups, options, 6);
    }
    lookups.finish(6 * 5, &[6]);
}

/// With -i the checksum isn't at the end of its block, so no pack passes.
#[test]
fn formatted_with_large_nat_map() {
    let mut lookups = Lookups::new("mkfs with a large NAT map");
    expect_refused(&mut lookups, "-i", 7);
    lookups.finish(5, &[7]);
}

/// sload.f2fs leaves two packs with the same version: the first, with plain summaries, is right.
fn expect_filled(name: &'static str, megabytes: usize, options: &str) -> Image {
    const FILES: usize = 600;
    let mut lookups = Lookups::new(name);
    let file = |n: usize| {
        let name = format!("file {n}").into_bytes();
        (name, vec![n as u8; 1 + n * 20])
    };
    let files: Vec<_> = (0..FILES).map(file).collect();
    let image = filled_with(megabytes, options, &files);
    expect_opened(&mut lookups, &image);
    let nodes = expect_nodes(&mut lookups, &image);
    lookups.finish(2 * 511 + 2000 + 5 + 1000 + 601, &[0, 9]);
    // The files, which have their blocks' addresses in the inode, and the root.
    assert_eq!(nodes, FILES + 1, "nodes of {image:?}");
    let packs = [0, 1].map(|which| image.get(image.first_block(which), checkpoint::CHECKPOINT_VER));
    assert_eq!(packs[0], packs[1], "versions that sload.f2fs writes");
    image
}

#[test]
fn filled() {
    expect_filled("sload", 100, "");
}

/// With -a the root directory is at the card's end.
#[test]
fn filled_16_gib() {
    let image = expect_filled("sload, 16 GiB", LARGEST, "-a 1");
    assert!(node_lookup(image.bytes(), ROOT).address > 4_190_000);
}

#[test]
fn damaged() {
    let mut lookups = Lookups::new("mkfs 64 MB, damaged");
    let mut image = formatted(64, "");
    let damage = Damage::of(&image);
    let past = numbers_of(&image);
    for _ in 0..lookups.trial.times(4000) {
        let random = &mut lookups.trial.random;
        damage.strike(&mut image, random);
        let number = pick(random, &[0, 1, 2, ROOT, ROOT, 4, past - 1, past]);
        lookups.compare(&image, number);
        image.undo(0);
    }
    lookups.finish(4000, &[0, 5, 6, 7, 8, 9]);
}

//! Node lookup: every comparison of the superblock's rules, from both sides and in both copies.

use harptimber_tests::calls::lookups::Lookups;
use harptimber_tests::cards::image::Image;
use harptimber_tests::cards::knobs::Knobs;
use harptimber_tests::cards::layout::superblock::*;
use harptimber_tests::cards::layout::{Field, BLOCK_SIZE, SEGMENT_BLOCKS};

/// A number in range of every table here.
const NUMBER: u32 = 3;
/// 512 times this is 2^32, which is 0 in 32 bits.
const WRAPS: u64 = 1 << 23;

/// Changes to a copy, and whether it passes with them.
type Case = (Vec<(Field, u64)>, bool);

/// Where the copy is that a case changes.
#[derive(Clone, Copy)]
enum Setting {
    FirstAlone,
    SecondAlone,
    /// Beside a second copy with a feature: answer 6 shows that the first didn't pass.
    FirstOfTwo,
}

impl Setting {
    const ALONE: &[Setting] = &[Setting::FirstAlone, Setting::SecondAlone];
    const ALL: &[Setting] = &[
        Setting::FirstAlone,
        Setting::SecondAlone,
        Setting::FirstOfTwo,
    ];

    fn image(self, knobs: &Knobs) -> Image {
        let copies = match self {
            Setting::FirstAlone => [true, false],
            Setting::SecondAlone => [false, true],
            Setting::FirstOfTwo => [true, true],
        };
        let mut image = Image::new(&Knobs {
            copies,
            ..knobs.clone()
        });
        if let Setting::FirstOfTwo = self {
            image.set(1, FEATURE, 1);
        }
        image
    }

    fn copy(self) -> u32 {
        matches!(self, Setting::SecondAlone).into()
    }

    /// The answer if the changed copy doesn't pass.
    fn refusal(self) -> u32 {
        match self {
            Setting::FirstOfTwo => 6,
            _ => 5,
        }
    }
}

fn run(lookups: &mut Lookups, knobs: &Knobs, cases: &[Case]) {
    run_in(Setting::ALL, lookups, knobs, cases);
}

/// Runs a copy as it is built, which the other copy would be, too.
fn run_unchanged(lookups: &mut Lookups, knobs: &Knobs, passes: bool) {
    run_in(Setting::ALONE, lookups, knobs, &[(Vec::new(), passes)]);
}

fn run_in(settings: &[Setting], lookups: &mut Lookups, knobs: &Knobs, cases: &[Case]) {
    for setting in settings {
        let mut image = setting.image(knobs);
        let mark = image.mark();
        for (changes, passes) in cases {
            for &(field, value) in changes {
                image.set(setting.copy(), field, value);
            }
            let answer = if *passes { 0 } else { setting.refusal() };
            lookups.expect(&image, NUMBER, answer);
            image.undo(mark);
        }
    }
}

/// What the copy has, by the knobs.
fn built(knobs: &Knobs, field: Field) -> u64 {
    let fields = knobs.superblock_fields();
    fields.iter().find(|built| built.0 == field).unwrap().1
}

/// A field with another value beside what was built: `by` is added, in as many bits as it has.
fn moved(knobs: &Knobs, field: Field, by: i64) -> (Field, u64) {
    let value = built(knobs, field).wrapping_add_signed(by);
    (field, value & field.greatest())
}

#[test]
fn single_numbers() {
    let mut lookups = Lookups::new("node lookup by superblock numbers");
    const MOST: u64 = u32::MAX as u64;
    const TOP: u64 = 1 << 31;
    let rules: [(Field, &[u64], &[u64]); 8] = [
        (MAGIC, &[0xF2F5_2010], &[0, 0x1020_F5F2, 0xF2F5_2011, MOST]),
        (LOG_BLOCKSIZE, &[12], &[0, 11, 13, 12 + 256, 12 + TOP, MOST]),
        (
            LOG_BLOCKS_PER_SEG,
            &[9],
            &[0, 8, 10, 9 + 256, 9 + TOP, MOST],
        ),
        (SEGS_PER_SEC, &[1, 2, 256, TOP, MOST], &[0]),
        (SECS_PER_ZONE, &[1, 2, 256, TOP, MOST], &[0]),
        (ROOT_INO, &[3], &[0, 1, 2, 4, 3 + 256, 3 + TOP, MOST]),
        (NODE_INO, &[1], &[0, 2, 3, 1 + 256, 1 + TOP, MOST]),
        (META_INO, &[2], &[0, 1, 3, 2 + 256, 2 + TOP, MOST]),
    ];
    for (field, passing, failing) in rules {
        let case = |value: &u64, passes| (vec![(field, *value)], passes);
        let passing = passing.iter().map(|value| case(value, true));
        let failing = failing.iter().map(|value| case(value, false));
        let cases: Vec<Case> = passing.chain(failing).collect();
        run(&mut lookups, &Knobs::roomy(), &cases);
    }
    lookups.finish(3 * 53, &[0, 5, 6]);
}

#[test]
fn every_bit_of_the_mark() {
    let mut lookups = Lookups::new("node lookup by the superblock's mark");
    let flipped = |bit| (vec![(MAGIC, F2FS_SUPER_MAGIC ^ (1u64 << bit))], false);
    let cases: Vec<Case> = (0..32).map(flipped).collect();
    run(&mut lookups, &Knobs::roomy(), &cases);
    lookups.finish(3 * 32, &[5, 6]);
}

/// Sector logs from 9 to 12, and a sum of 12.
#[test]
fn sector_logs() {
    let mut lookups = Lookups::new("node lookup by sector logs");
    let logs = |sector: u64, per_block: u64, passes| {
        let changes = [(LOG_SECTORSIZE, sector), (LOG_SECTORS_PER_BLOCK, per_block)];
        (changes.to_vec(), passes)
    };
    let good = [(9, 3), (10, 2), (11, 1), (12, 0)];
    let mut cases = Vec::new();
    for sector in 0..=16 {
        for per_block in 0..=16 {
            let passes = good.contains(&(sector, per_block));
            cases.push(logs(sector, per_block, passes));
        }
    }
    // Their sums are 12 in 32 bits or in 8.
    let wrapped = [(13, u64::from(u32::MAX)), (14, (1 << 32) - 2), (9, 3 + 256)];
    for (sector, per_block) in wrapped {
        cases.push(logs(sector, per_block, false));
        cases.push(logs(per_block, sector, false));
    }
    run(&mut lookups, &Knobs::roomy(), &cases);
    lookups.finish(3 * (17 * 17 + 6), &[0, 5, 6]);
}

/// Counts with all areas in their places: only the rule on the count can refuse them.
#[test]
fn segment_counts() {
    let mut lookups = Lookups::new("node lookup by segment counts");
    type Knob = fn(&mut Knobs) -> &mut u32;
    let rules: [(Knob, &[u32], &[u32]); 5] = [
        (|knobs| &mut knobs.ckpt_segments, &[2], &[0, 1, 3, 4]),
        (
            |knobs| &mut knobs.sit_segments,
            &[2, 4, 6, 8],
            &[0, 1, 3, 5, 7],
        ),
        (
            |knobs| &mut knobs.nat_segments,
            &[2, 4, 6, 8],
            &[0, 1, 3, 5, 7],
        ),
        (|knobs| &mut knobs.ssa_segments, &[0, 1, 2, 3], &[]),
        (|knobs| &mut knobs.main_segments, &[0, 1, 2, 3], &[]),
    ];
    for (knob, passing, failing) in rules {
        for count in passing.iter().chain(failing) {
            let mut knobs = Knobs::roomy();
            *knob(&mut knobs) = *count;
            run_unchanged(&mut lookups, &knobs, passing.contains(count));
        }
    }
    lookups.finish(2 * 31, &[0, 5]);
}

/// Below 2 the packs lie over a copy, which their checksums allow.
#[test]
fn start_of_segment_0() {
    let mut lookups = Lookups::new("node lookup by the start of segment 0");
    for segment0 in [0, 1, 2, 3, 4, 511, 512, 513] {
        let knobs = Knobs {
            segment0,
            ..Knobs::sound()
        };
        run_unchanged(&mut lookups, &knobs, segment0 >= 2);
    }
    lookups.finish(2 * 8, &[0, 5]);
}

#[test]
fn starts_of_areas() {
    let mut lookups = Lookups::new("node lookup by starts of areas");
    let knobs = Knobs::roomy();
    let mut cases = Vec::new();
    for by in [-512, -2, -1, 1, 2, 512] {
        for start in STARTS {
            cases.push((vec![moved(&knobs, start, by)], false));
        }
        // All later areas go along, so that only one isn't where the one before ends.
        for first in 1..STARTS.len() {
            let along = STARTS[first..].iter();
            let changes = along.map(|&start| moved(&knobs, start, by)).collect();
            cases.push((changes, false));
        }
    }
    run(&mut lookups, &knobs, &cases);
    lookups.finish(3 * 6 * 11, &[5, 6]);
}

/// Main end ≤ segment end ≤ block count ≤ image blocks, each with equality and one past it.
#[test]
fn ends() {
    let mut lookups = Lookups::new("node lookup by ends");
    run_unchanged(&mut lookups, &Knobs::sound(), true);
    let segment = i64::from(SEGMENT_BLOCKS);
    let knobs = Knobs {
        spare_segments: 1,
        spare_blocks: SEGMENT_BLOCKS,
        spare_image_blocks: 1,
        ..Knobs::sound()
    };
    let by = |field, by, passes| (vec![moved(&knobs, field, by)], passes);
    let cases = [
        by(SEGMENT_COUNT, -1, true),
        by(SEGMENT_COUNT, -2, false),
        by(SEGMENT_COUNT_MAIN, 1, true),
        by(SEGMENT_COUNT_MAIN, 2, false),
        by(SEGMENT_COUNT, 1, true),
        by(SEGMENT_COUNT, 2, false),
        by(BLOCK_COUNT, -segment, true),
        by(BLOCK_COUNT, -segment - 1, false),
        by(BLOCK_COUNT, 1, true),
        by(BLOCK_COUNT, 2, false),
    ];
    run(&mut lookups, &knobs, &cases);
    // One block too few for another segment.
    let knobs = Knobs {
        spare_blocks: SEGMENT_BLOCKS - 1,
        ..Knobs::sound()
    };
    let one_more = (vec![moved(&knobs, SEGMENT_COUNT, 1)], false);
    run(&mut lookups, &knobs, &[one_more]);
    lookups.finish(2 + 3 * 11, &[0, 5, 6]);
}

/// The same where the image has as many blocks as are read at most. A block count of one more is still 5: the image's
/// own length is in shape.
#[test]
fn ends_of_the_largest_card() {
    let mut lookups = Lookups::new("node lookup by ends of the largest card");
    // With segment 0 at 512 the main area can end where the card does; 4,194,304 blocks are 8,192 segments.
    let whole = Knobs::largest(2);
    assert_eq!((whole.areas().main, whole.main_segments), (4096, 8184));
    assert_eq!(whole.areas().main_end, 4_194_304);
    let to = |field, value: u64, passes| (vec![(field, value)], passes);
    let cases = [
        to(BLOCK_COUNT, 4_194_304, true),
        to(BLOCK_COUNT, 4_194_303, false),
        to(BLOCK_COUNT, 4_194_305, false),
        to(SEGMENT_COUNT, 8191, true),
        to(SEGMENT_COUNT, 8190, false),
        to(SEGMENT_COUNT, 8192, false),
        to(SEGMENT_COUNT_MAIN, 8183, true),
        to(SEGMENT_COUNT_MAIN, 8185, false),
    ];
    run(&mut lookups, &whole, &cases);
    // One block less in the image, or one that the card doesn't have.
    for (blocks, passes) in [(4_194_303, false), (4_194_304, true)] {
        let mut image = Image::new(&whole.clone().with_segments(8183).in_image_of(blocks));
        for copy in [0, 1] {
            image.set(copy, BLOCK_COUNT, 4_194_304);
        }
        lookups.expect(&image, NUMBER, if passes { 0 } else { 5 });
    }
    lookups.finish(3 * 8 + 2, &[0, 5, 6]);
}

/// Areas anywhere up to the end: those of a volume that starts as late as it can, and of one with every segment in one
/// of the areas that may be so long.
#[test]
fn areas_of_the_largest_card() {
    let mut lookups = Lookups::new("node lookup by areas of the largest card");
    let sound = Knobs::sound();
    let own = sound.areas().block_count - sound.segment0;
    let last = 4_194_304 - own;
    for (segment0, passes) in [(last - 1, true), (last, true), (last + 1, false)] {
        let knobs = Knobs {
            segment0,
            ..sound.clone()
        };
        let mut image = Image::new(&knobs);
        let blocks = 4_194_304.min(knobs.image_blocks());
        let bytes = &image.bytes()[..blocks as usize * BLOCK_SIZE];
        let answer = if passes { 0 } else { 5 };
        lookups.expect_in(("segment 0 at", segment0), bytes, NUMBER, answer);
        // The block count alone doesn't help.
        for copy in [0, 1] {
            image.set(copy, BLOCK_COUNT, 4_194_304);
        }
        let bytes = &image.bytes()[..blocks as usize * BLOCK_SIZE];
        let answer = if passes && blocks == 4_194_304 { 0 } else { 5 };
        lookups.expect_in(
            ("segment 0 at", segment0, "all blocks"),
            bytes,
            NUMBER,
            answer,
        );
    }
    let ssa = Knobs {
        ssa_segments: Knobs::largest(2).main_segments,
        ..Knobs::largest(2).with_segments(1)
    };
    assert_eq!(ssa.areas().main_end, 4_194_304);
    run_unchanged(&mut lookups, &ssa, true);
    lookups.finish(3 * 2 + 2, &[0, 5]);
}

/// The block count has 64 bits.
#[test]
fn high_half_of_the_block_count() {
    let mut lookups = Lookups::new("node lookup by the block count's high half");
    let good = built(&Knobs::roomy(), BLOCK_COUNT);
    let high = (32..64).map(|bit| good | 1 << bit);
    let others = [u64::MAX, good << 32, good | good << 32];
    let cases: Vec<Case> = high
        .chain(others)
        .map(|count| (vec![(BLOCK_COUNT, count)], false))
        .collect();
    run(&mut lookups, &Knobs::roomy(), &cases);
    lookups.finish(3 * 35, &[5, 6]);
}

const COUNTS: [Field; 6] = [
    SEGMENT_COUNT_CKPT,
    SEGMENT_COUNT_SIT,
    SEGMENT_COUNT_NAT,
    SEGMENT_COUNT_SSA,
    SEGMENT_COUNT_MAIN,
    SEGMENT_COUNT,
];

/// Counts that are the built ones if sums wrap in 32 bits.
#[test]
fn counts_that_wrap() {
    let mut lookups = Lookups::new("node lookup by counts that wrap");
    let knobs = Knobs::roomy();
    let mut cases = Vec::new();
    for times in [1, 2, 3, 128, 255, 256, 511] {
        let wrapped = |field| moved(&knobs, field, times * WRAPS as i64);
        for field in COUNTS {
            cases.push((vec![wrapped(field)], false));
        }
        let ends = vec![wrapped(SEGMENT_COUNT_MAIN), wrapped(SEGMENT_COUNT)];
        cases.push((ends.clone(), false));
        // With this all but the last comparison hold also without wrapping.
        let block_count = moved(&knobs, BLOCK_COUNT, times << 32);
        cases.push(([ends, vec![block_count]].concat(), false));
    }
    run(&mut lookups, &knobs, &cases);
    lookups.finish(3 * 7 * 8, &[5, 6]);
}

/// Addresses that are right only if sums wrap in 32 bits.
#[test]
fn starts_that_wrap() {
    let mut lookups = Lookups::new("node lookup by starts that wrap");
    let knobs = Knobs::roomy();
    let mut cases = Vec::new();
    // An area that takes so many segments that the next one starts before it.
    let areas = [
        (2, SEGMENT_COUNT_SIT),
        (3, SEGMENT_COUNT_NAT),
        (4, SEGMENT_COUNT_SSA),
    ];
    for (position, count) in areas {
        for fewer in [2, 4] {
            let back = i64::from(SEGMENT_BLOCKS) * -fewer;
            let later = STARTS.iter().skip(position + 1);
            let mut changes: Vec<_> = later.map(|&start| moved(&knobs, start, back)).collect();
            changes.push(moved(&knobs, count, WRAPS as i64 - fewer));
            cases.push((changes, false));
        }
    }
    // All areas so high that they end near 0.
    for blocks in [512, 1024, 2048, 4096, 4608] {
        let by = -(built(&knobs, SEGMENT0_BLKADDR) as i64) - blocks;
        let changes = STARTS.map(|start| moved(&knobs, start, by)).to_vec();
        cases.push((changes, false));
    }
    run(&mut lookups, &knobs, &cases);
    lookups.finish(3 * (3 * 2 + 5), &[5, 6]);
}

#[test]
fn features_and_payload_of_the_copy_used() {
    let mut lookups = Lookups::new("node lookup by feature and payload");
    for (copy, copies) in [(0, [true, false]), (0, [true, true]), (1, [false, true])] {
        let mut image = Image::new(&Knobs {
            copies,
            ..Knobs::roomy()
        });
        for field in [FEATURE, CP_PAYLOAD] {
            for bit in 0..32 {
                image.set(copy, field, 1 << bit);
                lookups.expect(&image, NUMBER, 6);
                image.undo(0);
            }
            for beside in [field.at - 4, field.at + 4] {
                let number = Field {
                    name: "beside",
                    at: beside,
                    size: 4,
                };
                image.set(copy, number, number.greatest());
                lookups.expect(&image, NUMBER, 0);
                image.undo(0);
            }
        }
    }
    lookups.finish(3 * 2 * 34, &[0, 6]);
}

#[test]
fn features_and_payload_of_the_other_copy() {
    let mut lookups = Lookups::new("node lookup by the other copy's feature and payload");
    let mut image = Image::new(&Knobs::roomy());
    for field in [FEATURE, CP_PAYLOAD] {
        image.set(1, field, 1);
        lookups.expect(&image, NUMBER, 0);
        image.set(0, LOG_BLOCKSIZE, 13);
        lookups.expect(&image, NUMBER, 6);
        image.set(1, field, 0);
        image.set(0, field, 1);
        lookups.expect(&image, NUMBER, 0);
        image.undo(0);
    }
    lookups.finish(2 * 3, &[0, 6]);
}

/// The second copy has a table twice as long, for which the pack's map is too short.
#[test]
fn numbers_of_the_copy_used() {
    let mut lookups = Lookups::new("node lookup in copies that differ");
    let knobs = Knobs::roomy();
    let past = knobs.node_numbers();
    let longer = Knobs {
        nat_segments: 4,
        spare_segments: 0,
        ..knobs.clone()
    };
    let mut image = Image::new(&knobs);
    for (field, value) in longer.superblock_fields() {
        image.set(1, field, value);
    }
    lookups.expect(&image, past - 1, 0);
    lookups.expect(&image, past, 9);
    image.set(0, MAGIC, 0);
    lookups.expect(&image, past, 8);
    image.set(1, MAGIC, 0);
    lookups.expect(&image, past, 5);
    lookups.finish(4, &[0, 5, 8, 9]);
}

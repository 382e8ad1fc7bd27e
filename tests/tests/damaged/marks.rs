//! The flags of a pack that stands alone.

use harptimber_tests::calls::every_call::EveryCall;
use harptimber_tests::cards::damage::{faults_before_8, HARMS};
use harptimber_tests::cards::image::Image;
use harptimber_tests::cards::knobs::Pack;
use harptimber_tests::cards::layout::checkpoint::*;
use harptimber_tests::cards::layout::superblock::{CP_PAYLOAD, FEATURE, MAGIC};

use crate::{kinds_in_both, Volume, PACKS};

/// Each of the two flags, both, and either with the large map's.
const MARKS: [u32; 5] = [
    CP_ERROR_FLAG,
    CP_FSCK_FLAG,
    CP_ERROR_FLAG | CP_FSCK_FLAG,
    CP_ERROR_FLAG | CP_LARGE_NAT_BITMAP_FLAG,
    CP_FSCK_FLAG | CP_LARGE_NAT_BITMAP_FLAG,
];

fn set_flags(image: &mut Image, which: usize, flags: u32) {
    let first = image.first_block(which);
    image.set_sealed(first, CKPT_FLAGS, u64::from(flags));
}

/// With each other flag, alone and with those that say where the journals are. Without the two the card is read.
#[test]
fn with_each_other_flag() {
    let mut every = EveryCall::new("marked packs by their other flags");
    let free = !(PLACING | ALL_UNREAD);
    let alone = (0..32).map(|bit| 1 << bit).filter(|flag| flag & free != 0);
    let others: Vec<u32> = alone.chain([0, free]).collect();
    for (n, placing) in PLACINGS.into_iter().enumerate() {
        let which = n % 2;
        let volume = Volume::journalled(which, Pack::flagged(placing));
        volume.try_changes(|image, sound| {
            for other in &others {
                set_flags(image, which, placing | other);
                every.expect_read(sound, image);
                for mark in MARKS {
                    set_flags(image, which, placing | other | mark);
                    every.expect_refused(&sound.kept, image, 8);
                }
                image.undo(0);
            }
        });
    }
    every.finish(8 * 28 * 6, &[0, 8]);
}

/// What the pack's last block says is for nothing.
#[test]
fn in_the_last_block() {
    let mut every = EveryCall::new("marks in a pack's last block");
    for (which, pack) in kinds_in_both() {
        Volume::journalled(which, pack).try_changes(|image, sound| {
            let (first, last) = (image.first_block(which), image.last_block(which));
            for flags in MARKS {
                image.add_flags(last, flags);
                every.expect_read(sound, image);
                image.add_flags(first, flags);
                every.expect_refused(&sound.kept, image, 8);
                image.undo(0);
            }
        });
    }
    every.finish(2 * 4 * 5 * 2, &[0, 8]);
}

/// A mark that the checksum doesn't go with: such a pack doesn't pass.
#[test]
fn without_their_checksum() {
    let mut every = EveryCall::new("marks without their checksum");
    for (which, pack) in kinds_in_both() {
        let flags = pack.flags;
        Volume::journalled(which, pack).try_changes(|image, sound| {
            for block in [image.first_block(which), image.last_block(which)] {
                for mark in MARKS {
                    image.set(block, CKPT_FLAGS, u64::from(flags | mark));
                    every.expect_refused(&sound.kept, image, 7);
                    image.undo(0);
                }
            }
        });
    }
    every.finish(2 * 4 * 2 * 5, &[7]);
}

/// A card with everything wrong at once, of which one fault after the other is taken away.
#[test]
fn first_answer_that_applies() {
    let mut every = EveryCall::new("damaged volumes with several faults");
    for (which, harm) in PACKS.into_iter().cycle().zip(HARMS) {
        Volume::new(which, Pack::compact(1)).try_changes(|image, sound| {
            harm(image, which);
            let faults = faults_before_8(image, which);
            every.expect_out_of_shape(&sound.kept, image);
            every.expect_refused(&sound.kept, image, 5);
            for (mark, answer) in faults {
                image.undo(mark);
                every.expect_refused(&sound.kept, image, answer);
            }
            image.undo(0);
            every.expect_read(sound, image);
        });
    }
    every.finish(5 * 6, &[0, 4, 5, 6, 7, 8]);
}

/// With one other fault, which comes before the damage though the pack still passes.
#[test]
fn beside_another_fault() {
    let mut every = EveryCall::new("damaged volumes with another fault");
    let faults = [(MAGIC, 0, 5), (FEATURE, 1, 6), (CP_PAYLOAD, 1, 6)];
    for (which, harm) in PACKS.into_iter().cycle().zip(HARMS) {
        Volume::new(which, Pack::compact(1)).try_changes(|image, sound| {
            harm(image, which);
            let harmed = image.mark();
            for (field, value, answer) in faults {
                for copy in [0, 1] {
                    image.set(copy, field, value);
                }
                every.expect_refused(&sound.kept, image, answer);
                image.undo(harmed);
            }
        });
    }
    every.finish(5 * 3, &[5, 6]);
}

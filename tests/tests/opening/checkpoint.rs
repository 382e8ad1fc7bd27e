//! Node lookup: which checkpoint packs pass, and which of them is chosen.

use std::array::IntoIter;
use std::iter::Cycle;

use harptimber_tests::calls::answers::Answers;
use harptimber_tests::calls::lookups::{distinct_entry, journalled, Lookups};
use harptimber_tests::cards::image::Image;
use harptimber_tests::cards::knobs::{Knobs, Pack};
use harptimber_tests::cards::layout::checkpoint::*;
use harptimber_tests::cards::layout::{superblock, Field};
use harptimber_tests::cards::random::pick;
use harptimber_tests::cards::versions::{of_two, Apart, CHOSEN, HALF, PAIRS};

const NUMBER: u32 = 3;
const PACKS: [usize; 2] = [0, 1];

/// A card without packs, on which a block before their place is free.
fn without_packs() -> Knobs {
    Knobs {
        segment0: 5,
        packs: [None, None],
        ..Knobs::sound()
    }
}

/// A card with this pack alone.
fn with_one(which: usize, pack: Pack) -> Image {
    Image::new(&without_packs().with_pack(which, pack))
}

/// A card with two packs whose journals tell them apart.
fn with_two(versions: [u64; 2]) -> Image {
    let packs = PACKS.map(|which| {
        let journal = vec![journalled(NUMBER, distinct_entry(which as u32))];
        Some(Pack {
            journal,
            ..Pack::compact(versions[which])
        })
    });
    Image::new(&Knobs {
        packs,
        ..without_packs()
    })
}

fn expect_chosen(lookups: &mut Lookups, image: &Image, which: usize) {
    lookups.expect_entry(image, NUMBER, distinct_entry(which as u32));
}

/// Damages the first and the last block of each pack, where that is the only one, in each of the
/// ways. The pack passes before, and not with the damage.
fn refuse<W: Copy>(lookups: &mut Lookups, ways: &[W], damage: impl Fn(&mut Image, u32, W)) {
    for which in PACKS {
        let mut image = with_one(which, Pack::compact(1));
        lookups.expect(&image, NUMBER, 0);
        for block in [image.first_block(which), image.last_block(which)] {
            for &way in ways {
                damage(&mut image, block, way);
                lookups.expect(&image, NUMBER, 7);
                image.undo(0);
            }
        }
    }
}

#[test]
fn checksum_offset() {
    let mut lookups = Lookups::new("node lookup by checksum offset");
    let offsets = [
        0,
        1,
        192,
        4088,
        4091,
        4093,
        4096,
        4092 + (1 << 16),
        4092 + (1 << 31),
        u64::from(u32::MAX),
    ];
    refuse(&mut lookups, &offsets, |image, block, offset| {
        image.set_sealed(block, CHECKSUM_OFFSET, offset);
    });
    // Right where the offset says, too, as Linux would have it.
    refuse(&mut lookups, &[192, 2048, 4088], |image, block, offset| {
        image.set(block, CHECKSUM_OFFSET, offset as u64);
        let sum = image.checksum(block, offset);
        image.put("checksum", block, offset, &sum.to_le_bytes());
        image.seal(block);
    });
    lookups.finish(2 * (2 + 2 * 13), &[0, 7]);
}

#[test]
fn checksum() {
    let mut lookups = Lookups::new("node lookup by checksum");
    let mut masks: Vec<u64> = (0..32).map(|bit| 1 << bit).collect();
    // The final complement that this checksum doesn't have.
    masks.push(u64::from(u32::MAX));
    refuse(&mut lookups, &masks, |image, block, mask| {
        let right = image.get(block, CHECKSUM);
        image.set(block, CHECKSUM, right ^ mask);
    });
    lookups.finish(2 * (1 + 2 * 33), &[0, 7]);
}

/// A bit of each byte that the checksum covers.
#[test]
fn bytes_under_the_checksum() {
    let mut lookups = Lookups::new("node lookup by bytes under the checksum");
    let bytes: Vec<usize> = (0..CHECKSUM.at).collect();
    refuse(&mut lookups, &bytes, |image, block, at| {
        let byte = Field {
            name: "byte under the checksum",
            at,
            size: 1,
        };
        let right = image.get(block, byte);
        image.set(block, byte, right ^ (1 << (at % 8)));
    });
    lookups.finish(2 * (1 + 2 * 4092), &[0, 7]);
}

/// The first and the last block have to have the same version.
#[test]
fn versions_in_a_pack() {
    let mut lookups = Lookups::new("node lookup by versions in a pack");
    let bits: Vec<u64> = (0..64).collect();
    refuse(&mut lookups, &bits, |image, block, bit| {
        let right = image.get(block, CHECKPOINT_VER);
        image.set_sealed(block, CHECKPOINT_VER, right ^ (1 << bit));
    });
    lookups.finish(2 * (1 + 2 * 64), &[0, 7]);
}

/// The last block is sound wherever it then lies: before the pack, in it, in the next pack or area.
#[test]
fn total_with_its_last_block() {
    let mut lookups = Lookups::new("node lookup by total with its last block");
    let by_total = [
        (0, 7),
        (1, 7),
        // No room for a journal.
        (2, 8),
        (3, 0),
        (4, 0),
        (511, 0),
        (512, 0),
        (513, 7),
        (514, 7),
        (1024, 7),
        ((1 << 16) + 6, 7),
    ];
    for which in PACKS {
        let knobs = Knobs {
            spare_image_blocks: 1 << 16,
            ..without_packs()
        };
        let mut image = Image::new(&knobs);
        for (total, answer) in by_total {
            let pack = Pack {
                total,
                ..Pack::compact(1)
            };
            image.add_pack(which, &pack, &knobs);
            lookups.expect(&image, NUMBER, answer);
            image.undo(0);
        }
    }
    lookups.finish(2 * 11, &[0, 7, 8]);
}

#[test]
fn total_without_its_last_block() {
    let mut lookups = Lookups::new("node lookup by total without its last block");
    for which in PACKS {
        let mut image = with_one(which, Pack::compact(1));
        let first = image.first_block(which);
        let right = image.get(first, CP_PACK_TOTAL_BLOCK_COUNT);
        let near = [0, 1, 2, right - 1, right + 1, 512, 513];
        let far = [16, 31].map(|bit| right + (1 << bit));
        for total in near.into_iter().chain(far).chain([0xFFFF_FFFF]) {
            image.set_sealed(first, CP_PACK_TOTAL_BLOCK_COUNT, total);
            lookups.expect(&image, NUMBER, 7);
            image.undo(0);
        }
    }
    lookups.finish(2 * 10, &[7]);
}

/// Only the last block's checksum and version are consulted.
#[test]
fn other_numbers_of_the_last_block() {
    let mut lookups = Lookups::new("node lookup by other numbers of the last block");
    let others = [
        (CKPT_FLAGS, u64::from(ALL_UNREAD)),
        (CP_PACK_TOTAL_BLOCK_COUNT, 1),
        (CP_PACK_START_SUM, 0),
        (SIT_VER_BITMAP_BYTESIZE, 1),
        (NAT_VER_BITMAP_BYTESIZE, 1),
    ];
    for which in PACKS {
        let mut image = with_two([1, 1 + which as u64]);
        let last = image.last_block(which);
        for (field, value) in others {
            image.set_sealed(last, field, value);
            expect_chosen(&mut lookups, &image, which);
        }
    }
    lookups.finish(2 * 5, &[0]);
}

/// Makes a pack not pass in one of several ways.
type Spoil = fn(&mut Image, usize);
const SPOILS: [Spoil; 7] = [
    |image, which| image.set(image.first_block(which), CHECKSUM, 0),
    |image, which| image.set(image.last_block(which), CHECKSUM, 0),
    |image, which| image.set_sealed(image.first_block(which), CHECKSUM_OFFSET, 0),
    |image, which| image.set_sealed(image.last_block(which), CHECKSUM_OFFSET, 0),
    |image, which| {
        let version = image.get(image.first_block(which), CHECKPOINT_VER);
        let newer = version.wrapping_add(1);
        image.set_sealed(image.last_block(which), CHECKPOINT_VER, newer);
    },
    |image, which| image.set_sealed(image.first_block(which), CP_PACK_TOTAL_BLOCK_COUNT, 1),
    |image, which| image.set_sealed(image.first_block(which), CP_PACK_TOTAL_BLOCK_COUNT, 513),
];

/// Choices between the two packs of one card, whose versions change again and again.
struct Choices {
    lookups: Lookups,
    image: Image,
    ways: Cycle<IntoIter<Spoil, 7>>,
}

impl Choices {
    fn new(name: &'static str) -> Choices {
        Choices {
            lookups: Lookups::new(name),
            image: with_two([0, 0]),
            ways: SPOILS.into_iter().cycle(),
        }
    }

    /// Expects the chosen pack of two that pass; of one, that one; and of none 7.
    fn expect(&mut self, versions: [u64; 2], chosen: usize) {
        self.image.set_versions(versions);
        let mark = self.image.mark();
        for passing in [[true, true], [true, false], [false, true], [false, false]] {
            for which in PACKS.into_iter().filter(|&which| !passing[which]) {
                let spoil = self.ways.next().expect("a way");
                spoil(&mut self.image, which);
            }
            let (lookups, image) = (&mut self.lookups, &self.image);
            match passing {
                [true, true] => expect_chosen(lookups, image, chosen),
                [false, false] => lookups.expect(image, NUMBER, 7),
                [first_passes, _] => expect_chosen(lookups, image, usize::from(!first_passes)),
            }
            self.image.undo(mark);
        }
        self.image.undo(0);
    }

    /// Ends the trial, in which so many pairs of versions were to be tried.
    fn finish(self, pairs: u64) {
        self.lookups.finish(4 * pairs, &[0, 7]);
    }
}

#[test]
fn versions_of_the_papers() {
    let mut choices = Choices::new("node lookup by the papers' versions");
    for (versions, chosen) in CHOSEN {
        choices.expect(versions, chosen);
    }
    choices.finish(PAIRS);
}

/// Each with each, in both orders.
#[test]
fn versions_in_pairs() {
    let mut choices = Choices::new("node lookup by pairs of versions");
    let near = |version: u64| [-2, -1, 0, 1, 2].map(|by| version.wrapping_add_signed(by));
    let ends = [0, HALF].into_iter().flat_map(near);
    let lower_half = [(1 << 31) - 1, 1 << 31, (1 << 32) - 1, 1 << 32];
    let opposite = [(1 << 32) + 2, (2 << 32) + 1];
    let opposite_from_top = opposite.map(|version| u64::MAX - version);
    let others = [[5, HALF + 5], opposite, opposite_from_top];
    let versions: Vec<u64> = ends
        .chain(lower_half)
        .chain(others.into_iter().flatten())
        .collect();
    for &first in &versions {
        for &second in &versions {
            choices.expect([first, second], of_two([first, second]));
        }
    }
    choices.finish(20 * 20);
}

/// From several versions on: of each bit, and one less and one more. Only the difference decides.
#[test]
fn differences_of_versions() {
    let mut choices = Choices::new("node lookup by differences of versions");
    let bits = (0..64).flat_map(|bit| [-1, 0, 1].map(|by| (1u64 << bit).wrapping_add_signed(by)));
    for difference in bits {
        for start in [0, 5, u64::from(u32::MAX), HALF - 1, HALF, u64::MAX] {
            let up = start.wrapping_add(difference);
            let second_wins = 0 < difference && difference < HALF;
            choices.expect([start, up], usize::from(second_wins));
            let second_wins_back = difference > HALF;
            choices.expect([up, start], usize::from(second_wins_back));
        }
    }
    choices.finish(64 * 3 * 6 * 2);
}

/// Any two versions, and pairs of each kind.
#[test]
fn random_versions() {
    const TIMES: u64 = 400;
    let mut choices = Choices::new("node lookup by random versions");
    let mut met = Answers::default();
    for _ in 0..choices.lookups.trial.times(TIMES) {
        let random = &mut choices.lookups.trial.random;
        let any_two = [random.number(), random.number()];
        let of_a_kind = pick(random, &Apart::ALL).any(random);
        for versions in [any_two, of_a_kind] {
            met.note(Apart::of(versions));
            choices.expect(versions, of_two(versions));
        }
    }
    choices.finish(2 * TIMES);
    met.finish(&Apart::ALL);
}

/// With one pack spoilt the other is chosen, whichever is newer; with both the answer is 7.
#[test]
fn one_or_both_packs_spoilt() {
    let mut lookups = Lookups::new("node lookup with packs spoilt");
    let over_the_wrap = [[u64::MAX, 0], [0, u64::MAX]];
    let half_apart = [[5, HALF + 5], [HALF + 5, 5]];
    let plain = [[5, 5], [5, 6], [6, 5]];
    let mut image = with_two([0, 0]);
    for versions in plain.into_iter().chain(over_the_wrap).chain(half_apart) {
        image.set_versions(versions);
        let sound = image.mark();
        for which in PACKS {
            for spoil in SPOILS {
                spoil(&mut image, which);
                expect_chosen(&mut lookups, &image, 1 - which);
                let mark = image.mark();
                for spoil_other in SPOILS {
                    spoil_other(&mut image, 1 - which);
                    lookups.expect(&image, NUMBER, 7);
                    image.undo(mark);
                }
                image.undo(sound);
            }
        }
    }
    lookups.finish(7 * 2 * 7 * 8, &[0, 7]);
}

/// A pack that passes but isn't readable: if chosen the answer is 8, else it isn't consulted.
#[test]
fn unreadable_pack() {
    let mut lookups = Lookups::new("node lookup with an unreadable pack");
    let mut image = with_two([0, 0]);
    for (versions, chosen) in CHOSEN {
        for (which, unread) in PACKS
            .into_iter()
            .flat_map(|which| UNREAD.map(|flag| (which, flag)))
        {
            image.set_versions(versions);
            image.add_flags(image.first_block(which), unread);
            if which == chosen {
                lookups.expect(&image, NUMBER, 8);
            } else {
                expect_chosen(&mut lookups, &image, chosen);
            }
            image.undo(0);
        }
    }
    lookups.finish(PAIRS * 2 * 3, &[0, 8]);
}

/// Packs start at the checkpoint address of the copy used, wherever that is.
#[test]
fn packs_are_where_the_copy_says() {
    let mut lookups = Lookups::new("node lookup with packs elsewhere");
    let mut image = Image::new(&Knobs {
        spare_segments: 1,
        ..without_packs().with_pack(0, Pack::compact(1))
    });
    let segments = image.get(0, superblock::SEGMENT_COUNT);
    image.set(0, superblock::SEGMENT_COUNT, segments - 1);
    lookups.expect(&image, NUMBER, 0);
    let mark = image.mark();
    for by in [-3, -1, 1, 511, 512] {
        for start in superblock::STARTS {
            let right = image.get(0, start);
            image.set(0, start, right.wrapping_add_signed(by));
        }
        lookups.expect(&image, NUMBER, 7);
        image.undo(mark);
    }
    lookups.finish(6, &[0, 7]);
}

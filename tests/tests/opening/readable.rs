//! Node lookup: whether the chosen pack is readable, and where its journal is.

use harptimber_tests::calls::lookups::{distinct_entry, journalled, Lookups};
use harptimber_tests::cards::image::Image;
use harptimber_tests::cards::knobs::{Knobs, Pack};
use harptimber_tests::cards::layout::checkpoint::*;
use harptimber_tests::cards::layout::journal::{IN_COMPACT_BLOCK, IN_PLAIN_BLOCK};
use harptimber_tests::cards::layout::nat::NatEntry;
use harptimber_tests::cards::layout::Field;

const NUMBER: u32 = 3;
const PACKS: [usize; 2] = [0, 1];

/// A pack whose blocks each have a journal at both places, every one with another entry.
fn full_of_journals(which: usize) -> Image {
    let pack = Pack {
        total: 12,
        start_sum: 2,
        ..Pack::compact(1)
    };
    let mut image = Image::new(&Knobs::sound().with_pack(which, pack));
    let first = image.first_block(which);
    for block in 1..11 {
        for at in [IN_COMPACT_BLOCK, IN_PLAIN_BLOCK] {
            let entry = journal_entry_at(block, at);
            image.put_journal(first + block, at, &[journalled(NUMBER, entry)]);
        }
    }
    image
}

fn journal_entry_at(block: u32, at: usize) -> NatEntry {
    distinct_entry(2 * block + u32::from(at == IN_PLAIN_BLOCK))
}

/// Where the flags say that the journal is, in a pack of 12 blocks with its summaries in block 2.
const JOURNALS: [(u32, (u32, usize)); 8] = [
    (0, (12 - 4, IN_PLAIN_BLOCK)),
    (CP_UMOUNT_FLAG, (12 - 7, IN_PLAIN_BLOCK)),
    (CP_FASTBOOT_FLAG, (12 - 7, IN_PLAIN_BLOCK)),
    (CP_UMOUNT_FLAG | CP_FASTBOOT_FLAG, (12 - 7, IN_PLAIN_BLOCK)),
    (CP_COMPACT_SUM_FLAG, (2, IN_COMPACT_BLOCK)),
    (CP_COMPACT_SUM_FLAG | CP_UMOUNT_FLAG, (2, IN_COMPACT_BLOCK)),
    (
        CP_COMPACT_SUM_FLAG | CP_FASTBOOT_FLAG,
        (2, IN_COMPACT_BLOCK),
    ),
    (
        CP_COMPACT_SUM_FLAG | CP_UMOUNT_FLAG | CP_FASTBOOT_FLAG,
        (2, IN_COMPACT_BLOCK),
    ),
];

/// Each of the three flags with each other one.
#[test]
fn flags() {
    let mut lookups = Lookups::new("node lookup by checkpoint flags");
    let free = !(PLACING | ALL_UNREAD);
    let bits = (0..32).map(|bit| free & (1 << bit));
    let others: Vec<u32> = bits.chain([free]).collect();
    for which in PACKS {
        let mut image = full_of_journals(which);
        let (first, mark) = (image.first_block(which), image.mark());
        for (flags, (block, at)) in JOURNALS {
            for other in &others {
                let all = flags | other;
                image.set_sealed(first, CKPT_FLAGS, u64::from(all));
                lookups.expect_entry(&image, NUMBER, journal_entry_at(block, at));
                for unread in UNREAD {
                    image.set_sealed(first, CKPT_FLAGS, u64::from(all | unread));
                    lookups.expect(&image, NUMBER, 8);
                }
                image.undo(mark);
            }
        }
    }
    lookups.finish(2 * 8 * 33 * (1 + 3), &[0, 8]);
}

#[test]
fn map_sizes() {
    let mut lookups = Lookups::new("node lookup by map sizes");
    for (sit_segments, nat_segments) in [(2, 2), (2, 4), (4, 2), (6, 8)] {
        let knobs = Knobs {
            sit_segments,
            nat_segments,
            ..Knobs::sound()
        };
        let mut image = Image::new(&knobs);
        lookups.expect(&image, NUMBER, 0);
        for changes in wrong_sizes(&image) {
            for (field, size) in changes {
                image.set(image.first_block(0), field, size);
            }
            image.seal(image.first_block(0));
            lookups.expect(&image, NUMBER, 8);
            image.undo(0);
        }
    }
    lookups.finish(4 * (1 + 2 * 10), &[0, 8]);
}

/// Sizes of which at least one isn't what the segments need.
fn wrong_sizes(image: &Image) -> Vec<Vec<(Field, u64)>> {
    let sizes = [SIT_VER_BITMAP_BYTESIZE, NAT_VER_BITMAP_BYTESIZE];
    let [sit, nat] = sizes.map(|field| image.get(image.first_block(0), field));
    let mut wrong = Vec::new();
    for (field, right) in [(sizes[0], sit), (sizes[1], nat)] {
        let near = [right - 64, right - 32, right - 1, right + 1, right + 32];
        let far = [0, 2 * right, right + (1 << 16), right + (1 << 31)];
        wrong.extend(near.into_iter().chain(far).map(|size| vec![(field, size)]));
    }
    // Their sum is right.
    wrong.push(vec![(sizes[0], sit + 32), (sizes[1], nat - 32)]);
    wrong.push(vec![(sizes[0], sit - 32), (sizes[1], nat + 32)]);
    wrong
}

/// 192 + 32 × 120 = 4,032 is below 4,092, with two segments more it is 4,096.
#[test]
fn room_for_both_maps() {
    let mut lookups = Lookups::new("node lookup by room for the maps");
    for (segments, answer) in [(118, 0), (120, 0), (122, 8), (124, 8), (240, 8), (500, 8)] {
        for sit_segments in [2, 4, segments / 4 * 2, segments - 2] {
            let image = Image::new(&Knobs {
                sit_segments,
                nat_segments: segments - sit_segments,
                ..Knobs::sound()
            });
            lookups.expect(&image, NUMBER, answer);
        }
    }
    lookups.finish(6 * 4, &[0, 8]);
}

/// The journal block of a compact pack is 1 to total − 2.
#[test]
fn start_of_summaries() {
    let mut lookups = Lookups::new("node lookup by start of summaries");
    for which in PACKS {
        for total in [2, 3, 4, 6, 100, 511, 512] {
            let pack = Pack {
                total,
                ..Pack::compact(1)
            };
            let mut image = Image::new(&Knobs::sound().with_pack(which, pack));
            let first = image.first_block(which);
            let near_end = (0..4).map(|back| u64::from(total + 1) - back);
            let far = [0, 1, 2, 512, 513, (1 << 16) + 1, (1 << 31) + 1, 0xFFFF_FFFF];
            for start in near_end.chain(far) {
                image.set_sealed(first, CP_PACK_START_SUM, start);
                let inside = 1 <= start && start + 2 <= u64::from(total);
                lookups.expect(&image, NUMBER, if inside { 0 } else { 8 });
                image.undo(0);
            }
        }
    }
    lookups.finish(2 * 7 * 12, &[0, 8]);
}

/// Every total that passes, with each kind of summaries: the least total that has room for the
/// journal is 3 if compact, 8 if clean, 5 if neither.
#[test]
fn totals() {
    let mut lookups = Lookups::new("node lookup by total");
    let entry = distinct_entry(0);
    let plain = |flags| Pack {
        journal: vec![journalled(NUMBER, entry)],
        ..Pack::plain(1, flags)
    };
    for which in PACKS {
        let knobs = Knobs::sound().with_pack(which, Pack::compact(1));
        let mut image = Image::new(&knobs);
        for total in 2..=512 {
            let compact = |start_sum| Pack {
                start_sum,
                ..plain(CP_COMPACT_SUM_FLAG)
            };
            let kinds = [
                (compact(1), 3),
                (compact(total - 2), 3),
                (plain(CP_UMOUNT_FLAG), 8),
                (plain(CP_FASTBOOT_FLAG), 8),
                (plain(0), 5),
            ];
            for (pack, least) in kinds {
                image.add_pack(which, &Pack { total, ..pack }, &knobs);
                if total >= least {
                    lookups.expect_entry(&image, NUMBER, entry);
                } else {
                    lookups.expect(&image, NUMBER, 8);
                }
                image.undo(0);
            }
        }
    }
    lookups.finish(2 * 5 * 511, &[0, 8]);
}

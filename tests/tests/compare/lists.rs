//! Compare with lists that no pull made, and with cards that don't open.

use harptimber_tests::calls::compares::{
    changed, disordered, refused, stored, Compares, Lists, OUT_OF_SHAPE, SAME,
};
use harptimber_tests::calls::lookups::{distinct_entry, journalled};
use harptimber_tests::cards::image::Image;
use harptimber_tests::cards::knobs::{Knobs, Pack};
use harptimber_tests::cards::layout::checkpoint::{
    CHECKSUM_OFFSET, CKPT_FLAGS, CP_LARGE_NAT_BITMAP_FLAG,
};
use harptimber_tests::cards::layout::journal::MOST_ENTRIES;
use harptimber_tests::cards::layout::superblock::{FEATURE, MAGIC};
use harptimber_tests::cards::layout::{BLOCK_SIZE, SEGMENT_BLOCKS};
use harptimber_tests::cards::lengths::{lengths, LENGTHS};
use harptimber_tests::Compared;

/// Two main segments, and a spare one behind them.
fn knobs() -> Knobs {
    Knobs {
        main_segments: 2,
        spare_segments: 1,
        junk: Some(5),
        ..Knobs::sound()
    }
}

/// Two cards of the same bytes.
fn twins(knobs: Knobs) -> [Image; 2] {
    [Image::new(&knobs), Image::new(&knobs)]
}

fn bytes([kept, fresh]: &[Image; 2]) -> [&[u8]; 2] {
    [kept.bytes(), fresh.bytes()]
}

/// Compares on two lists that are whole.
fn expect(compares: &mut Compares, cards: &[Image; 2], lists: [&[u32]; 2], paper: Compared) {
    let [nodes, blocks] = lists.map(stored);
    let lists = Lists::whole(&nodes, &blocks);
    compares.expect_in(cards, bytes(cards), lists, paper);
}

#[test]
fn empty_lists() {
    let mut compares = Compares::new("compare with empty lists");
    let cards = twins(knobs());
    let main = cards[0].areas.main;
    expect(&mut compares, &cards, [&[], &[]], OUT_OF_SHAPE);
    expect(&mut compares, &cards, [&[], &[main]], OUT_OF_SHAPE);
    expect(&mut compares, &cards, [&[3], &[]], SAME);
    expect(&mut compares, &cards, [&[3], &[main]], SAME);
    compares.finish(4, &[(4, 0, 0), (15, 0, 0)]);
}

#[test]
fn order() {
    let mut compares = Compares::new("compare with lists that don't rise");
    let cards = twins(knobs());
    let main = cards[0].areas.main;
    for len in [2, 3, 17] {
        let [nodes, blocks] = [100, main].map(|first| (first..first + len).collect::<Vec<u32>>());
        expect(&mut compares, &cards, [&nodes, &blocks], SAME);
        for nodes in disordered(&nodes) {
            expect(&mut compares, &cards, [&nodes, &blocks], OUT_OF_SHAPE);
        }
        for blocks in disordered(&blocks) {
            expect(&mut compares, &cards, [&nodes, &blocks], OUT_OF_SHAPE);
        }
    }
    // Above 2^31 too numbers rise: they have no sign.
    expect(&mut compares, &cards, [&[1, 1 << 31, u32::MAX], &[]], SAME);
    expect(&mut compares, &cards, [&[1 << 31, 1], &[]], OUT_OF_SHAPE);
    compares.finish(3 + 2 * 2 * (1 + 2 + 16) + 2, &[(4, 0, 0), (15, 0, 0)]);
}

/// Three numbers of a node list and of a block list, and a remainder.
struct Slices {
    nodes: [u32; 3],
    blocks: [u32; 3],
    remainder: usize,
}

/// Compares on each count, of which those up to `most` are in shape; four times some of the others wraps
/// to a small number.
fn expect_counts(compares: &mut Compares, cards: &[Image; 2], slices: &Slices, most: u32) {
    let past = [4, 5, 1 << 30, (1 << 30) + 1, (1 << 31) + 2, u32::MAX];
    let [nodes, blocks] = [slices.nodes, slices.blocks].map(|numbers| {
        let mut list = stored(&numbers);
        list.resize(list.len() + slices.remainder, 0xFF);
        list
    });
    for node_count in (0..4).chain(past) {
        for block_count in (0..4).chain(past) {
            let lists = Lists {
                nodes: &nodes,
                node_count,
                blocks: &blocks,
                block_count,
            };
            let in_shape = (1..=most).contains(&node_count) && block_count <= most;
            let paper = if in_shape { SAME } else { OUT_OF_SHAPE };
            compares.expect_in(cards, bytes(cards), lists, paper);
        }
    }
}

/// A count may leave numbers out, in whatever order they are, but not exceed what the slice holds. A
/// remainder holds nothing.
#[test]
fn counts() {
    let mut compares = Compares::new("compare with counts beside their slices");
    let cards = twins(knobs());
    let main = cards[0].areas.main;
    for remainder in 0..4 {
        let rising = Slices {
            nodes: [3, 4, 5],
            blocks: [main, main + 1, main + 2],
            remainder,
        };
        expect_counts(&mut compares, &cards, &rising, 3);
        let falling_last = Slices {
            nodes: [3, 4, 4],
            blocks: [main, main + 1, 0],
            remainder,
        };
        expect_counts(&mut compares, &cards, &falling_last, 2);
    }
    compares.finish(4 * 2 * 10 * 10, &[(4, 0, 0), (15, 0, 0)]);
}

/// Only the kept card's main area decides which blocks may be listed.
#[test]
fn blocks_outside() {
    let mut compares = Compares::new("compare with blocks outside the main area");
    let small = twins(Knobs {
        main_segments: 1,
        spare_segments: 2,
        ..knobs()
    });
    let large = twins(knobs());
    let (main, end) = (small[0].areas.main, small[0].areas.main_end);
    let past = end + SEGMENT_BLOCKS;
    for block in [
        0,
        1,
        main - 1,
        main,
        end - 1,
        end,
        past - 1,
        past,
        1 << 31,
        u32::MAX,
    ] {
        for (kept, other, own_end) in [(&small, &large, end), (&large, &small, past)] {
            let inside = (main..own_end).contains(&block);
            let (nodes, blocks) = (stored(&[3]), stored(&[block]));
            let lists = Lists::whole(&nodes, &blocks);
            let paper = if inside { SAME } else { OUT_OF_SHAPE };
            compares.expect_in(kept, bytes(kept), lists, paper);
            let paper = if inside { changed(1, 0) } else { OUT_OF_SHAPE };
            let cards = [kept[0].bytes(), other[0].bytes()];
            compares.expect_in(("kept", kept, "new", other), cards, lists, paper);
        }
    }
    compares.finish(10 * 4, &[(4, 0, 0), (15, 0, 0), (16, 0, 1)]);
}

/// Block numbers up to the largest card's last one, alone and all together; then each of them changed.
#[test]
fn blocks_of_the_largest_card() {
    const INSIDE: [u32; 9] = [
        4_096, 262_143, 262_144, 524_288, 1_048_575, 1_048_576, 2_097_152, 4_194_302, 4_194_303,
    ];
    let mut compares = Compares::new("compare with blocks of the largest card");
    let mut cards = twins(Knobs::largest(2));
    let outside = [4_095, 4_194_304, 4_194_305, 8_388_607, 1 << 31, u32::MAX];
    for block in outside {
        expect(&mut compares, &cards, [&[3], &[block]], OUT_OF_SHAPE);
    }
    expect(&mut compares, &cards, [&[3], &INSIDE], SAME);
    for block in INSIDE {
        expect(&mut compares, &cards, [&[3], &[block]], SAME);
        cards[1].put("last byte", block, BLOCK_SIZE - 1, &[1]);
        expect(&mut compares, &cards, [&[3], &INSIDE], changed(3, block));
        let others: Vec<u32> = INSIDE.into_iter().filter(|&other| other != block).collect();
        expect(&mut compares, &cards, [&[3], &others], SAME);
        cards[1].undo(0);
    }
    compares.finish(6 + 1 + 9 * 3, &[(4, 0, 0), (15, 0, 0), (16, 0, 3)]);
}

/// A number out of range on one card only is a difference, also if the entry is all zeros.
#[test]
fn ends_of_the_table() {
    let mut compares = Compares::new("compare with numbers at the ends of the table");
    let table = |nat_segments, ssa_segments| {
        Image::new(&Knobs {
            nat_segments,
            ssa_segments,
            junk: None,
            ..knobs()
        })
    };
    let cards = [table(2, 2), table(4, 0)];
    assert_eq!(cards[0].areas.main, cards[1].areas.main);
    let past = 455 * 256 * 2;
    for (nid, differs) in [
        (0, false),
        (1, false),
        (past - 1, false),
        (past, true),
        (2 * past - 1, true),
        (2 * past, false),
        (u32::MAX, false),
    ] {
        let paper = if differs { changed(2, nid) } else { SAME };
        let nodes = stored(&[nid]);
        let lists = Lists::whole(&nodes, &[]);
        for [kept, fresh] in [[0, 1], [1, 0]] {
            let input = ("new", &cards[fresh], "kept", &cards[kept]);
            let bytes = [kept, fresh].map(|which: usize| cards[which].bytes());
            compares.expect_in(input, bytes, lists, paper);
        }
    }
    compares.finish(7 * 2, &[(15, 0, 0), (16, 0, 2)]);
}

/// A million numbers, most of them past the table, before a full journal; then with a difference or a
/// fault at the very end.
#[test]
fn a_million_numbers() {
    const MILLION: u32 = 1_000_000;
    let mut compares = Compares::new("compare with a million numbers");
    let journal = (0..MOST_ENTRIES as u32).map(|n| journalled(1 + 3 * n, distinct_entry(n)));
    let pack = Pack {
        journal: journal.collect(),
        ..Pack::compact(1)
    };
    let kept = Image::new(&knobs().with_pack(0, pack));
    let mut fresh = kept.clone();
    let last = 455 * 256 * 2 - 1;
    fresh.set_nat_entry(last, 0, distinct_entry(7));
    let all: Vec<u32> = (0..MILLION).collect();
    let without: Vec<u32> = (0..MILLION).filter(|&nid| nid != last).collect();
    let mut falling = all.clone();
    falling[MILLION as usize - 1] = 0;
    let main: Vec<u32> = (kept.areas.main..kept.areas.main_end).collect();
    let past: Vec<u32> = (kept.areas.main..).take(MILLION as usize).collect();
    for (nodes, blocks, paper) in [
        (&all, &main, changed(2, last)),
        (&without, &main, SAME),
        (&falling, &main, OUT_OF_SHAPE),
        (&without, &past, OUT_OF_SHAPE),
    ] {
        let [nodes, blocks] = [nodes, blocks].map(|list| stored(list));
        let lists = Lists::whole(&nodes, &blocks);
        let input = ("new", &fresh, "kept", &kept);
        compares.expect_in(input, [kept.bytes(), fresh.bytes()], lists, paper);
    }
    compares.finish(4, &[(4, 0, 0), (15, 0, 0), (16, 0, 2)]);
}

/// A card with this answer; 0 stands for one that opens.
fn card_with(answer: u32) -> Image {
    let mut image = Image::new(&knobs());
    let first = image.first_block(0);
    match answer {
        5 => [0, 1].map(|copy| image.set(copy, MAGIC, 0)).to_vec(),
        6 => vec![image.set(0, FEATURE, 1)],
        7 => vec![image.set(first, CHECKSUM_OFFSET, 0)],
        8 => vec![image.set_sealed(first, CKPT_FLAGS, u64::from(CP_LARGE_NAT_BITMAP_FLAG))],
        _ => vec![],
    };
    image
}

/// The shape of both cards comes first, then the kept card, the new one, and the lists.
fn first_of(kept: u32, fresh: u32, lists: Compared) -> Compared {
    match (kept, fresh) {
        (4, _) | (_, 4) => OUT_OF_SHAPE,
        (0, 0) => lists,
        (0, answer) => refused(answer, 2),
        (answer, _) => refused(answer, 1),
    }
}

#[test]
fn refused_cards() {
    let mut compares = Compares::new("compare with cards that don't open");
    let answers = [0, 4, 5, 6, 7, 8];
    let sides = [answers.map(card_with), answers.map(card_with)];
    let bytes = |side: usize, which: usize| match (answers[which], sides[side][which].bytes()) {
        (4, bytes) => &bytes[1..],
        (_, bytes) => bytes,
    };
    let (nodes, blocks) = (stored(&[3]), stored(&[knobs().areas().main]));
    let good = Lists::whole(&nodes, &blocks);
    let bad = [
        Lists {
            node_count: 0,
            ..good
        },
        Lists {
            block_count: 2,
            ..good
        },
    ];
    for kept in 0..6 {
        for fresh in 0..6 {
            let input = ("answers of the cards", answers[kept], answers[fresh]);
            for (lists, paper) in [(good, SAME), (bad[0], OUT_OF_SHAPE), (bad[1], OUT_OF_SHAPE)] {
                let paper = first_of(answers[kept], answers[fresh], paper);
                compares.expect_in(input, [bytes(0, kept), bytes(1, fresh)], lists, paper);
            }
        }
    }
    let by_side = (5..9).flat_map(|answer| [(answer, 1, 0), (answer, 2, 0)]);
    let every: Vec<_> = by_side.chain([(4, 0, 0), (15, 0, 0)]).collect();
    compares.finish(6 * 6 * 3, &every);
}

/// Lengths that are out of shape, on either side and beside a card that doesn't open.
#[test]
fn image_lengths() {
    let mut compares = Compares::new("compare by image length");
    let zeros = vec![0; 4 * BLOCK_SIZE];
    let image = Image::new(&knobs());
    let nodes = stored(&[3]);
    let lists = Lists::whole(&nodes, &[]);
    for len in [
        0,
        1,
        BLOCK_SIZE,
        2 * BLOCK_SIZE - 1,
        2 * BLOCK_SIZE + 1,
        3 * BLOCK_SIZE + 1024,
    ] {
        for other in [image.bytes(), &[0; 2 * BLOCK_SIZE], &[0]] {
            let input = ("zeros", len, "beside bytes", other.len());
            let cut = &zeros[..len];
            compares.expect_in(input, [cut, other], lists, OUT_OF_SHAPE);
            compares.expect_in(input, [other, cut], lists, OUT_OF_SHAPE);
        }
    }
    for len in [2 * BLOCK_SIZE, 3 * BLOCK_SIZE] {
        let input = ("zeros", len, "beside a card");
        compares.expect_in(input, [&zeros[..len], image.bytes()], lists, refused(5, 1));
        compares.expect_in(input, [image.bytes(), &zeros[..len]], lists, refused(5, 2));
    }
    compares.finish(6 * 6 + 4, &[(4, 0, 0), (5, 1, 0), (5, 2, 0)]);
}

/// A card in longer and longer images, beside one that is as long as it has to be: on either side, and on both.
#[test]
fn longest_images() {
    let mut compares = Compares::new("compare by length of large images");
    let image = Image::to_be_cut(Knobs::sound());
    let other = Image::new(&Knobs::sound());
    let nodes = stored(&[3]);
    let lists = Lists::whole(&nodes, &[]);
    for (len, in_shape) in lengths() {
        let (cut, other) = (&image.bytes()[..len], other.bytes());
        let paper = if in_shape { SAME } else { OUT_OF_SHAPE };
        let input = ("cut to bytes", len, &image);
        for cards in [[cut, other], [other, cut], [cut, cut]] {
            compares.expect_in(input, cards, lists, paper);
        }
    }
    compares.finish(3 * LENGTHS, &[(4, 0, 0), (15, 0, 0)]);
}

#[test]
fn only_reads() {
    let mut compares = Compares::new("compare and what is lent");
    let mut cards = twins(knobs());
    let main = cards[0].areas.main;
    let (nodes, blocks) = (stored(&[3, 4]), stored(&[main, main + 1]));
    for paper in [SAME, changed(3, main)] {
        let [kept, fresh] = bytes(&cards);
        let before = [kept, fresh, &nodes, &blocks].map(<[u8]>::to_vec);
        compares.expect_in(&cards, [kept, fresh], Lists::whole(&nodes, &blocks), paper);
        let unchanged = [kept, fresh, &nodes, &blocks].map(<[u8]>::to_vec) == before;
        assert!(unchanged, "a compare wrote to what it is lent");
        let first = !cards[1].block(main)[0];
        cards[1].put("byte", main, 0, &[first]);
    }
    compares.finish(2, &[(15, 0, 0), (16, 0, 3)]);
}

//! Comparing a keep file with a card: which of several answers comes first, and cards that it wasn't written from.

use harptimber_tests::calls::compares::{changed, refused, Compares, Kept, OUT_OF_SHAPE, SAME};
use harptimber_tests::calls::keep_files::{KeepFiles, Seen};
use harptimber_tests::calls::keep_parts::Parts;
use harptimber_tests::cards::card::Card;
use harptimber_tests::cards::damage::all_faults;
use harptimber_tests::cards::directory::Dentry;
use harptimber_tests::cards::folders::Folders;
use harptimber_tests::cards::image::Image;
use harptimber_tests::cards::knobs::Knobs;
use harptimber_tests::cards::layout::nat::{NatEntry, ENTRY_SIZE};
use harptimber_tests::cards::layout::{BLOCK_SIZE, SEGMENT_BLOCKS};
use harptimber_tests::cards::lengths::{lengths, LENGTHS};
use harptimber_tests::cards::one_file::NAME;
use harptimber_tests::trial::Random;
use harptimber_tests::{keep_compare, keep_read, Compared};

use crate::Source;

/// Files that aren't keep files, each by another rule.
fn bad_files(parts: &Parts) -> Vec<Vec<u8>> {
    let file = parts.laid_out();
    let no_node = parts.with(|parts| parts.nodes.clear());
    let twice = parts.with(|parts| parts.nodes.push(parts.nodes[parts.nodes.len() - 1]));
    let no_answer = parts.with(|parts| parts.nodes[0][1] = 1);
    let outside = parts.with(|parts| parts.bounds[0] = parts.bounds[1]);
    let laid_out = [no_node, twice, no_answer, outside].map(|parts| parts.laid_out());
    let cut = [
        &file[..0],
        &file[..23],
        &file[..24],
        &file[..file.len() - 1],
    ];
    let cut = cut.map(<[u8]>::to_vec);
    cut.into_iter().chain(laid_out).collect()
}

/// A card with everything wrong, of which one fault after the other is taken away: a file that isn't one comes first, then
/// the card's length, and then what keeps it from being opened.
#[test]
fn first_answer_that_applies() {
    let mut files = KeepFiles::new("keep files and cards with several faults");
    let Source { mut image, parts } = Source::data(&mut files.trial.random);
    let (good, bad) = (parts.laid_out(), bad_files(&parts));
    let root = parts.blocks[0].0;
    let first = image.block(root)[0];
    image.put("byte", root, 0, &[!first]);
    let opened = image.mark();
    let faults = all_faults(&mut image);
    let mut expect = |image: &Image, len: usize, paper: Compared| {
        let fresh = &image.bytes()[..len];
        files.expect(image, &good, fresh, Seen::of(&parts, paper));
        for bad in &bad {
            files.expect_refused(image, bad, fresh);
        }
    };
    let whole = image.bytes().len();
    for len in [0, 1, BLOCK_SIZE, whole - 1] {
        expect(&image, len, OUT_OF_SHAPE);
    }
    expect(&image, whole, refused(5, 2));
    for (mark, answer) in faults {
        image.undo(mark);
        expect(&image, whole, refused(answer, 2));
    }
    image.undo(opened);
    expect(&image, whole, changed(3, root));
    image.undo(0);
    expect(&image, whole, SAME);
    let refusals = [(5, 2, 0), (6, 2, 0), (7, 2, 0), (8, 2, 0), (18, 0, 0)];
    let every = [&refusals[..], &[(4, 0, 0), (15, 0, 0), (16, 0, 3)]].concat();
    files.finish(10 * (1 + 8), &every);
}

/// A card in longer and longer images.
#[test]
fn lengths_of_the_card() {
    let mut files = KeepFiles::new("keep files by length of the card");
    let image = Image::to_be_cut(Knobs::sound());
    let Source { parts, .. } = Source::new(Image::new(&Knobs::sound()), b"road", 0);
    let file = parts.laid_out();
    for (len, in_shape) in lengths() {
        let compared = if in_shape { SAME } else { OUT_OF_SHAPE };
        let paper = Seen::of(&parts, compared);
        files.expect(("card cut to", len), &file, &image.bytes()[..len], paper);
    }
    files.finish(LENGTHS, &[(4, 0, 0), (15, 0, 0)]);
}

/// Every file with every card, of which some have the same bounds.
#[test]
fn other_cards() {
    let mut compares = Compares::new("compare with cards of other files");
    let mut folders: Vec<Folders> = Vec::new();
    for names in [1, 1, 2, 2, 5, 8] {
        folders.push(Folders::any(&mut compares.trial.random, names, 0));
    }
    let largest = Image::new(&Knobs::largest(2));
    let empty = Image::new(&Knobs::sound());
    let cards = folders.iter().map(|folders| &folders.card.image);
    let cards: Vec<&Image> = cards.chain([&largest, &empty]).collect();
    for folders in &folders {
        let path = folders.path();
        for kept in &cards {
            let kept = Kept::new(kept, &path, 0);
            for fresh in &cards {
                compares.compare(&kept, fresh);
            }
        }
    }
    compares.finish(6 * 8 * 8, &[(15, 0, 0), (16, 0, 1), (16, 0, 2)]);
}

/// A card whose root has a name for this number, with so many segments of node table, in which the number's entry is
/// zeros. Its main area is where that of the others is.
fn with_table(nat_segments: u32, number: u32) -> Image {
    let knobs = Knobs {
        nat_segments,
        ssa_segments: 4 - nat_segments,
        ..Knobs::sound()
    };
    let mut card = Card::new(knobs, Random::new(1));
    card.add_root(0, 1);
    card.link(0, 0, &Dentry::new(NAME, number));
    if (1..card.node_numbers).contains(&number) {
        for copy in [0, 1] {
            let zeros = NatEntry::read(&[0; ENTRY_SIZE]);
            card.image.set_nat_entry(number, copy, zeros);
        }
    }
    card.image
}

/// A number that only one card's table has, where its entry is zeros: 9, 0, 0 isn't 0, 0, 0.
#[test]
fn ends_of_the_table() {
    let mut compares = Compares::new("compare with a file that has a number out of range");
    let past = 455 * 256 * 2;
    for (number, paper) in [
        (0, SAME),
        (past - 1, SAME),
        (past, changed(2, past)),
        (2 * past - 1, changed(2, 2 * past - 1)),
        (2 * past, SAME),
        (u32::MAX, SAME),
    ] {
        let cards = [2, 4].map(|nat_segments| with_table(nat_segments, number));
        for [kept, fresh] in [[0, 1], [1, 0]] {
            let kept = Kept::new(&cards[kept], NAME, 0);
            assert_eq!(kept.outcome.pulled.answer, 9);
            compares.expect(&kept, &cards[fresh], paper);
        }
    }
    compares.finish(6 * 2, &[(15, 0, 0), (16, 0, 2)]);
}

/// A file in the last blocks of the largest card; last, beside a card that has no such blocks.
#[test]
fn largest_card() {
    let mut compares = Compares::new("compare with a file at the end of the largest card");
    let knobs = Knobs::largest(2);
    let end = knobs.areas().main_end;
    let free = (end - SEGMENT_BLOCKS..end).collect();
    let mut card = Card::within(knobs, Random::new(1), free);
    let ino = card.add_file(0, 1);
    let data = card.add_block(ino, 0);
    assert!(data > 4_193_000);
    card.add_root(0, 1);
    card.link(0, 0, &Dentry::new(NAME, ino));
    let kept = card.image.clone();
    let kept = Kept::new(&kept, NAME, 0);
    assert_eq!(kept.outcome.pulled.answer, 0);
    compares.expect(&kept, &card.image, SAME);
    let last = !card.image.block(data)[BLOCK_SIZE - 1];
    card.image.put("last byte", data, BLOCK_SIZE - 1, &[last]);
    compares.expect(&kept, &card.image, changed(3, data));
    let small = Image::new(&Knobs::sound());
    compares.expect(&kept, &small, changed(1, 0));
    compares.finish(3, &[(15, 0, 0), (16, 0, 1), (16, 0, 3)]);
}

/// A file that nothing wrote: bounds as wide as they can be, and blocks that no card has. The card's bounds are others,
/// so none of them is looked at. With the card's own bounds each block in them is.
#[test]
fn forged_blocks() {
    let mut files = KeepFiles::new("keep files with blocks that no card has");
    let Source { image, parts } = Source::data(&mut files.trial.random);
    let [main, end] = parts.bounds;
    let junk = files.trial.random.bytes(BLOCK_SIZE);
    let with = |blocks: &[u32], bounds| Parts {
        bounds,
        blocks: blocks.iter().map(|&block| (block, junk.clone())).collect(),
        ..parts.clone()
    };
    for block in [0, main - 1, main, end - 1, end, 4_194_304, u32::MAX - 1] {
        let forged = with(&[block], [0, u32::MAX]);
        let paper = Seen::of(&forged, changed(1, 0));
        files.expect(block, &forged.laid_out(), image.bytes(), paper);
    }
    for block in [main, main + 1, end - 1] {
        let forged = with(&[block], [main, end]);
        let paper = Seen::of(&forged, changed(3, block));
        files.expect(block, &forged.laid_out(), image.bytes(), paper);
    }
    files.finish(7 + 3, &[(16, 0, 1), (16, 0, 3)]);
}

/// Lent slices that are only read may overlap: a card that has the file in its own bytes.
#[test]
fn file_within_the_card() {
    let mut files = KeepFiles::new("keep files within the card");
    for Source { mut image, parts } in Source::all(&mut files.trial.random) {
        let file = parts.laid_out();
        // Behind the main area, which is nobody's.
        let start = image.areas.main_end;
        for at in [0, 1, 4095] {
            image.put("keep file", start, at, &file);
            let place = start as usize * BLOCK_SIZE + at;
            let within = &image.bytes()[place..place + file.len()];
            files.expect_in_place(at, within, image.bytes(), Seen::of(&parts, SAME));
            image.undo(0);
        }
    }
    files.finish(3 * 3, &[(15, 0, 0)]);
}

#[test]
fn only_reads() {
    for Source { image, parts } in Source::all(&mut Random::new(1)) {
        let file = parts.laid_out();
        let before = image.bytes().to_vec();
        assert_eq!(keep_read(&file), parts.fields());
        assert_eq!(keep_compare(&file, image.bytes()), SAME);
        assert!(file == parts.laid_out(), "a call wrote to its file");
        assert!(image.bytes() == before, "a compare wrote to {image:?}");
    }
}

//! A file whose blocks are the last ones of the largest card, with decoys: pulls, lookups and compares.

use std::collections::BTreeSet;

use harptimber_tests::calls::answers::Answers;
use harptimber_tests::calls::compares::{changed, Compares, Kept, SAME};
use harptimber_tests::calls::lent::Lent;
use harptimber_tests::calls::lookups::Lookups;
use harptimber_tests::calls::pulls::{reference_pull, Call, Outcome, Pulls};
use harptimber_tests::cards::card::ROOT;
use harptimber_tests::cards::image::Image;
use harptimber_tests::cards::layout::inode::{INLINE_AT, INLINE_DATA, INLINE_DENTRY, INLINE_ROOM};
use harptimber_tests::cards::layout::nat::BLOCK_ADDR;
use harptimber_tests::cards::layout::{dentry, BLOCK_SIZE};
use harptimber_tests::cards::one_file::{Setting, NAME};
use harptimber_tests::trial::Random;

use crate::far_file::{far_scene, Far};
use crate::far_file::{DATA, HOLES, HOLE_AT_END, LAST_BLOCK, MISSING, PAST, USED};

/// A card with decoys, and where they are.
fn with_decoys(far: &mut Far) -> BTreeSet<u32> {
    let astray = far.astray();
    let decoys = far.scene.card.image.put_decoys(&astray);
    far.scene.card.image.settle("decoys");
    decoys
}

/// Pulls of data, holes, a missing name and past the end. Returns the blocks that were listed.
fn expect_pulls(pulls: &mut Pulls, far: &mut Far) -> BTreeSet<u32> {
    let mut listed = BTreeSet::new();
    for (index, way) in far.ways() {
        let image = far.image();
        let (nodes, mut blocks) = far.scene.lists(&way, way.len(), way.len());
        let answer = match far.data.get(&index) {
            Some(&data) => {
                pulls.expect_data(image, NAME, index, image.block(data));
                blocks.push(data);
                0
            }
            None => {
                pulls.expect_hole(image, NAME, index, BLOCK_SIZE);
                1
            }
        };
        pulls.expect_lists(&Call::new(image, NAME, index), answer, &nodes, &blocks);
        listed.extend(blocks);
    }
    let image = far.image();
    pulls.expect_hole(image, NAME, HOLE_AT_END.0, HOLE_AT_END.1);
    pulls.expect(image, NAME, PAST, 3);
    pulls.expect(image, MISSING, 0, 2);
    listed
}

/// With each block that the file has as the card's last one.
#[test]
fn pulls_up_to_the_last_block() {
    let mut pulls = Pulls::new("pull from the end of the largest card");
    for at_end in 0..USED {
        let mut far = Far::new(&mut pulls.trial.random, at_end);
        let areas = far.image().areas;
        assert_eq!([areas.main_end, areas.block_count], [LAST_BLOCK + 1; 2]);
        with_decoys(&mut far);
        let listed = expect_pulls(&mut pulls, &mut far);
        assert_eq!(listed.len(), USED);
        assert_eq!(listed.last(), Some(&LAST_BLOCK));
    }
    pulls.finish(USED as u64 * (9 * 2 + 3), &[0, 1, 2, 3]);
}

/// An inline root and an inline file, each as the card's last block. Their decoys have other bytes, and another file's
/// number.
#[test]
fn inline_inodes_up_to_the_last_block() {
    let mut pulls = Pulls::new("pull of inline inodes from the end of the largest card");
    let setting = Setting {
        root_inline: INLINE_DENTRY,
        file_inline: INLINE_DATA,
        size: INLINE_ROOM as u64,
    };
    for at_end in [0, 1] {
        let mut scene = far_scene(&mut pulls.trial.random, at_end, setting);
        let (root, file, linked) = (scene.root_block(), scene.file_block(), scene.linked);
        assert_eq!([root, file][at_end], LAST_BLOCK);
        let bytes = scene.card.image.block(file)[INLINE_AT..][..INLINE_ROOM].to_vec();
        let mut astray = scene.card.image.clone();
        let inverted: Vec<u8> = bytes.iter().map(|byte| !byte).collect();
        astray.put("inverted", file, INLINE_AT, &inverted);
        astray.set(root, linked.field(dentry::INO), 0);
        pulls.expect(&astray, NAME, 0, 9);
        scene.card.image.put_decoys(&astray);
        let image = &scene.card.image;
        pulls.expect_data(image, NAME, 0, &bytes);
        let call = Call::new(image, NAME, 0);
        pulls.expect_lists(&call, 0, &[ROOT, scene.ino], &[root, file]);
    }
    pulls.finish(2 * 3, &[0, 9]);
}

/// What pulls of each kind give.
fn results(image: &Image) -> Vec<Outcome> {
    let of_file = DATA.into_iter().chain(HOLES).chain([PAST]);
    let calls = of_file.map(|index| (NAME, index)).chain([(MISSING, 0)]);
    let result = |(name, index)| {
        let call = Call::new(image, name, index);
        Outcome::of(reference_pull, &call, Lent::least())
    };
    calls.map(result).collect()
}

/// The pulls that give data or a hole, and not what is right.
fn wrong<'a>(results: &'a [Outcome], right: &'a [Outcome]) -> impl Iterator<Item = &'a Outcome> {
    let pairs = results.iter().zip(right);
    let wrong = pairs.filter(|(result, right)| result.result() != right.result());
    wrong
        .map(|(result, _)| result)
        .filter(|result| result.pulled.answer <= 1)
}

/// Decoys in the place of their blocks are taken for them: of each alone some pull is wrong, and with all of them
/// every pull is.
#[test]
fn decoys_are_good() {
    let mut answers = Answers::default();
    let mut far = Far::new(&mut Random::new(1), 0);
    let right = results(far.image());
    let astray = far.astray();
    assert_eq!(wrong(&results(&astray), &right).count(), right.len());
    let used = far.used();
    assert_eq!(used.len(), USED);
    for block in used {
        let image = &mut far.scene.card.image;
        image.put("decoy", block, 0, astray.block(block));
        let results = results(image);
        let first = wrong(&results, &right).next();
        let first = first.unwrap_or_else(|| panic!("the decoy for {block} in {image:?}"));
        answers.note(first.pulled.answer);
        image.undo(0);
    }
    answers.finish(&[0, 1]);
}

/// The table's word on each node, whose numbers are anywhere in the longest table.
#[test]
fn lookups_of_far_nodes() {
    let mut lookups = Lookups::new("node lookup on the largest card");
    let mut far = Far::new(&mut lookups.trial.random, 0);
    with_decoys(&mut far);
    lookups.expect_nodes(&far.scene.card);
    // 455 × 256 × 118 numbers, from 0 on.
    for (number, answer) in [(13_744_639, 0), (13_744_640, 9), (u32::MAX, 9), (0, 9)] {
        lookups.expect(far.image(), number, answer);
    }
    // The two files and the root, and nine nodes.
    lookups.finish(3 + 9 + 4, &[0, 9]);
}

/// Every pull's kept card, beside a new one that is changed in one thing.
#[test]
fn compares_of_far_blocks() {
    let mut compares = Compares::new("compare at the end of the largest card");
    let mut far = Far::new(&mut compares.trial.random, 3);
    let decoys = with_decoys(&mut far);
    let kept = far.image().clone();
    for (name, index) in [(NAME, DATA[5]), (NAME, DATA[0]), (NAME, PAST), (MISSING, 0)] {
        let kept = Kept::new(&kept, name, index);
        expect_changes(&mut compares, &kept, &mut far);
        for &block in &decoys {
            turn_byte(&mut far.scene.card.image, block, BLOCK_SIZE / 2);
        }
        compares.expect(&kept, far.image(), SAME);
        far.scene.card.image.undo(0);
    }
    compares.finish(4 * 4, &[(15, 0, 0), (16, 0, 2), (16, 0, 3)]);
}

fn turn_byte(image: &mut Image, block: u32, at: usize) {
    let turned = !image.block(block)[at];
    image.put("byte", block, at, &[turned]);
}

/// In each listed block, and in the table's word on each listed number.
fn expect_changes(compares: &mut Compares, kept: &Kept, far: &mut Far) {
    compares.expect(kept, far.image(), SAME);
    for block in kept.outcome.blocks() {
        for at in [0, BLOCK_SIZE - 1] {
            turn_byte(&mut far.scene.card.image, block, at);
            compares.expect(kept, far.image(), changed(3, block));
            far.scene.card.image.undo(0);
        }
    }
    for nid in kept.outcome.nodes() {
        let (block, at) = far.scene.card.entry_place(nid);
        turn_byte(&mut far.scene.card.image, block, at + BLOCK_ADDR.at);
        compares.expect(kept, far.image(), changed(2, nid));
        far.scene.card.image.undo(0);
    }
}

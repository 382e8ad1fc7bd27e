//! Compare with a damaged volume on either side, or on both.

use harptimber_tests::calls::compares::{
    changed, refused, stored, Compares, Kept, Lists, OUT_OF_SHAPE, SAME,
};
use harptimber_tests::cards::card::ROOT;
use harptimber_tests::cards::damage::{faults_before_8, HARMS};
use harptimber_tests::cards::image::Image;
use harptimber_tests::cards::knobs::Pack;
use harptimber_tests::cards::layout::superblock::SEGMENT_COUNT_MAIN;
use harptimber_tests::cards::one_file::NAME;
use harptimber_tests::Compared;

use crate::{kinds_in_both, Volume, INDEX};

/// Data, a hole, a missing name, past the end.
const CALLS: [(&[u8], u32); 4] = [(NAME, INDEX), (NAME, 7), (b"road", 0), (NAME, INDEX + 1)];

/// Changes a card in which this block is listed.
type Change = fn(&mut Image, u32);

/// None, a byte of a listed block, and where the main area ends; and what a compare says of each where both cards open.
fn changes(listed: u32) -> [(Change, Compared); 3] {
    let byte: Change = |image, listed| {
        let old = image.block(listed)[9];
        image.put("byte", listed, 9, &[!old]);
    };
    [
        (|_, _| (), SAME),
        (byte, changed(3, listed)),
        (
            |image, _| image.set(0, SEGMENT_COUNT_MAIN, 0),
            changed(1, 0),
        ),
    ]
}

/// A card that gets damaged after it was kept, whatever the pull found and whatever else has changed. The other way
/// round it was damaged before.
#[test]
fn damaged_between() {
    let mut compares = Compares::new("compare after damage");
    for (which, pack) in kinds_in_both() {
        Volume::new(which, pack).try_changes(|image, sound| {
            let kept = sound.kept.call.image;
            let pulls = CALLS.map(|(name, index)| Kept::new(kept, name, index));
            for (n, kept) in pulls.iter().enumerate() {
                assert_eq!(kept.outcome.pulled.answer, n as u32);
                let listed = kept.outcome.blocks()[0];
                for (change, paper) in changes(listed) {
                    change(image, listed);
                    compares.expect(kept, image, paper);
                    for harm in HARMS {
                        let mark = image.mark();
                        harm(image, which);
                        compares.expect(kept, image, refused(8, 2));
                        let cards = [image.bytes(), kept.call.bytes];
                        compares.expect_in(&*image, cards, kept.lists(), refused(8, 1));
                        image.undo(mark);
                    }
                    image.undo(0);
                }
            }
        });
    }
    let met = [(15, 0, 0), (16, 0, 1), (16, 0, 3), (8, 1, 0), (8, 2, 0)];
    compares.finish(2 * 4 * 4 * 3 * (1 + 2 * 5), &met);
}

/// Cards with each answer, 8 in every way; 0 stands for one that opens.
fn cards(sound: &Image) -> Vec<(Image, u32)> {
    let mut cards = vec![(sound.clone(), 0)];
    for harm in HARMS {
        let mut card = sound.clone();
        harm(&mut card, 0);
        cards.push((card, 8));
    }
    let mut card = sound.clone();
    let [(feature, _), (no_pack, _), _] = faults_before_8(&mut card, 0);
    cards.push((card.clone(), 5));
    for (mark, answer) in [(feature, 6), (no_pack, 7)] {
        card.undo(mark);
        cards.push((card.clone(), answer));
    }
    cards
}

/// The kept card comes first, then the new one, and then the lists, however bad they are.
#[test]
fn sides_and_lists() {
    let mut compares = Compares::new("compare with damaged volumes on both sides");
    let volume = Volume::new(0, Pack::compact(1));
    let sound = &volume.scene.card.image;
    let cards = cards(sound);
    let [root, falling, main, outside] = [
        stored(&[ROOT]),
        stored(&[4, ROOT]),
        stored(&[sound.areas.main]),
        stored(&[sound.areas.main_end]),
    ];
    let good = Lists::whole(&root, &main);
    let node_count = |node_count| Lists { node_count, ..good };
    let lists = [
        (good, SAME),
        (node_count(0), OUT_OF_SHAPE),
        (node_count(2), OUT_OF_SHAPE),
        (Lists::whole(&falling, &main), OUT_OF_SHAPE),
        (Lists::whole(&root, &outside), OUT_OF_SHAPE),
        (Lists::whole(&[], &[]), OUT_OF_SHAPE),
    ];
    for (kept, of_kept) in &cards {
        for (fresh, of_fresh) in &cards {
            for (lists, of_lists) in lists {
                let paper = match (*of_kept, *of_fresh) {
                    (0, 0) => of_lists,
                    (0, answer) => refused(answer, 2),
                    (answer, _) => refused(answer, 1),
                };
                let input = ("new", fresh, "kept", kept);
                compares.expect_in(input, [kept.bytes(), fresh.bytes()], lists, paper);
            }
        }
    }
    compares.finish(9 * 9 * 6, &[(4, 0, 0), (15, 0, 0), (8, 1, 0), (8, 2, 0)]);
}

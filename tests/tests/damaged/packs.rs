//! Two packs, either of which is damaged, or both: only the chosen one counts, and it is chosen as if it weren't.

use harptimber_tests::calls::every_call::{Content, EveryCall, Sound};
use harptimber_tests::cards::card::ROOT;
use harptimber_tests::cards::damage::{Harm, HARMS};
use harptimber_tests::cards::image::Image;
use harptimber_tests::cards::knobs::Pack;
use harptimber_tests::cards::layout::checkpoint::*;
use harptimber_tests::cards::versions::{CHOSEN, PAIRS};

use crate::{content, kinds_in_both, sit_twins, sound, Volume, INDEX, PACKS};

/// A card with two packs of this kind, each of which leads to other data and another count; and what each does.
fn two_packs(pack: Pack) -> (Image, [Content; 2]) {
    let mut volume = Volume::new(0, pack);
    let first = volume.content;
    volume.scene.card.journal(&[ROOT]);
    let data = volume.scene.rewrite(2, INDEX);
    let card = &mut volume.scene.card;
    let (block, at) = card.pack.sit_journal_place().expect("a journal");
    let block = card.image.first_block(1) + block;
    card.image.put_sit_journal(block, at, &sit_twins(40));
    let second = content(card, data, 40);
    card.image.settle("two packs");
    (volume.scene.card.image, [first, second])
}

/// Makes a pack not pass.
fn spoil(image: &mut Image, which: usize) {
    image.set(image.last_block(which), CHECKSUM, 0);
}

/// A card with two packs, and cards that are sound in the same way as either.
struct Choice<'a> {
    image: &'a mut Image,
    sounds: [Sound<'a>; 2],
    /// The pack that is chosen.
    chosen: usize,
}

impl Choice<'_> {
    /// The pack in use is read.
    fn expect_read(&mut self, every: &mut EveryCall, which: usize) {
        every.expect_read(&self.sounds[which], self.image);
    }

    fn expect_refused(&mut self, every: &mut EveryCall, answer: u32) {
        every.expect_refused(&self.sounds[0].kept, self.image, answer);
    }

    /// With the harm in the other pack, in both, and in the chosen one; then the other one doesn't pass; then only the
    /// chosen one doesn't; and then neither.
    fn expect_harmed(&mut self, every: &mut EveryCall, harm: Harm) {
        let (chosen, other) = (self.chosen, 1 - self.chosen);
        let sound = self.image.mark();
        harm(self.image, other);
        self.expect_read(every, chosen);
        harm(self.image, chosen);
        self.expect_refused(every, 8);
        self.image.undo(sound);
        harm(self.image, chosen);
        self.expect_refused(every, 8);
        let harmed = self.image.mark();
        spoil(self.image, other);
        self.expect_refused(every, 8);
        self.image.undo(harmed);
        spoil(self.image, chosen);
        self.expect_read(every, other);
        spoil(self.image, other);
        self.expect_refused(every, 7);
        self.image.undo(sound);
    }

    /// With marks in last blocks, which aren't consulted, and with one that makes the checksum of a first block wrong.
    fn expect_marks(&mut self, every: &mut EveryCall) {
        let (chosen, other) = (self.chosen, 1 - self.chosen);
        let sound = self.image.mark();
        for which in [other, chosen] {
            self.image
                .add_flags(self.image.last_block(which), ALL_UNREAD);
            self.expect_read(every, chosen);
        }
        self.image.undo(sound);
        for flag in [CP_ERROR_FLAG, CP_FSCK_FLAG] {
            for (which, read) in [(other, chosen), (chosen, other)] {
                let first = self.image.first_block(which);
                let flags = self.image.get(first, CKPT_FLAGS) | u64::from(flag);
                self.image.set(first, CKPT_FLAGS, flags);
                self.expect_read(every, read);
                self.image.undo(sound);
            }
        }
    }
}

/// Tries each of the papers' pairs of versions, and others beside them.
fn for_each_choice(pack: Pack, mut tried: impl FnMut(Choice)) {
    let (image, contents) = two_packs(pack);
    let cards = [[2, 1], [1, 2]].map(|versions| {
        let mut card = image.clone();
        card.set_versions(versions);
        card
    });
    for (versions, chosen) in CHOSEN {
        let mut image = image.clone();
        image.set_versions(versions);
        tried(Choice {
            image: &mut image,
            sounds: PACKS.map(|which| sound(&cards[which], &contents[which])),
            chosen,
        });
    }
}

fn expect_choices(name: &'static str, pack: Pack) {
    let mut every = EveryCall::new(name);
    for_each_choice(pack, |mut choice| {
        for harm in HARMS {
            choice.expect_harmed(&mut every, harm);
        }
        choice.expect_marks(&mut every);
    });
    every.finish(PAIRS * (5 * 6 + 2 + 4), &[0, 7, 8]);
}

#[test]
fn compact_packs() {
    expect_choices("damaged packs, compact", Pack::compact(1));
}

#[test]
fn plain_packs() {
    expect_choices("damaged packs, plain", Pack::plain(1, CP_UMOUNT_FLAG));
}

/// A pack that stands alone, in either place, of each kind.
#[test]
fn one_pack() {
    let mut every = EveryCall::new("damaged packs that stand alone");
    for (which, pack) in kinds_in_both() {
        Volume::journalled(which, pack).try_changes(|image, sound| {
            every.expect_read(sound, image);
            for harm in HARMS {
                harm(image, which);
                every.expect_refused(&sound.kept, image, 8);
                spoil(image, which);
                every.expect_refused(&sound.kept, image, 7);
                image.undo(0);
            }
        });
    }
    every.finish(2 * 4 * 11, &[0, 7, 8]);
}

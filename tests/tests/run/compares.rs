//! Compare on the lists of a run: all that any of its blocks was read by, and nothing else, is what it stands on.

use harptimber_tests::calls::compares::{changed, Compares, Lists, SAME};
use harptimber_tests::calls::lent::Lent;
use harptimber_tests::calls::runs::{Outcome, RunCall};
use harptimber_tests::cards::card::Card;
use harptimber_tests::cards::folders::{Folders, Shape};
use harptimber_tests::cards::image::Image;
use harptimber_tests::cards::layout::{nat, BLOCK_SIZE};
use harptimber_tests::cards::one_file::NAME;
use harptimber_tests::Compared;

use crate::stretch::{boundaries, Stretch};

/// A run from a card that is kept.
struct Kept<'a> {
    call: RunCall<'a>,
    outcome: Outcome,
}

impl<'a> Kept<'a> {
    fn new(call: RunCall<'a>) -> Kept<'a> {
        let outcome = Outcome::least(&call);
        Kept { call, outcome }
    }

    fn lists(&self) -> Lists<'_> {
        Lists {
            nodes: self.outcome.lent.nodes.bytes(),
            node_count: self.outcome.run.node_count,
            blocks: self.outcome.lent.blocks.bytes(),
            block_count: self.outcome.run.block_count,
        }
    }

    /// What a compare says of a new card. If it is "same", the run from that card gives what this one gave.
    fn expect(&self, compares: &mut Compares, fresh: &Image, paper: Compared) {
        let cards = [self.call.first.bytes, fresh.bytes()];
        let input = ("new", fresh, "kept", &self.call);
        let said = compares.expect_in(input, cards, self.lists(), paper);
        if said == SAME {
            let call = self.call.on(fresh);
            let lent = Lent::longer_than(call.least(), &mut compares.trial.random);
            let again = Outcome::of(harptimber_tests::pull_run, &call, lent);
            let input = ("run again, beside the kept card's", &call);
            let results = [&again, &self.outcome].map(|outcome| (outcome.run, outcome.given()));
            let [again, kept] = results;
            compares.trial.compare(input, again, kept);
        }
    }
}

/// Each listed number gets another table answer, and each listed block another byte, one at a time.
fn expect_each_listed(compares: &mut Compares, kept: &Kept, card: &mut Card) {
    for nid in kept.outcome.nodes() {
        for (ino, block) in [(0, 0), (nid ^ 1, card.image.areas.main)] {
            card.set_entry(nid, ino, block);
            kept.expect(compares, &card.image, changed(2, nid));
            card.image.undo(0);
        }
    }
    for block in kept.outcome.blocks() {
        let at = compares.trial.random.below(BLOCK_SIZE as u64) as usize;
        let byte = !card.image.block(block)[at];
        card.image.put("byte", block, at, &[byte]);
        kept.expect(compares, &card.image, changed(3, block));
        card.image.undo(0);
    }
}

/// Every block of the main area that isn't listed changes, and the table's answers for numbers beside the listed ones.
fn expect_others(compares: &mut Compares, kept: &Kept, card: &mut Card) {
    let (nodes, blocks) = (kept.outcome.nodes(), kept.outcome.blocks());
    let beside = nodes.iter().flat_map(|nid| [nid - 1, nid + 1]);
    let has_entry = |nid: &u32| *nid < card.node_numbers && !nodes.contains(nid);
    for nid in beside.filter(has_entry).collect::<Vec<_>>() {
        let (table, at) = card.entry_place(nid);
        let junk = compares.trial.random.bytes(nat::ENTRY_SIZE);
        card.image.put("entry", table, at, &junk);
    }
    let areas = card.image.areas;
    for block in (areas.main..areas.main_end).filter(|block| !blocks.contains(block)) {
        let inverted: Vec<u8> = card.image.block(block).iter().map(|b| !b).collect();
        card.image.put("block", block, 0, &inverted);
    }
    kept.expect(compares, &card.image, SAME);
    card.image.undo(0);
}

fn expect_all(compares: &mut Compares, call: RunCall, card: &mut Card, answer: u32, count: u32) {
    let kept = Kept::new(call);
    let run = kept.outcome.run;
    assert_eq!((run.answer, run.count), (answer, count), "{:?}", kept.call);
    kept.expect(compares, &card.image, SAME);
    expect_each_listed(compares, &kept, card);
    expect_others(compares, &kept, card);
}

const EVERY: [(u32, u32, u32); 3] = [(15, 0, 0), (16, 0, 2), (16, 0, 3)];

/// Over a boundary of each kind: a whole run, one with holes, one that a damaged node ends, one to the file's end.
#[test]
fn stretches() {
    let mut compares = Compares::new("compare on the lists of runs");
    for boundary in [boundaries(923)[0], boundaries(923)[3], boundaries(923)[8]] {
        let size = u64::from(boundary + 40) * BLOCK_SIZE as u64;
        let indexes = boundary - 40..boundary + 40;
        let random = &mut compares.trial.random;
        let mut stretch = Stretch::of(random, 0, size, indexes);
        let card = &mut stretch.scene.card;
        for hole in [boundary - 3, boundary + 2] {
            card.set_address(stretch.scene.ino, hole, 0);
        }
        card.set_address(stretch.scene.ino, boundary + 30, 1);
        card.image.settle("holes, and an address outside");
        let image = card.image.clone();
        for (index, blocks, answer, count) in [
            (boundary - 12, 24, 0, 24),
            (boundary - 2, 4, 0, 4),
            (boundary + 28, 5, 13, 2),
            (boundary + 38, 9, 3, 2),
            (boundary + 40, 2, 3, 0),
        ] {
            let call = RunCall::new(&image, NAME, index, blocks);
            expect_all(&mut compares, call, &mut stretch.scene.card, answer, count);
        }
    }
    compares.finish(3 * 100, &EVERY);
}

/// As long as a run can be.
#[test]
fn longest() {
    let mut compares = Compares::new("compare on the lists of the longest run");
    let boundary = boundaries(923)[8];
    let indexes = boundary - 256..boundary + 256;
    let mut stretch = Stretch::longest(&mut compares.trial.random, 0, indexes.clone());
    let image = stretch.scene.card.image.clone();
    let call = RunCall::new(&image, NAME, indexes.start, 512);
    expect_all(&mut compares, call, &mut stretch.scene.card, 0, 512);
    compares.finish(512, &EVERY);
}

/// Every folder on the way is what a run stands on, also one that ends there.
#[test]
fn folders() {
    let mut compares = Compares::new("compare on the lists of runs of paths");
    for names in [2, 8] {
        let shapes = Shape::in_turn(names);
        let mut folders = Folders::new(&mut compares.trial.random, &shapes, 1000);
        let image = folders.card.image.clone();
        let (path, missing) = (folders.path(), folders.path_with(names - 1, b"missing"));
        let paths = [
            (&path, 998, 4, 3, 3),
            (&path, 1001, 4, 3, 0),
            (&missing, 0, 2, 2, 0),
        ];
        for (path, index, blocks, answer, count) in paths {
            let call = RunCall::new(&image, path, index, blocks);
            expect_all(&mut compares, call, &mut folders.card, answer, count);
        }
    }
    compares.finish(2 * 3 * 10, &EVERY);
}

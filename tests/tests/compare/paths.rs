//! Compare after pulls of paths: all that any folder on the way was read by, and nothing else, is what they stand on.

use harptimber_tests::calls::compares::{changed, Compares, Kept, SAME};
use harptimber_tests::cards::card::Card;
use harptimber_tests::cards::deep_folders::DeepFolders;
use harptimber_tests::cards::directory::Dentry;
use harptimber_tests::cards::folders::{Folders, Shape};
use harptimber_tests::cards::layout::BLOCK_SIZE;
use harptimber_tests::cards::names::good_name;
use harptimber_tests::sizes::NAMES_MOST;

use crate::changes::with_byte;

const EIGHT: usize = NAMES_MOST as usize;

/// Each listed number gets another table answer, and each listed block another byte, one at a time.
fn expect_each_listed(compares: &mut Compares, kept: &Kept, card: &mut Card) {
    for nid in kept.outcome.nodes() {
        for (ino, block) in [(0, 0), (nid, 0), (nid ^ 1, card.image.areas.main)] {
            card.set_entry(nid, ino, block);
            compares.expect(kept, &card.image, changed(2, nid));
            card.image.undo(0);
        }
    }
    for block in kept.outcome.blocks() {
        let at = compares.trial.random.below(BLOCK_SIZE as u64) as usize;
        let image = &mut card.image;
        with_byte(compares, kept, image, (block, at), changed(3, block));
    }
}

/// Every block of the main area that isn't listed changes at once, and the table's answers for numbers that aren't.
fn expect_others(compares: &mut Compares, kept: &Kept, card: &mut Card) {
    let (nodes, blocks) = (kept.outcome.nodes(), kept.outcome.blocks());
    for _ in 0..40 {
        let beside = nodes.iter().map(|nid| nid + 1);
        for nid in beside.filter(|nid| !nodes.contains(nid)) {
            let ino = compares.trial.random.number() as u32;
            card.set_entry(nid, ino, ino);
        }
        let areas = card.image.areas;
        for block in (areas.main..areas.main_end).filter(|block| !blocks.contains(block)) {
            if compares.trial.random.below(8) == 0 {
                let inverted: Vec<u8> = card.image.block(block).iter().map(|b| !b).collect();
                card.image.put("block", block, 0, &inverted);
            }
        }
        compares.expect(kept, &card.image, SAME);
        card.image.undo(0);
    }
}

/// Pulls of a block, of one behind it, of a name that is missing in the last folder and in the first, and of a folder.
fn calls(folders: &Folders, missing: &[u8]) -> [(Vec<u8>, u32); 5] {
    let last = folders.folders.len() - 1;
    [
        (folders.path(), folders.index),
        (folders.path(), folders.index + 1),
        (folders.path_with(last, missing), 0),
        (folders.path_with(0, missing), 0),
        (folders.path_of(last), 0),
    ]
}

#[test]
fn folders_of_every_kind() {
    let mut compares = Compares::new("compare on the lists of paths");
    let shapes = [&Shape::ALL[..], &Shape::ALL[1..2]].concat();
    for names in 2..=EIGHT {
        let random = &mut compares.trial.random;
        let mut folders = Folders::new(random, &shapes[EIGHT - names..], 1000);
        let missing = good_name(random, 9);
        let image = folders.card.image.clone();
        for (path, index) in calls(&folders, &missing) {
            let kept = Kept::new(&image, &path, index);
            compares.expect(&kept, &image, SAME);
            expect_each_listed(&mut compares, &kept, &mut folders.card);
            expect_others(&mut compares, &kept, &mut folders.card);
        }
    }
    let every = [(15, 0, 0), (16, 0, 2), (16, 0, 3)];
    compares.finish(7 * 5 * (2 * 41 + 4), &every);
}

/// The longest lists that there are.
#[test]
fn deepest_folders() {
    let mut compares = Compares::new("compare on the lists of a path through deep folders");
    let mut deep = DeepFolders::new(&mut compares.trial.random, EIGHT, 0);
    let image = deep.card.image.clone();
    let kept = Kept::new(&image, &deep.path, deep.index);
    assert_eq!(kept.outcome.pulled.answer, 0);
    compares.expect(&kept, &image, SAME);
    expect_each_listed(&mut compares, &kept, &mut deep.card);
    expect_others(&mut compares, &kept, &mut deep.card);
    let every = [(15, 0, 0), (16, 0, 2), (16, 0, 3)];
    compares.finish(3 * 270 + 700 + 2 * 41, &every);
}

/// An entry more in a folder changes what is asked of it and of those below, and not what ends before it.
#[test]
fn entries_of_folders() {
    let mut compares = Compares::new("compare with an entry more in a folder");
    for names in 1..=EIGHT {
        let mut folders = Folders::any(&mut compares.trial.random, names, 0);
        let kept = folders.card.image.clone();
        for nth in 0..names {
            let unasked = good_name(&mut compares.trial.random, 200);
            let slots = folders.folders[nth].linked.of();
            let image = &mut folders.card.image;
            image.put_dentry(slots, 140, &Dentry::new(&unasked, folders.ino));
            for asked in 1..=names {
                let path = folders.path_of(asked);
                let kept = Kept::new(&kept, &path, 0);
                // Of the folder that a path ends with its inode is read, where an inline one has its entries.
                let ends_there = asked == nth && slots.block == folders.inode_block(nth);
                let expected = match asked > nth || ends_there {
                    true => changed(3, slots.block),
                    false => SAME,
                };
                compares.expect(&kept, &folders.card.image, expected);
            }
            folders.card.image.undo(0);
        }
    }
    compares.finish(204, &[(15, 0, 0), (16, 0, 3)]);
}

/// A checkpoint after which a folder's inode is in another block. Paths that end before it don't ask for its number.
#[test]
fn moved_folders() {
    let mut compares = Compares::new("compare with a folder moved");
    for names in 1..=EIGHT {
        for nth in 0..names {
            let mut folders = Folders::any(&mut compares.trial.random, names, 0);
            let kept = folders.card.image.clone();
            let moved = folders.folders[nth].ino;
            folders.card.checkpoint(2, &[(moved, 0)]);
            for asked in 1..=names {
                let path = folders.path_of(asked);
                let kept = Kept::new(&kept, &path, 0);
                let expected = if asked < nth { SAME } else { changed(2, moved) };
                compares.expect(&kept, &folders.card.image, expected);
            }
        }
    }
    compares.finish(204, &[(15, 0, 0), (16, 0, 2)]);
}

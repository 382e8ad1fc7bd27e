//! Compare after pulls of inline files, and from an inline root.

use harptimber_tests::calls::compares::{changed, Compares, Kept, SAME};
use harptimber_tests::cards::card::ROOT;
use harptimber_tests::cards::directory::Dentry;
use harptimber_tests::cards::image::Image;
use harptimber_tests::cards::layout::inode::*;
use harptimber_tests::cards::layout::nat::ENTRY_SIZE;
use harptimber_tests::cards::layout::slots::{node_numbers, I_ADDR};
use harptimber_tests::cards::layout::BLOCK_SIZE;
use harptimber_tests::cards::one_file::{Scene, Setting, NAME};
use harptimber_tests::trial::Random;

use crate::changes::{some_places, with_byte};

const SIZE: u64 = 1000;
const TOO_LARGE: &[u8] = b"too large";

/// A kept card with an inline file, and one that is too large to be one; and the new card, so far the same.
struct Cards {
    kept: Image,
    scene: Scene,
    /// A node and a block that are there: node numbers and the first address of inline inodes lead to them.
    node: u32,
    data: u32,
}

fn cards(random: &mut Random, root_inline: u64, file_inline: u64) -> Cards {
    let setting = Setting {
        root_inline,
        file_inline,
        size: SIZE,
    };
    let mut scene = Scene::new(random, setting);
    let card = &mut scene.card;
    let too_large = card.add_file(file_inline, BLOCK_SIZE as u64);
    card.link(0, 0, &Dentry::new(TOO_LARGE, too_large));
    let other = card.add_file(0, u64::MAX);
    let node = card.way(other, ADDRESSES)[1].node.nid;
    let data = card.free_block();
    for ino in [ROOT, scene.ino] {
        let block = card.inode_block(ino);
        if card.image.get(block, I_INLINE) & (INLINE_DATA | INLINE_DENTRY) != 0 {
            card.image.set(block, I_ADDR, data.into());
            for field in node_numbers() {
                card.image.set(block, field, node.into());
            }
        }
    }
    card.image.settle("inline files, one too large");
    Cards {
        kept: scene.card.image.clone(),
        scene,
        node,
        data,
    }
}

/// Data, a missing name, past the end, and a kind that isn't read.
fn pulls(kept: &Image) -> [Kept<'_>; 4] {
    let calls = [
        (NAME, 0, 0),
        (b"road", 0, 2),
        (NAME, 1, 3),
        (TOO_LARGE, 0, 12),
    ];
    calls.map(|(name, index, answer)| {
        let pull = Kept::new(kept, name, index);
        assert_eq!(pull.outcome.pulled.answer, answer, "from {kept:?}");
        pull
    })
}

/// Inline files in a root with blocks and in an inline one, with the bit for attributes and without.
fn for_cards(compares: &mut Compares, mut test: impl FnMut(&mut Compares, Cards)) {
    for (root_inline, file_inline) in [(0, 2), (0, 3), (4, 2), (5, 3)] {
        let cards = cards(&mut compares.trial.random, root_inline, file_inline);
        test(compares, cards);
    }
}

/// Any byte of a listed block, whether the answer holds it or not.
#[test]
fn bytes_of_listed_blocks() {
    let mut compares = Compares::new("compare with a byte of an inline inode changed");
    for_cards(&mut compares, |compares, cards| {
        let Cards {
            kept, mut scene, ..
        } = cards;
        let image = &mut scene.card.image;
        for kept in &pulls(&kept) {
            compares.expect(kept, image, SAME);
            for block in kept.outcome.blocks() {
                for at in some_places(&mut compares.trial.random, 20) {
                    with_byte(compares, kept, image, (block, at), changed(3, block));
                }
            }
        }
    });
    compares.finish(4 * (4 + 26 * 6), &[(15, 0, 0), (16, 0, 3)]);
}

/// Each byte of both inodes: the file's own bytes and the slots, what lies before and behind them, and the footer.
#[test]
fn each_byte() {
    let mut compares = Compares::new("compare with each byte of inline inodes changed");
    let random = &mut compares.trial.random;
    let Cards {
        kept, mut scene, ..
    } = cards(random, INLINE_DENTRY, INLINE_DATA);
    let pulled = Kept::new(&kept, NAME, 0);
    let (root, file) = (scene.root_block(), scene.file_block());
    let image = &mut scene.card.image;
    for block in [root, file] {
        for at in 0..BLOCK_SIZE {
            with_byte(
                &mut compares,
                &pulled,
                image,
                (block, at),
                changed(3, block),
            );
        }
    }
    compares.finish(2 * 4096, &[(16, 0, 3)]);
}

/// No other block counts: not the one to which the first address leads, and no directory block for an inline root.
#[test]
fn bytes_of_other_blocks() {
    let mut compares = Compares::new("compare with blocks beside inline inodes changed");
    for_cards(&mut compares, |compares, cards| {
        let Cards {
            kept,
            mut scene,
            data,
            ..
        } = cards;
        let image = &mut scene.card.image;
        for kept in &pulls(&kept) {
            with_byte(compares, kept, image, (data, 0), SAME);
            let listed = kept.outcome.blocks();
            let main = image.areas.main..image.areas.main_end;
            for block in main.filter(|block| !listed.contains(block)) {
                let inverted: Vec<u8> = image.block(block).iter().map(|byte| !byte).collect();
                image.put("block", block, 0, &inverted);
            }
            compares.expect(kept, image, SAME);
            image.undo(0);
        }
    });
    compares.finish(4 * 4 * 2 * 2, &[(15, 0, 0)]);
}

/// The table's entries of the root and the file count; that of the number which an inline inode has doesn't.
#[test]
fn table_entries() {
    let mut compares = Compares::new("compare with table entries beside inline inodes changed");
    for_cards(&mut compares, |compares, cards| {
        let Cards {
            kept,
            mut scene,
            node,
            ..
        } = cards;
        for kept in &pulls(&kept) {
            let listed = kept.outcome.nodes();
            assert!(!listed.contains(&node), "{listed:?}");
            for nid in listed.into_iter().chain([node]) {
                let (block, at) = scene.card.entry_place(nid);
                for byte in 1..ENTRY_SIZE {
                    let paper = if nid == node { SAME } else { changed(2, nid) };
                    let place = (block, at + byte);
                    with_byte(compares, kept, &mut scene.card.image, place, paper);
                }
            }
        }
    });
    compares.finish(4 * 4 * 2 * 8, &[(15, 0, 0), (16, 0, 2)]);
}

/// A file that was inline has blocks on the new card, and the other way round.
#[test]
fn other_ways_to_read() {
    let mut compares = Compares::new("compare with other inline bits");
    for_cards(&mut compares, |compares, cards| {
        let Cards {
            kept, mut scene, ..
        } = cards;
        let pulled = Kept::new(&kept, NAME, 0);
        for block in [scene.root_block(), scene.file_block()] {
            for bit in 0..8 {
                let image = &mut scene.card.image;
                let inline = image.get(block, I_INLINE) ^ 1 << bit;
                image.set(block, I_INLINE, inline);
                compares.expect(&pulled, image, changed(3, block));
                let changed_card = image.clone();
                image.undo(0);
                let other = Kept::new(&changed_card, NAME, 0);
                compares.expect(&other, &scene.card.image, changed(3, block));
            }
        }
    });
    compares.finish(4 * 2 * 8 * 2, &[(16, 0, 3)]);
}

//! Compare after pulls from directories with a level of their own.

use harptimber_tests::calls::compares::{changed, Compares, Kept, SAME};
use harptimber_tests::cards::card::ROOT;
use harptimber_tests::cards::deep::{all_blocks, Deep};
use harptimber_tests::cards::directory::DirLevel;
use harptimber_tests::cards::image::Image;
use harptimber_tests::cards::layout::inode::{INLINE_XATTR, I_DIR_LEVEL};
use harptimber_tests::cards::layout::BLOCK_SIZE;

/// The least, the most and some between.
const LEVELS: [u32; 5] = [0, 1, 22, 23, 30];
const CARDS: u64 = 2 * 2 * 5;

/// A directory of each of these levels, its inode with many addresses and with few. Its name is there once, in the last
/// block in reach, and once not at all.
fn for_cards(compares: &mut Compares, test: impl Fn(&mut Compares, &Kept, Deep)) {
    for level in LEVELS {
        for inline in [0, INLINE_XATTR] {
            for answer in [0, 2] {
                let random = &mut compares.trial.random;
                let mut deep = Deep::reaching(random, DirLevel(level), inline);
                if answer == 0 {
                    deep.link(deep.buckets.len() - 1, deep.ino);
                    deep.card.image.settle("the file in the last block");
                }
                let (image, name) = (deep.card.image.clone(), deep.name.clone());
                let kept = Kept::new(&image, &name, 0);
                assert_eq!(kept.outcome.pulled.answer, answer, "on {image:?}");
                compares.expect(&kept, &image, SAME);
                test(compares, &kept, deep);
            }
        }
    }
}

/// Whether a pull found the file.
fn found(kept: &Kept) -> bool {
    kept.outcome.pulled.answer == 0
}

/// Changes a byte to another value, and takes it back.
fn with_byte(image: &mut Image, block: u32, at: usize, value: u8, test: impl FnOnce(&Image)) {
    assert_ne!(image.block(block)[at], value, "byte {at} of block {block}");
    let mark = image.mark();
    image.put("byte", block, at, &[value]);
    test(image);
    image.undo(mark);
}

/// The same with each of the byte's bits turned.
fn with_another(image: &mut Image, block: u32, at: usize, test: impl FnOnce(&Image)) {
    let value = !image.block(block)[at];
    with_byte(image, block, at, value, test);
}

/// The root's inode is in each list, so that another level is a change by its block, read or not. So are the bytes
/// beside it, which decide nothing.
#[test]
fn other_levels() {
    let mut compares = Compares::new("compare with another directory level");
    for_cards(&mut compares, |compares, kept, mut deep| {
        let root = deep.card.inode_block(ROOT);
        let level = deep.card.dir_level().0 as u8;
        let others = [0, 1, 2, 22, 23, 29, 30, 31, 255, level + 1, level ^ 0x80];
        for other in others.into_iter().filter(|&other| other != level) {
            let at = I_DIR_LEVEL.at;
            with_byte(&mut deep.card.image, root, at, other, |image| {
                compares.expect(kept, image, changed(3, root))
            });
        }
        for at in [I_DIR_LEVEL.at - 1, I_DIR_LEVEL.at + 1] {
            with_another(&mut deep.card.image, root, at, |image| {
                compares.expect(kept, image, changed(3, root))
            });
        }
    });
    compares.finish(CARDS * 11, &[(15, 0, 0), (16, 0, 3)]);
}

/// The file's level decides nothing, but its inode's block is listed if it was read.
#[test]
fn levels_of_the_file() {
    let mut compares = Compares::new("compare with another level of the file");
    for_cards(&mut compares, |compares, kept, mut deep| {
        let file = deep.card.inode_block(deep.ino);
        with_another(&mut deep.card.image, file, I_DIR_LEVEL.at, |image| {
            let expected = if found(kept) { changed(3, file) } else { SAME };
            compares.expect(kept, image, expected)
        });
    });
    compares.finish(CARDS * 2, &[(15, 0, 0), (16, 0, 3)]);
}

/// Every block on the way.
#[test]
fn blocks_of_the_directory() {
    let mut compares = Compares::new("compare with another block of a directory with a level");
    for_cards(&mut compares, |compares, kept, mut deep| {
        let (_, listed) = deep.lists(deep.buckets.len());
        for block in listed {
            let at = compares.trial.random.below(BLOCK_SIZE as u64) as usize;
            with_another(&mut deep.card.image, block, at, |image| {
                compares.expect(kept, image, changed(3, block))
            });
        }
    });
    compares.finish(CARDS * 6, &[(15, 0, 0), (16, 0, 3)]);
}

/// Entries with the name where it isn't sought, in the next buckets and where it would be with another level, and then none.
#[test]
fn other_blocks_of_the_directory() {
    let mut compares = Compares::new("compare with an entry beside a directory's buckets");
    for level in LEVELS {
        for inline in [0, INLINE_XATTR] {
            let random = &mut compares.trial.random;
            let mut deep = Deep::reaching(random, DirLevel(level), inline);
            let next_buckets = deep.buckets.iter().map(|at| u64::from(at.index) + 2);
            let others = [0, level + 1].map(DirLevel).into_iter();
            let by_others = others.flat_map(|other| all_blocks(other, &deep.name));
            let by_others = by_others.map(|(_, index)| index);
            let mut beside: Vec<u64> = next_buckets.chain(by_others).collect();
            beside.retain(|&index| deep.link_astray(index));
            let blocks = beside.iter().filter_map(|&index| deep.card.block_at(index));
            let blocks: Vec<u32> = blocks.map(|(_, block)| block).collect();
            assert!(blocks.len() > 10, "blocks beside those of level {level}");
            deep.card.image.settle("entries beside the buckets");
            let (image, name) = (deep.card.image.clone(), deep.name.clone());
            let kept = Kept::new(&image, &name, 0);
            for block in blocks {
                deep.card.image.clear_slots(block);
                compares.expect(&kept, &deep.card.image, SAME);
            }
        }
    }
    compares.finish(2 * 5 * 11, &[(15, 0, 0)]);
}

/// A checkpoint after which a node is in another block: the root's inode, also with another level, and the last node on
/// the way. The file's inode is only listed if it was read.
#[test]
fn moved_nodes() {
    let mut compares = Compares::new("compare with moved nodes of a directory with a level");
    let root = |deep: &Deep| deep.card.node(ROOT, 0).nid;
    let last_of = |deep: &Deep| *deep.buckets.last().unwrap().way.last().unwrap();
    for_cards(&mut compares, |compares, kept, mut deep| {
        deep.card.checkpoint(2, &[(ROOT, 0)]);
        compares.expect(kept, &deep.card.image, changed(2, root(&deep)));
        let moved = deep.card.inode_block(ROOT);
        let level = u64::from(deep.card.dir_level().0);
        deep.card.image.set(moved, I_DIR_LEVEL, level ^ 1);
        compares.expect(kept, &deep.card.image, changed(2, root(&deep)));
    });
    for_cards(&mut compares, |compares, kept, mut deep| {
        let last = last_of(&deep);
        deep.card.checkpoint(2, &[(ROOT, last.place)]);
        compares.expect(kept, &deep.card.image, changed(2, last.node.nid));
    });
    for_cards(&mut compares, |compares, kept, mut deep| {
        let ino = deep.ino;
        deep.card.checkpoint(2, &[(ino, 0)]);
        match found(kept) {
            true => compares.expect(kept, &deep.card.image, changed(2, ino)),
            false => compares.expect(kept, &deep.card.image, SAME),
        }
    });
    compares.finish(CARDS * 7, &[(15, 0, 0), (16, 0, 2)]);
}

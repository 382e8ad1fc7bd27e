//! Compare after a pull: one change at a time to the new card.

use harptimber_tests::calls::compares::{changed, refused, Compares, Kept, SAME};
use harptimber_tests::calls::lookups::journalled;
use harptimber_tests::cards::image::Image;
use harptimber_tests::cards::knobs::{Knobs, Pack};
use harptimber_tests::cards::layout::checkpoint::CP_UMOUNT_FLAG;
use harptimber_tests::cards::layout::journal::JournalEntry;
use harptimber_tests::cards::layout::nat::{NatEntry, ENTRIES_PER_BLOCK, ENTRY_SIZE};
use harptimber_tests::cards::layout::superblock::{
    MAIN_BLKADDR, SEGMENT_COUNT_MAIN, SEGMENT_COUNT_SSA,
};
use harptimber_tests::cards::layout::{Field, BLOCK_SIZE, SEGMENT_BLOCKS};
use harptimber_tests::cards::maps::BITS;
use harptimber_tests::cards::one_file::{small_knobs, Scene, Setting, NAME};
use harptimber_tests::trial::Random;
use harptimber_tests::Compared;

/// The block behind the first indirect node of 923 addresses.
pub const INDEX: u32 = 2959;
const SIZE: u64 = (INDEX as u64 + 1) * BLOCK_SIZE as u64;
/// Data, a hole, a missing name, past the end.
const CALLS: [(&[u8], u32); 4] = [(NAME, INDEX), (NAME, 7), (b"road", 0), (NAME, INDEX + 1)];

/// A kept card, and the new one, so far the same.
pub struct Cards {
    kept: Image,
    pub scene: Scene,
    /// The file's data.
    data: u32,
}

pub fn cards(random: &mut Random) -> Cards {
    let setting = Setting {
        root_inline: 0,
        file_inline: 0,
        size: SIZE,
    };
    let mut scene = Scene::new(random, setting);
    let data = scene.card.add_block(scene.ino, INDEX);
    scene.card.image.settle("a block behind an indirect node");
    Cards {
        kept: scene.card.image.clone(),
        scene,
        data,
    }
}

pub fn pulls(kept: &Image) -> [Kept<'_>; 4] {
    let pulls = CALLS.map(|(name, index)| Kept::new(kept, name, index));
    let answers = [0, 1, 2, 3].map(|n: usize| pulls[n].outcome.pulled.answer);
    assert_eq!(answers, [0, 1, 2, 3], "pulls from {kept:?}");
    pulls
}

/// Changes a byte, expects this of a compare, and takes the change back.
pub fn with_byte(
    compares: &mut Compares,
    kept: &Kept,
    image: &mut Image,
    place: (u32, usize),
    paper: Compared,
) {
    let (block, at) = place;
    let old = image.block(block)[at];
    let by = 1 + compares.trial.random.below(255) as u8;
    let mark = image.mark();
    image.put("byte", block, at, &[old ^ by]);
    compares.expect(kept, image, paper);
    image.undo(mark);
}

pub fn some_places(random: &mut Random, count: usize) -> Vec<usize> {
    let ends = [
        0,
        1,
        BLOCK_SIZE / 2,
        BLOCK_SIZE - 9,
        BLOCK_SIZE - 2,
        BLOCK_SIZE - 1,
    ];
    let others = (0..count).map(|_| random.below(BLOCK_SIZE as u64) as usize);
    ends.into_iter().chain(others).collect()
}

#[test]
fn bytes_of_listed_blocks() {
    let mut compares = Compares::new("compare with a byte of a listed block changed");
    let Cards {
        kept,
        mut scene,
        data,
    } = cards(&mut compares.trial.random);
    let image = &mut scene.card.image;
    for kept in &pulls(&kept) {
        compares.expect(kept, image, SAME);
        for block in kept.outcome.blocks() {
            for at in some_places(&mut compares.trial.random, 20) {
                with_byte(&mut compares, kept, image, (block, at), changed(3, block));
            }
        }
    }
    let whole = Kept::new(&kept, NAME, INDEX);
    for at in 0..BLOCK_SIZE {
        with_byte(&mut compares, &whole, image, (data, at), changed(3, data));
    }
    compares.finish(4 + 26 * 13 + 4096, &[(15, 0, 0), (16, 0, 3)]);
}

/// A bit of the directory's map, of the reserved bytes behind it too. Most of them are in one run of free slots, which
/// is skipped: the block has changed, whatever is found there.
#[test]
fn bits_of_the_map() {
    let mut compares = Compares::new("compare with a bit of the directory's map changed");
    let Cards {
        kept, mut scene, ..
    } = cards(&mut compares.trial.random);
    let (image, block) = (&mut scene.card.image, scene.linked.block);
    for kept in &pulls(&kept) {
        for bit in 0..BITS {
            let old = image.block(block)[bit / 8];
            image.put("bit", block, bit / 8, &[old ^ 1 << (bit % 8)]);
            compares.expect(kept, image, changed(3, block));
            image.undo(0);
        }
    }
    compares.finish(4 * 240, &[(16, 0, 3)]);
}

/// Main-area blocks that aren't listed, and blocks of other areas that nothing consults.
#[test]
fn bytes_of_other_blocks() {
    let mut compares = Compares::new("compare with a byte of another block changed");
    let Cards {
        kept, mut scene, ..
    } = cards(&mut compares.trial.random);
    let image = &mut scene.card.image;
    let areas = image.areas;
    let unused = [
        1,
        areas.cp + 2,
        areas.sit,
        areas.ssa,
        areas.ssa + 511,
        areas.main_end,
    ];
    for kept in &pulls(&kept) {
        let listed = kept.outcome.blocks();
        let main = areas.main..areas.main_end;
        let others: Vec<u32> = main
            .chain(unused)
            .filter(|block| !listed.contains(block))
            .collect();
        for &block in &others {
            let at = compares.trial.random.below(BLOCK_SIZE as u64) as usize;
            with_byte(&mut compares, kept, image, (block, at), SAME);
        }
        // Each byte of them at once.
        for &block in &others {
            let inverted: Vec<u8> = image.block(block).iter().map(|byte| !byte).collect();
            image.put("block", block, 0, &inverted);
        }
        compares.expect(kept, image, SAME);
        image.undo(0);
    }
    compares.finish(2 * 4 * 500, &[(15, 0, 0)]);
}

/// An entry's version byte says nothing; a listed number's other bytes do, in the copy in use.
#[test]
fn table_entries() {
    let mut compares = Compares::new("compare with a byte of a table entry changed");
    let Cards {
        kept, mut scene, ..
    } = cards(&mut compares.trial.random);
    for kept in &pulls(&kept) {
        let listed = kept.outcome.nodes();
        let beside = listed
            .iter()
            .flat_map(|nid| [nid - 1, nid + 1, nid + ENTRIES_PER_BLOCK]);
        for nid in beside.chain(listed.clone()) {
            let place = scene.card.entry_place(nid);
            let image = &mut scene.card.image;
            let other = [0, 1].map(|copy| image.nat_place(nid, copy));
            let other = other
                .into_iter()
                .find(|&other| other != place)
                .expect("a copy");
            for at in 0..ENTRY_SIZE {
                let counts = at > 0 && listed.contains(&nid);
                let paper = if counts { changed(2, nid) } else { SAME };
                with_byte(&mut compares, kept, image, (place.0, place.1 + at), paper);
                with_byte(&mut compares, kept, image, (other.0, other.1 + at), SAME);
            }
        }
    }
    compares.finish(4 * 4 * 2 * 9, &[(15, 0, 0), (16, 0, 2)]);
}

/// Entries that the new card's journal has: for a listed number the same words or others, and for numbers
/// that aren't listed. With two for one number it isn't read.
fn journals(nid: u32, unlisted: u32, table: NatEntry) -> Vec<(Vec<JournalEntry>, Compared)> {
    let same = journalled(
        nid,
        NatEntry {
            version: !table.version,
            ..table
        },
    );
    let other_ino = journalled(
        nid,
        NatEntry {
            ino: table.ino ^ 1 << 31,
            ..table
        },
    );
    let other_address = journalled(
        nid,
        NatEntry {
            block_addr: table.block_addr ^ 1,
            ..table
        },
    );
    let elsewhere = [0, unlisted, u32::MAX].map(|nid| journalled(nid, table));
    let behind = |entries: &[JournalEntry]| [&elsewhere, entries].concat();
    let (other, twice) = (changed(2, nid), refused(8, 2));
    vec![
        (vec![same], SAME),
        (vec![other_ino], other),
        (vec![other_address], other),
        (vec![same, other_ino, other_address], twice),
        (vec![other_address, same], twice),
        (vec![same, same], twice),
        (elsewhere.to_vec(), SAME),
        (behind(&[same]), SAME),
        (behind(&[other_ino]), other),
        (behind(&[other_ino, same]), twice),
        (behind(&elsewhere[1..2]), twice),
    ]
}

#[test]
fn journal_entries() {
    let mut compares = Compares::new("compare with another journal");
    let Cards {
        kept, mut scene, ..
    } = cards(&mut compares.trial.random);
    let unlisted = scene.card.free_number();
    let card = &mut scene.card;
    for kept in &pulls(&kept) {
        for nid in kept.outcome.nodes() {
            let table = card
                .image
                .nat_entry(nid, card.pack.nat_copy(nid / ENTRIES_PER_BLOCK));
            for (entries, paper) in journals(nid, unlisted, table) {
                card.image.set_journal(card.which_pack, &entries);
                compares.expect(kept, &card.image, paper);
                card.image.undo(0);
            }
        }
        // The table's entries lead elsewhere then.
        card.journal(&kept.outcome.nodes());
        compares.expect(kept, &card.image, SAME);
        card.image.undo(0);
    }
    compares.finish(4 * 11 + 4, &[(8, 2, 0), (15, 0, 0), (16, 0, 2)]);
}

/// Where the main area starts or ends. The second copy of the superblock isn't used.
#[test]
fn main_bounds() {
    let mut compares = Compares::new("compare with other main area bounds");
    let Cards {
        kept, mut scene, ..
    } = cards(&mut compares.trial.random);
    let image = &mut scene.card.image;
    let main = u64::from(image.areas.main);
    let later = [
        (SEGMENT_COUNT_SSA, 2),
        (MAIN_BLKADDR, main + u64::from(SEGMENT_BLOCKS)),
    ];
    let bounds: [Vec<(Field, u64)>; 4] = [
        vec![(SEGMENT_COUNT_MAIN, 0)],
        vec![(SEGMENT_COUNT_MAIN, 2)],
        later.to_vec(),
        [later.as_slice(), &[(SEGMENT_COUNT_MAIN, 0)]].concat(),
    ];
    for kept in &pulls(&kept) {
        for fields in &bounds {
            image.set_all(1, fields);
            compares.expect(kept, image, SAME);
            image.set_all(0, fields);
            compares.expect(kept, image, changed(1, 0));
            // The bounds come before everything else.
            let root = kept.outcome.blocks()[0];
            image.put("byte", root, 0, &[!image.block(root)[0]]);
            compares.expect(kept, image, changed(1, 0));
            image.undo(0);
        }
    }
    compares.finish(4 * 4 * 3, &[(15, 0, 0), (16, 0, 1)]);
}

/// A newer pack in the other place with the same table says the same, whatever its kind; one that
/// takes the other copy of a table block says other things of the numbers in it.
#[test]
fn newer_packs() {
    let mut compares = Compares::new("compare with a newer pack");
    let Cards {
        kept, mut scene, ..
    } = cards(&mut compares.trial.random);
    let card = &mut scene.card;
    let knobs = small_knobs(&mut Random::new(0));
    let with_map = |nat_map: &[u8], pack: Pack| Pack {
        nat_map: nat_map.to_vec(),
        ..pack
    };
    let map = card.pack.nat_map.clone();
    for kept in &pulls(&kept) {
        for pack in [
            Pack::compact(2),
            Pack::plain(9, 0),
            Pack::plain(1 << 63, CP_UMOUNT_FLAG),
        ] {
            card.image.add_pack(1, &with_map(&map, pack), &knobs);
            compares.expect(kept, &card.image, SAME);
            card.image.undo(0);
        }
        let nodes = kept.outcome.nodes();
        for &nid in &nodes {
            let expected = add_other_map(&mut card.image, &knobs, &map, &nodes, nid);
            compares.expect(kept, &card.image, changed(2, expected));
            card.image.undo(0);
        }
    }
    compares.finish(4 * 3 + 4, &[(15, 0, 0), (16, 0, 2)]);
}

/// The table block of `nid` is taken from its other copy. Returns the lowest listed number in it.
fn add_other_map(image: &mut Image, knobs: &Knobs, map: &[u8], nodes: &[u32], nid: u32) -> u32 {
    let table_block = nid / ENTRIES_PER_BLOCK;
    let mut pack = Pack {
        nat_map: map.to_vec(),
        ..Pack::compact(2)
    };
    pack.turn_nat_copy(table_block);
    image.add_pack(1, &pack, knobs);
    let mut within = nodes
        .iter()
        .filter(|&&nid| nid / ENTRIES_PER_BLOCK == table_block);
    *within.next().expect("the number itself")
}

/// The lowest number and the lowest block are named, and numbers before blocks.
#[test]
fn several_differences() {
    let mut compares = Compares::new("compare with several changes");
    let Cards {
        kept, mut scene, ..
    } = cards(&mut compares.trial.random);
    let card = &mut scene.card;
    for kept in &pulls(&kept) {
        for &block in kept.outcome.blocks().iter().rev() {
            card.image
                .put("byte", block, 9, &[!card.image.block(block)[9]]);
            compares.expect(kept, &card.image, changed(3, block));
        }
        for &nid in kept.outcome.nodes().iter().rev() {
            card.set_entry(nid, 0, 0);
            compares.expect(kept, &card.image, changed(2, nid));
        }
        card.image.undo(0);
    }
    compares.finish(4 * 3, &[(16, 0, 2), (16, 0, 3)]);
}

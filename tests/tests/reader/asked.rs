//! The blocks that a reader asks for, by how a card was built: in opening, and where a pull reads as much as can be.

use harptimber_tests::calls::pulls::Call;
use harptimber_tests::calls::readers::Read;
use harptimber_tests::cards::deep_folders::{DeepFolders, SOUGHT};
use harptimber_tests::cards::folders::{Folders, Shape};
use harptimber_tests::cards::image::Image;
use harptimber_tests::cards::layout::checkpoint::{
    CHECKSUM, CKPT_FLAGS, CP_ERROR_FLAG, CP_PACK_TOTAL_BLOCK_COUNT,
};
use harptimber_tests::cards::layout::inode::INLINE_XATTR;
use harptimber_tests::cards::layout::superblock::{FEATURE, MAGIC};
use harptimber_tests::sizes::{reader_blocks_most, NAMES_MOST};
use harptimber_tests::trial::Trial;

/// What is wrong with a pack.
#[derive(Clone, Copy, Debug, PartialEq, Eq)]
enum Fault {
    Nothing,
    FirstBlock,
    Total,
    LastBlock,
}

impl Fault {
    const ALL: [Fault; 4] = [
        Fault::Nothing,
        Fault::FirstBlock,
        Fault::Total,
        Fault::LastBlock,
    ];

    fn put(self, image: &mut Image, which: usize) {
        let (first, last) = (image.first_block(which), image.last_block(which));
        match self {
            Fault::Nothing => (),
            Fault::FirstBlock => image.set(first, CHECKSUM, 0),
            Fault::Total => image.set_sealed(first, CP_PACK_TOTAL_BLOCK_COUNT, 513),
            Fault::LastBlock => image.set(last, CHECKSUM, 0),
        }
    }

    /// A pack's last block is asked for only if its first one passes.
    fn asked(self, [first, last]: [u32; 2]) -> Vec<u32> {
        match self {
            Fault::Nothing | Fault::LastBlock => vec![first, last],
            Fault::FirstBlock | Fault::Total => vec![first],
        }
    }
}

/// A card with two packs, of which the second is in use, and the path of a file.
fn two_packs(trial: &mut Trial) -> (Image, Vec<u8>) {
    let folders = Folders::new(&mut trial.random, &[Shape::PLAIN], 0);
    let path = folders.path();
    let mut image = folders.card.image;
    image.copy_pack(0);
    image.set_versions([1, 2]);
    image.settle("two packs");
    (image, path)
}

/// What opening asks for, and the answer if it is refused.
fn opening(image: &Image, copy_fails: bool, faults: [Fault; 2]) -> (Vec<u32>, Option<u32>) {
    let mut asked = vec![0];
    if copy_fails {
        asked.push(1);
    }
    for (which, fault) in faults.into_iter().enumerate() {
        asked.extend(fault.asked([image.first_block(which), image.last_block(which)]));
    }
    let passes = |which: &usize| faults[*which] == Fault::Nothing;
    match [1, 0].into_iter().find(passes) {
        Some(chosen) => {
            asked.push(image.journal_place(chosen).0);
            (asked, None)
        }
        None => (asked, Some(7)),
    }
}

/// Both copies of the superblock and both packs, each sound or not.
#[test]
fn in_opening() {
    let mut trial = Trial::new("blocks that opening asks for");
    let (mut image, path) = two_packs(&mut trial);
    for copy_fails in [false, true] {
        for first in Fault::ALL {
            for second in Fault::ALL {
                let (asked, answer) = opening(&image, copy_fails, [first, second]);
                if copy_fails {
                    image.set(0, MAGIC, 0);
                }
                first.put(&mut image, 0);
                second.put(&mut image, 1);
                expect_opening(&mut trial, &Call::new(&image, &path, 0), &asked, answer);
                image.undo(0);
            }
        }
    }
    trial.finish(2 * 4 * 4);
}

/// The first blocks asked for are these, and the others behind the packs.
fn expect_opening(trial: &mut Trial, call: &Call, asked: &[u32], answer: Option<u32>) {
    let read = Read::whole(call);
    let told = read.outcome(call.least()).pulled.answer;
    let (opening, walk) = read.asked.split_at(asked.len().min(read.asked.len()));
    let behind = walk.iter().all(|&block| block >= call.image.areas.sit);
    trial.compare(
        call,
        (opening, told, walk.is_empty(), behind),
        (asked, answer.unwrap_or(0), answer.is_some(), true),
    );
}

/// An answer from 5 to 8 comes as soon as it is certain.
#[test]
fn until_refused() {
    let mut trial = Trial::new("blocks asked for by cards that don't open");
    let (mut image, path) = two_packs(&mut trial);
    let whole = opening(&image, false, [Fault::Nothing; 2]).0;
    let both_copies = [0, 1];
    for (answer, asked, fault) in [
        (5, &both_copies[..], MAGIC),
        (6, &whole[..1], FEATURE),
        (8, &whole[..5], CKPT_FLAGS),
    ] {
        let (blocks, value) = match answer {
            5 => (vec![0, 1], 0),
            6 => (vec![0], 1),
            _ => (vec![image.first_block(1)], u64::from(CP_ERROR_FLAG)),
        };
        for block in blocks {
            match answer {
                8 => image.set_sealed(block, fault, value),
                _ => image.set(block, fault, value),
            }
        }
        expect_opening(
            &mut trial,
            &Call::new(&image, &path, 0),
            asked,
            Some(answer),
        );
        image.undo(0);
    }
    trial.finish(3);
}

/// Through folders in which a name is sought in 58 blocks: each node and each block as often as it is read, and its
/// number looked up as often. An inode is read once for all blocks that are sought behind it.
#[test]
fn most() {
    let mut trial = Trial::new("blocks asked for through deep folders");
    for names in 1..=NAMES_MOST {
        for inline in [0, INLINE_XATTR] {
            let deep = DeepFolders::new(&mut trial.random, names as usize, inline);
            let (nodes, blocks) = deep.lists();
            let again = 2 * (SOUGHT - 1) * names as usize;
            let opening = 5;
            let reads = opening + nodes.len() + blocks.len() - again;
            let call = Call::new(&deep.card.image, &deep.path, deep.index);
            let read = Read::whole(&call);
            println!("  {names} names: {reads} blocks asked for");
            trial.compare(&call, read.asked.len(), reads);
            assert!(reads <= reader_blocks_most(names) as usize);
        }
    }
    trial.finish(2 * 8);
}

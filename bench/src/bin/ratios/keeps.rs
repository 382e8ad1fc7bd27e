//! Keep files: written, read, and checked on a card.

use crate::calls::Listed;
use harptimber_bench::agreed::Agreed;
use harptimber_bench::grid::{contender, Contender};
use harptimber_bench::pulls::BLOCK_SIZE;
use harptimber_tests::calls::keep_files::{reference_compare, reference_read};
use harptimber_tests::calls::keep_parts::Parts;
use harptimber_tests::calls::keeps::{reference_keep, Keep};
use harptimber_tests::sizes::keep_most;
use harptimber_tests::{keep, keep_compare, keep_read, node_lookup, Compared, KeepFields};
use reference::open::open;
use std::hint::black_box;

type Read = fn(&[u8]) -> KeepFields;
type Check = fn(&[u8], &[u8]) -> Compared;

/// Both sides of each call, in the order of the table.
const KEEPS: [Keep; 2] = [keep, reference_keep];
const READS: [Read; 2] = [keep_read, reference_read];
const CHECKS: [Check; 2] = [keep_compare, reference_compare];

/// Enough for any path of one name.
const ROOM: usize = keep_most(1) as usize;

/// Both sides write the keep file of a file's first block.
pub fn writers<'a>(
    image: &'a [u8],
    name: &'a str,
    what: &str,
    agreed: &mut Agreed,
) -> Vec<Contender<'a>> {
    let [archive, reference] = KEEPS.map(|keep| {
        let mut room = vec![0xA5; ROOM];
        (keep(image, name.as_bytes(), 0, &mut room), room)
    });
    agreed.see(archive.0.answer == 0 && archive == reference, what);
    let side = |keep: Keep| {
        let mut room = vec![0; ROOM];
        contender(move || keep(black_box(image), name.as_bytes(), 0, &mut room))
    };
    KEEPS.map(side).into()
}

/// The keep file of a pull that listed this.
pub fn file(image: &[u8], name: &str, listed: &Listed) -> Vec<u8> {
    let opened = open(image).expect("a card that opens");
    let node = |&number: &u32| {
        let entry = node_lookup(image, number);
        [number, entry.answer, entry.inode, entry.address]
    };
    let content = |&block: &u32| {
        let at = block as usize * BLOCK_SIZE;
        (block, image[at..at + BLOCK_SIZE].to_vec())
    };
    let parts = Parts {
        path: name.as_bytes().to_vec(),
        pull: [0, 0, BLOCK_SIZE as u32],
        block: vec![0xA5; BLOCK_SIZE],
        bounds: [opened.main_start, opened.main_end],
        nodes: listed.nodes.iter().map(node).collect(),
        blocks: listed.blocks.iter().map(content).collect(),
    };
    parts.laid_out()
}

pub fn readers<'a>(file: Vec<u8>, what: &str, agreed: &mut Agreed) -> Vec<Contender<'a>> {
    let [archive, reference] = READS.map(|read| read(&file));
    agreed.see(archive.answer == 0 && archive == reference, what);
    let side = |read: Read| {
        let file = file.clone();
        contender(move || read(black_box(&file)))
    };
    READS.map(side).into()
}

/// Both sides check the file on a card, on which nothing has changed.
pub fn checks<'a>(
    file: Vec<u8>,
    fresh: &'a [u8],
    what: &str,
    agreed: &mut Agreed,
) -> Vec<Contender<'a>> {
    let [archive, reference] = CHECKS.map(|check| check(&file, fresh));
    agreed.see(archive.answer == 15 && archive == reference, what);
    let side = |check: Check| {
        let file = file.clone();
        contender(move || check(black_box(&file), black_box(fresh)))
    };
    CHECKS.map(side).into()
}

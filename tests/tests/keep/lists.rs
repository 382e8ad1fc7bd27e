//! Reading a keep file: which are refused by their header, lists, table answers and bounds, and which aren't.

use harptimber_tests::calls::compares::{disordered, stored, SAME};
use harptimber_tests::calls::keep_files::{KeepFiles, Seen};
use harptimber_tests::calls::keep_parts::{Parts, HEADER_SIZE};
use harptimber_tests::calls::lent::NUMBER_SIZE;
use harptimber_tests::cards::layout::BLOCK_SIZE;

use crate::Source;

/// As wide as bounds can be.
const WIDEST: [u32; 2] = [0, u32::MAX];

/// No keep file, by what is wrong with its parts.
fn expect_refused(files: &mut KeepFiles, what: &str, parts: &Parts, fresh: &[u8]) {
    files.expect_refused(what, &parts.laid_out(), fresh);
}

/// Each number of the header other than what the rest of the file says.
#[test]
fn header() {
    let mut files = KeepFiles::new("keep files by their headers");
    for Source { image, parts } in Source::all(&mut files.trial.random) {
        let file = parts.laid_out();
        files.expect("whole", &file, image.bytes(), Seen::of(&parts, SAME));
        for at in (0..HEADER_SIZE).step_by(NUMBER_SIZE) {
            let place = at..at + NUMBER_SIZE;
            let number = u32::from_le_bytes(file[place.clone()].try_into().unwrap());
            let near = [1, 4, 16, 4100, 1 << 8, 1 << 16, 1 << 24, 1 << 31];
            let near = near.map(|by| [number.wrapping_add(by), number.wrapping_sub(by)]);
            let other = near.as_flattened().iter().copied().chain([0, u32::MAX]);
            for other in other.filter(|&other| other != number) {
                let mut file = file.clone();
                file[place.clone()].copy_from_slice(&other.to_le_bytes());
                files.expect_refused(("number at", at, other), &file, image.bytes());
            }
        }
    }
    files.finish(3 * (1 + 6 * 16), &[(15, 0, 0), (18, 0, 0)]);
}

/// The header of a file with more in it, before the rest of another, and the other way round.
#[test]
fn header_without_its_file() {
    let mut files = KeepFiles::new("keep files by headers of other files");
    for Source { image, parts } in Source::all(&mut files.trial.random) {
        let file = parts.laid_out();
        let longer_path = parts.with(|parts| parts.path.push(b'x'));
        let more_nodes = parts.with(|parts| parts.nodes.push([u32::MAX, 9, 0, 0]));
        let [_, end] = parts.bounds;
        let more_blocks = parts.with(|parts| parts.blocks.push((end - 1, vec![0; BLOCK_SIZE])));
        for (what, other) in [
            ("longer path", longer_path),
            ("more nodes", more_nodes),
            ("more blocks", more_blocks),
        ] {
            let other = other.laid_out();
            files.compare(what, &other, image.bytes());
            let header = [&other[..HEADER_SIZE], &file[HEADER_SIZE..]].concat();
            files.expect_refused((what, "header alone"), &header, image.bytes());
            let rest = [&file[..HEADER_SIZE], &other[HEADER_SIZE..]].concat();
            files.expect_refused((what, "all but the header"), &rest, image.bytes());
        }
    }
    files.finish(3 * 3 * 3, &[(15, 0, 0), (18, 0, 0)]);
}

/// Parts with these numbers, in bounds that take any.
fn numbered(parts: &Parts, nodes: &[u32], blocks: &[u32]) -> Parts {
    let node = |&nid: &u32| [nid, 0, nid, nid];
    let content = |&block: &u32| (block, vec![block as u8; BLOCK_SIZE]);
    Parts {
        nodes: nodes.iter().map(node).collect(),
        blocks: blocks.iter().map(content).collect(),
        bounds: WIDEST,
        ..parts.clone()
    }
}

/// A file with these numbers is read exactly if both lists rise.
fn expect_order(files: &mut KeepFiles, source: &Source, lists: [&[u32]; 2]) {
    let [nodes, blocks] = lists;
    let parts = numbered(&source.parts, nodes, blocks);
    let fresh = source.image.bytes();
    let rises = |list: &[u32]| list.windows(2).all(|two| two[0] < two[1]);
    match rises(nodes) && rises(blocks) {
        true => files.expect_read(("numbers", lists), &parts, fresh),
        false => files.expect_refused(("numbers", lists), &parts.laid_out(), fresh),
    }
}

#[test]
fn order() {
    let mut files = KeepFiles::new("keep files with lists that don't rise");
    let source = Source::missing(&mut files.trial.random);
    for len in [2, 3, 17] {
        let [nodes, blocks] = [100, 4096].map(|first| (first..first + len).collect::<Vec<u32>>());
        expect_order(&mut files, &source, [&nodes, &blocks]);
        for nodes in disordered(&nodes) {
            expect_order(&mut files, &source, [&nodes, &blocks]);
        }
        for blocks in disordered(&blocks) {
            expect_order(&mut files, &source, [&nodes, &blocks]);
        }
    }
    // Above 2^31 too numbers rise: they have no sign. Neither do bytes decide alone.
    let far = [
        0,
        1,
        255,
        256,
        1 << 16,
        (1 << 31) - 1,
        1 << 31,
        u32::MAX - 1,
    ];
    for first in far {
        for second in far {
            expect_order(&mut files, &source, [&[first, second], &[]]);
            expect_order(&mut files, &source, [&[3], &[first, second]]);
        }
    }
    let every = [(16, 0, 1), (18, 0, 0)];
    files.finish(3 + 2 * 2 * (1 + 2 + 16) + 2 * 64, &every);
}

/// Numbers that no table has, and the greatest: a list may have any, if it rises.
#[test]
fn any_numbers() {
    let mut files = KeepFiles::new("keep files with any numbers");
    let source = Source::no_blocks(&mut files.trial.random);
    for nodes in [&[0][..], &[u32::MAX], &[0, u32::MAX], &[0, 1, 2, 3, 4]] {
        for blocks in [&[][..], &[0], &[u32::MAX - 1], &[0, 1, u32::MAX - 1]] {
            expect_order(&mut files, &source, [nodes, blocks]);
        }
    }
    files.finish(4 * 4, &[(16, 0, 1)]);
}

/// A number with table answers, and with other numbers in their place.
fn entries(nid: u32) -> Vec<[u32; 4]> {
    let answers = [
        0,
        1,
        3,
        4,
        8,
        9,
        10,
        0x109,
        0x1_0009,
        0x0900_0000,
        0x8000_0009,
    ];
    let others = [0, 1, 9, 256, 1 << 31, u32::MAX];
    let with = |answer| {
        let pairs = others.map(|inode| others.map(|address| [nid, answer, inode, address]));
        pairs.as_flattened().to_vec()
    };
    answers.into_iter().flat_map(with).collect()
}

/// "its table answer (9, 0, 0 or 0, inode, address)", at each place of a list.
#[test]
fn table_answers() {
    let mut files = KeepFiles::new("keep files by table answers");
    let Source { image, parts } = Source::data(&mut files.trial.random);
    for nth in 0..parts.nodes.len() {
        for entry in entries(parts.nodes[nth][0]) {
            let parts = parts.with(|parts| parts.nodes[nth] = entry);
            match entry[1..] {
                [0, ..] | [9, 0, 0] => files.expect_read(entry, &parts, image.bytes()),
                _ => files.expect_refused(entry, &parts.laid_out(), image.bytes()),
            }
        }
    }
    files.finish(4 * 11 * 36, &[(16, 0, 2), (18, 0, 0)]);
}

/// "no node" is refused, whatever blocks there are.
#[test]
fn no_node() {
    let mut files = KeepFiles::new("keep files without nodes");
    for Source { image, parts } in Source::all(&mut files.trial.random) {
        let without = parts.with(|parts| parts.nodes.clear());
        expect_refused(&mut files, "no node", &without, image.bytes());
        let empty = without.with(|parts| parts.blocks.clear());
        expect_refused(&mut files, "nothing listed", &empty, image.bytes());
        // The nodes' bytes are still there, as a part of something else.
        let nodes = stored(parts.nodes.as_flattened());
        let in_path = empty.with(|parts| parts.path.extend(nodes));
        expect_refused(&mut files, "nodes in the path", &in_path, image.bytes());
    }
    files.finish(3 * 3, &[(18, 0, 0)]);
}

/// Each block at and beside either bound; with none listed, any bounds will do.
#[test]
fn bounds() {
    let mut files = KeepFiles::new("keep files by bounds and blocks");
    let source = Source::missing(&mut files.trial.random);
    let fresh = source.image.bytes();
    let ends = [0, 1, 4096, 4097, 4100, (1 << 31) - 1, 1 << 31, u32::MAX];
    for start in ends {
        for end in ends {
            let bounded = |blocks: &[u32]| Parts {
                bounds: [start, end],
                ..numbered(&source.parts, &[3], blocks)
            };
            files.expect_read(("no block", start, end), &bounded(&[]), fresh);
            for block in ends.iter().flat_map(|end| [end.wrapping_sub(1), *end]) {
                let (input, parts) = (("block", block, start, end), bounded(&[block]));
                match start <= block && block < end {
                    true => files.expect_read(input, &parts, fresh),
                    false => files.expect_refused(input, &parts.laid_out(), fresh),
                }
            }
        }
    }
    files.finish(64 * 17, &[(16, 0, 1), (18, 0, 0)]);
}

/// The one that lies outside is the first, the last or one between.
#[test]
fn one_block_outside() {
    let mut files = KeepFiles::new("keep files with one block outside");
    let Source { image, parts } = Source::data(&mut files.trial.random);
    let blocks: Vec<u32> = parts.blocks.iter().map(|(block, _)| *block).collect();
    let (first, last) = (blocks[0], blocks[blocks.len() - 1]);
    let bounded = |bounds| parts.with(|parts| parts.bounds = bounds);
    files.expect_read("just", &bounded([first, last + 1]), image.bytes());
    for bounds in [
        [first + 1, last + 1],
        [first, last],
        [first + 1, last],
        [blocks[3], last + 1],
        [first, blocks[3]],
        [last + 1, first],
    ] {
        expect_refused(&mut files, "tight bounds", &bounded(bounds), image.bytes());
    }
    files.finish(7, &[(16, 0, 1), (18, 0, 0)]);
}

/// Whatever the path is, what the pull gave and what the block holds: none of that is tested, and it decides nothing.
#[test]
fn untested() {
    let mut files = KeepFiles::new("keep files by what isn't tested");
    for Source { image, parts } in Source::all(&mut files.trial.random) {
        let long = files.trial.random.bytes(70_000);
        for path in [&b""[..], b"/", b"//", b"a\0b", &[b'x'; 256], &long] {
            let parts = parts.with(|parts| parts.path = path.to_vec());
            let paper = Seen::of(&parts, SAME);
            files.expect("path", &parts.laid_out(), image.bytes(), paper);
        }
        for nth in 0..3 {
            for number in (0..20).chain([4095, 4096, 4097, 1 << 31, u32::MAX]) {
                let parts = parts.with(|parts| parts.pull[nth] = number);
                let paper = Seen::of(&parts, SAME);
                files.expect((nth, number), &parts.laid_out(), image.bytes(), paper);
            }
        }
        for block in [vec![0; BLOCK_SIZE], vec![0xFF; BLOCK_SIZE]] {
            let parts = parts.with(|parts| parts.block = block);
            let paper = Seen::of(&parts, SAME);
            files.expect("block", &parts.laid_out(), image.bytes(), paper);
        }
    }
    files.finish(3 * (6 + 3 * 25 + 2), &[(15, 0, 0)]);
}

//! Keep files of cards that the published tools write: each has its file's own bytes, without the card.

use harptimber_tests::calls::keep_parts::Parts;
use harptimber_tests::calls::keeps::{written, Keeps};
use harptimber_tests::calls::pulls::Call;
use harptimber_tests::cards::layout::BLOCK_SIZE;
use harptimber_tests::keep_read;
use harptimber_tests::sizes::{keep_most, NAMES_MOST};
use harptimber_tests::tools::published::{contents, filled_with, File, LONGEST_INLINE};

/// What a keep file has of its pull is a block of the file.
fn expect_kept(keeps: &mut Keeps, call: &Call, bytes: &[u8]) {
    keeps.expect(call, 0);
    let file = written(call, keep_most(NAMES_MOST) as usize).expect("a keep file");
    let parts = Parts::of_file(&file, &keep_read(&file));
    let mut block = bytes.to_vec();
    block.resize(BLOCK_SIZE, 0);
    assert_eq!(parts.path, call.name, "path of {call:?}");
    assert_eq!(parts.pull, [call.index, 0, bytes.len() as u32]);
    assert!(parts.block == block, "bytes of {call:?}");
}

/// In the inode, behind direct nodes and inline, in the root and in folders.
#[test]
fn blocks_of_files() {
    let mut keeps = Keeps::new("keep from cards by the tools");
    let sizes = [
        ("road.bin", 2000 * BLOCK_SIZE + 1),
        ("friction.tbl", LONGEST_INLINE),
        ("wet/road.bin", 5 * BLOCK_SIZE - 1),
        ("runs/2026/wet/north/left/front/2/lap.bin", 100),
    ];
    let random = &mut keeps.trial.random;
    let files: [File; 4] = sizes.map(|(path, size)| (path.into(), contents(random, size)));
    let image = filled_with(100, "", &files);
    for (path, bytes) in &files {
        let blocks: Vec<&[u8]> = bytes.chunks(BLOCK_SIZE).collect();
        let last = blocks.len() - 1;
        for index in (0..last).step_by(97).chain([last]) {
            let call = Call::new(&image, path, index as u32);
            expect_kept(&mut keeps, &call, blocks[index]);
        }
        let past = Call::new(&image, path, last as u32 + 1);
        keeps.expect(&past, 3);
        let missing = [path, &b"x"[..]].concat();
        keeps.expect(&Call::new(&image, &missing, 0), 2);
    }
    keeps.finish(22 + 1 + 2 + 1 + 2 * 4, &[0, 2, 3]);
}

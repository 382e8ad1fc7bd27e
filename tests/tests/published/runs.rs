//! Runs of files on cards that the published tools write: a file, run by run, has its very bytes.

use harptimber_tests::calls::runs::{Outcome, RunCall, Runs};
use harptimber_tests::cards::image::Image;
use harptimber_tests::cards::layout::BLOCK_SIZE;
use harptimber_tests::sizes::RUN_MOST;
use harptimber_tests::tools::published::{contents, filled_with, File, LONGEST_INLINE};

/// Reads a file from its start on, in runs of so many blocks. All but the last run are whole.
fn expect_file(runs: &mut Runs, image: &Image, (path, bytes): &File, blocks: u32) {
    let past = bytes.len().div_ceil(BLOCK_SIZE) as u32;
    let mut read = Vec::new();
    for first in (0..=past).step_by(blocks as usize) {
        let call = RunCall::new(image, path, first, blocks);
        let count = blocks.min(past - first);
        let answer = if count == blocks { 0 } else { 3 };
        runs.expect(&call, answer, count);
        let outcome = Outcome::least(&call);
        read.extend(outcome.given().bytes);
        if count > 0 && first + count == past {
            let cut = BLOCK_SIZE - outcome.run.byte_count as usize;
            read.truncate(read.len() - cut);
        }
    }
    assert!(read == *bytes, "the bytes of {path:?}, by {blocks} blocks");
}

/// Inline, in the inode, behind direct nodes and behind an indirect one, in the root and in folders.
#[test]
fn whole_files() {
    let mut runs = Runs::new("runs from cards by the tools");
    let sizes = [
        ("road.bin", (873 + 2 * 1018 + 30) * BLOCK_SIZE - 7),
        ("whole", 1024 * BLOCK_SIZE),
        ("friction.tbl", LONGEST_INLINE),
        ("wet/road.bin", 5 * BLOCK_SIZE - 1),
        ("runs/2026/wet/north/left/front/2/lap.bin", 100_000),
    ];
    let random = &mut runs.trial.random;
    let files: [File; 5] = sizes.map(|(path, size)| (path.into(), contents(random, size)));
    let image = filled_with(100, "", &files);
    for file in &files {
        expect_file(&mut runs, &image, file, RUN_MOST);
        expect_file(&mut runs, &image, file, 500);
        let missing = [&file.0, &b"x"[..]].concat();
        runs.expect(&RunCall::new(&image, &missing, 0, RUN_MOST), 2, 0);
    }
    for file in &files[2..] {
        expect_file(&mut runs, &image, file, 2);
    }
    runs.finish(
        6 + 3 + 3 + 5,
        &[(0, true), (2, false), (3, true), (3, false)],
    );
}

//! Runs of inline files: one block stands, then comes 3.

use harptimber_tests::calls::runs::Runs;
use harptimber_tests::cards::card::inline_room_by;
use harptimber_tests::cards::layout::inode::{INLINE_AT, INLINE_DATA, I_SIZE};
use harptimber_tests::cards::layout::BLOCK_SIZE;

use crate::stretch::{Stretch, INLINES};

#[test]
fn one_stands() {
    let mut runs = Runs::new("runs of inline files");
    for inline in INLINES {
        let room = inline_room_by(inline);
        let inline = inline | INLINE_DATA;
        let mut stretch = Stretch::of(&mut runs.trial.random, inline, 1, 0..0);
        let inode = stretch.scene.file_block();
        for size in [1, 2, 100, room - 1, room] {
            let image = &mut stretch.scene.card.image;
            image.set(inode, I_SIZE, size as u64);
            let mut bytes = image.block(inode)[INLINE_AT..INLINE_AT + size].to_vec();
            bytes.resize(BLOCK_SIZE, 0);
            for blocks in [1, 2, 511, 512] {
                let mut told = stretch.found(if blocks == 1 { 0 } else { 3 });
                told.byte_count = size as u32;
                told.bytes = bytes.clone();
                runs.expect_given(&stretch.call(0, blocks), &told);
                for index in [1, 2, 923, u32::MAX] {
                    let told = stretch.found(3);
                    runs.expect_given(&stretch.call(index, blocks), &told);
                }
            }
        }
        for (size, answer) in [(0, 3), (room + 1, 12)] {
            let image = &mut stretch.scene.card.image;
            image.set(inode, I_SIZE, size as u64);
            for (index, blocks) in [(0, 1), (0, 512), (1, 2)] {
                let told = stretch.found(answer);
                runs.expect_given(&stretch.call(index, blocks), &told);
            }
        }
    }
    let answers = [(0, true), (3, true), (3, false), (12, false)];
    runs.finish(2 * (5 * 4 * 5 + 2 * 3), &answers);
}

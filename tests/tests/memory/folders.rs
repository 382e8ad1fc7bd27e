//! Paths through folders, and directories with a level of their own.

use harptimber_tests::calls::guard_script::Script;
use harptimber_tests::cards::card::ROOT;
use harptimber_tests::cards::deep::Deep;
use harptimber_tests::cards::deep_folders::DeepFolders;
use harptimber_tests::cards::directory::DirLevel;
use harptimber_tests::cards::folders::Folders;
use harptimber_tests::cards::layout::inode::I_DIR_LEVEL;
use harptimber_tests::cards::random_trees::random_trees;
use harptimber_tests::trial::Random;

use crate::damage::damage_card;
use crate::tight_inline::move_to_end;

/// Paths of one to eight names of so many bytes, as they are, without their ends and with more behind them. Each inode
/// on the way is once the last block of the main area.
pub(crate) fn folders(script: &mut Script, random: &mut Random, len: usize) {
    for names in 1..=8 {
        let mut folders = Folders::of_len(random, names, len);
        let (sound, path) = (folders.card.image.clone(), folders.path());
        script.card(&sound);
        assert_eq!(script.pull(&sound, &sound, &path, 0), 0);
        for (cut, answer) in [(1, 2), (len, 4), (len + 1, 12)] {
            let shorter = &path[..path.len().saturating_sub(cut)];
            let answer = if shorter.is_empty() { 4 } else { answer };
            assert_eq!(script.pull(&sound, &sound, shorter, 0), answer);
        }
        for more in ["/", "//", "/x/x/x/x/x/x/x/x"] {
            let longer = [&path, more.as_bytes()].concat();
            assert_eq!(script.pull(&sound, &sound, &longer, 0), 4);
        }
        for ino in folders.inodes() {
            move_to_end(&mut folders.card, ino);
            assert_eq!(script.pull(&sound, &folders.card.image, &path, 0), 0);
            folders.card.image.undo(0);
        }
    }
}

/// The longest lists, in rooms that are just long enough for the names.
fn deep_folders(script: &mut Script, random: &mut Random, names: usize) {
    let deep = DeepFolders::new(random, names, 0);
    let image = &deep.card.image;
    script.card(image);
    assert_eq!(script.pull(image, image, &deep.path, deep.index), 0);
}

pub(crate) fn all_folders(script: &mut Script, random: &mut Random) {
    for len in [2, 8, 255] {
        folders(script, random, len);
    }
    for names in [1, 2, 8] {
        deep_folders(script, random, names);
    }
    for _ in 0..3 {
        let trees = random_trees(random);
        damage_card(script, random, trees, 100);
    }
}

/// A directory with a level of its own: its name in none of the blocks in which it is sought, in the first and in the
/// last. Then the directory says that it has these levels.
pub(crate) fn leveled(script: &mut Script, random: &mut Random, level: u32, others: &[u64]) {
    let mut deep = Deep::reaching(random, DirLevel(level), 0);
    let sound = deep.card.image.clone();
    let root = deep.card.inode_block(ROOT);
    script.card(&sound);
    assert_eq!(script.pull(&sound, &sound, &deep.name, 0), 2);
    for bucket in [0, deep.buckets.len() - 1] {
        deep.link(bucket, deep.ino);
        assert_eq!(script.pull(&sound, &deep.card.image, &deep.name, 0), 0);
        deep.card.image.undo(0);
    }
    for &other in others {
        deep.card.image.set(root, I_DIR_LEVEL, other);
        let answer = script.pull(&sound, &deep.card.image, &deep.name, 0);
        assert_eq!(answer == 12, other > 30, "{answer} for level {other}");
        deep.card.image.undo(0);
    }
}

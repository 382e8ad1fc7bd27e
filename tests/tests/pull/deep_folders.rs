//! Pull: paths through the deepest folders, of which as much is listed as can be.

use std::collections::BTreeSet;

use harptimber_tests::calls::lent::{Lens, NUMBER_SIZE};
use harptimber_tests::calls::pulls::{Call, Pulls};
use harptimber_tests::cards::deep_folders::{DeepFolders, SOUGHT};
use harptimber_tests::cards::directory::in_slot;
use harptimber_tests::cards::layout::dentry::HASH_CODE;
use harptimber_tests::cards::layout::inode::INLINE_XATTR;
use harptimber_tests::sizes::{blocks_most, nodes_most, NAMES_MOST};

/// How many nodes and blocks there are, each counted once.
fn counts((nodes, blocks): &(Vec<u32>, Vec<u32>)) -> (usize, usize) {
    let count = |list: &[u32]| list.iter().collect::<BTreeSet<_>>().len();
    (count(nodes), count(blocks))
}

/// The least nodes of a folder whose name was chosen for many. The bound counts three below the inode for each block,
/// which are never all different: small indexes need fewer, and the two blocks of a bucket mostly share theirs.
const NODES_OF_FOLDER: usize = 34;

/// The lists are as long as the folders' are together, beyond what one name asks room for, and within the room for as
/// many names.
#[test]
fn most_listed() {
    let mut pulls = Pulls::new("pull through one to eight deep folders");
    for names in 1..=NAMES_MOST {
        for inline in [0, INLINE_XATTR] {
            let random = &mut pulls.trial.random;
            let mut deep = DeepFolders::new(random, names as usize, inline);
            let lists = deep.lists();
            let (nodes, blocks) = counts(&lists);
            println!("  {names} names: {nodes} nodes, {blocks} blocks");
            assert!(nodes >= NODES_OF_FOLDER * names as usize + 4);
            // Each node is in a block, and there are those of the folders and the file's own.
            assert_eq!(blocks, nodes + SOUGHT * names as usize + 1);
            assert!(nodes <= nodes_most(names) as usize && blocks <= blocks_most(names) as usize);
            let call = Call::new(&deep.card.image, &deep.path, deep.index);
            pulls.expect_lists(&call, 0, &lists.0, &lists.1);
            let image = &deep.card.image;
            pulls.expect_data(image, &deep.path, deep.index, image.block(deep.data));
            pulls.expect(image, &deep.path, u32::MAX, 3);
            // The last name isn't there after all.
            let (nodes, blocks) = deep.searched();
            let (last, image) = (deep.last, &mut deep.card.image);
            image.set(last, in_slot(HASH_CODE, 170), 0);
            let call = Call::new(image, &deep.path, deep.index);
            pulls.expect_lists(&call, 2, &nodes, &blocks);
        }
    }
    pulls.finish(2 * 8 * 4, &[0, 2, 3]);
}

/// What is listed has room in less than has to be lent, and that is refused all the same.
#[test]
fn room_that_would_do() {
    let mut pulls = Pulls::new("pull through deep folders by room");
    for names in 2..=NAMES_MOST {
        let deep = DeepFolders::new(&mut pulls.trial.random, names as usize, 0);
        let (nodes, blocks) = counts(&deep.lists());
        if names == NAMES_MOST {
            assert!(nodes > nodes_most(1) as usize && blocks > blocks_most(1) as usize);
        }
        let call = Call::new(&deep.card.image, &deep.path, deep.index);
        let enough = Lens::of(names);
        let just = Lens {
            nodes: nodes * NUMBER_SIZE,
            blocks: blocks * NUMBER_SIZE,
            ..enough
        };
        let nodes_short = Lens {
            nodes: enough.nodes - 1,
            ..enough
        };
        let blocks_short = Lens {
            blocks: enough.blocks - 1,
            ..enough
        };
        for lens in [just, nodes_short, blocks_short, Lens::of(names - 1)] {
            pulls.expect_with(lens, &call, 4);
        }
        pulls.expect_with(enough, &call, 0);
    }
    pulls.finish(7 * 5, &[0, 4]);
}

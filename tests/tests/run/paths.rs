//! Runs of paths of one to eight names: each folder's lists are there, and a stop on the way is the run's.

use std::collections::BTreeSet;

use harptimber_tests::calls::runs::{Given, RunCall, Runs};
use harptimber_tests::cards::deep_folders::DeepFolders;
use harptimber_tests::cards::folders::{list, Folders, Shape};
use harptimber_tests::cards::layout::inode::I_SIZE;
use harptimber_tests::cards::stops::{stops, INDEX};
use harptimber_tests::sizes::{run_blocks_most, RUN_MOST};

use crate::stretch::boundaries;

/// Of a run from before the file's one block on, two holes and the block stand. Each stop takes some of them away.
#[test]
fn stops_on_the_way() {
    let mut runs = Runs::new("runs stopped on the way");
    let mut tried = 0;
    for names in [1, 2, 8] {
        let shapes = Shape::in_turn(names);
        let mut folders = Folders::new(&mut runs.trial.random, &shapes, INDEX);
        let path = folders.path();
        let all = stops(&mut folders);
        // Those from the file's size on: behind the blocks in the inode.
        let late = all.len() - 6;
        for (nth, (answer, block, field, value)) in all.into_iter().enumerate() {
            folders.card.image.set(block, field, value);
            let call = RunCall::new(&folders.card.image, &path, INDEX - 2, 5);
            match (nth < late, answer) {
                (true, _) => runs.expect(&call, answer, 0),
                (_, 1) => runs.expect(&call, 3, 3),
                _ => runs.expect(&call, answer, 2),
            }
            folders.card.image.undo(0);
            tried += 1;
        }
        let call = RunCall::new(&folders.card.image, &path, INDEX - 2, 5);
        runs.expect(&call, 3, 3);
    }
    let before = [2, 9, 10, 11, 12, 13, 14].map(|answer| (answer, false));
    let behind = [3, 9, 10, 11, 13].map(|answer| (answer, true));
    runs.finish(tried + 3, &[&before[..], &behind].concat());
}

/// The file of the folders gets a block at each of these indexes. Returns what a run of them lists beside the folders'.
fn fill(deep: &mut DeepFolders, first: u32) -> (Vec<u32>, Vec<u32>) {
    let (mut nodes, mut blocks) = (Vec::new(), Vec::new());
    for index in first..first + RUN_MOST {
        blocks.push(deep.card.add_block(deep.ino, index));
        list(&deep.card.way(deep.ino, index), &mut nodes, &mut blocks);
    }
    (nodes, blocks)
}

/// As much as a run comes to list: deep folders, and blocks behind two children of the double indirect node.
#[test]
fn most_listed() {
    let mut runs = Runs::new("runs through deep folders");
    for names in [1, 2, 8] {
        let mut deep = DeepFolders::new(&mut runs.trial.random, names, 0);
        let first = boundaries(923)[8] - RUN_MOST / 2;
        let (nodes, blocks) = fill(&mut deep, first);
        let distinct: BTreeSet<u32> = nodes.iter().copied().collect();
        assert_eq!(
            distinct.len(),
            6,
            "the inode, the double, two children, two leaves"
        );
        let searched = deep.searched();
        let bytes = (first..first + RUN_MOST).flat_map(|index| {
            let address = deep.card.address(deep.ino, index);
            deep.card.image.block(address).to_vec()
        });
        let told = Given {
            answer: 0,
            byte_count: 4096,
            bytes: bytes.collect(),
            nodes: searched.0.into_iter().chain(nodes).collect(),
            blocks: searched.1.into_iter().chain(blocks).collect(),
        };
        let listed = (told.nodes.len(), told.blocks.len());
        println!("  {names} names: {listed:?} listed");
        assert!(listed.1 <= run_blocks_most(names as u32) as usize);
        let call = RunCall::new(&deep.card.image, &deep.path, first, RUN_MOST);
        runs.expect_given(&call, &told);
        let few = RunCall::new(&deep.card.image, &deep.path, first + 255, 2);
        runs.expect(&few, 0, 2);
    }
    runs.finish(3 * 2, &[(0, true)]);
}

/// A name that isn't there, in the last folder and in the first: the search is listed, and nothing stands.
#[test]
fn missing_names() {
    let mut runs = Runs::new("runs of missing names");
    for names in [1, 2, 8] {
        let shapes = Shape::in_turn(names);
        let mut folders = Folders::new(&mut runs.trial.random, &shapes, 0);
        for nth in [0, names - 1] {
            let path = folders.path_with(nth, b"missing");
            for blocks in [1, 2, 512] {
                runs.expect(&RunCall::new(&folders.card.image, &path, 0, blocks), 2, 0);
            }
        }
        let path = folders.path();
        let inode = folders.card.inode_block(folders.ino);
        folders.card.image.set(inode, I_SIZE, 0);
        runs.expect(&RunCall::new(&folders.card.image, &path, 0, 2), 3, 0);
    }
    runs.finish(3 * 7, &[(2, false), (3, false)]);
}

//! Pull: files in folders, and what a path may pass on its way.

use harptimber_tests::calls::pulls::{Call, Pulls};
use harptimber_tests::cards::folders::{list, Folders, Shape};
use harptimber_tests::cards::layout::dentry::{HASH_CODE, INO};
use harptimber_tests::cards::layout::inode::*;
use harptimber_tests::cards::layout::{footer, BLOCK_SIZE};
use harptimber_tests::cards::names::good_name;
use harptimber_tests::cards::tree::sample_indexes;
use harptimber_tests::sizes::NAMES_MOST;

const EIGHT: usize = NAMES_MOST as usize;
/// One to eight of them.
const DEPTHS: u64 = 36;

/// A path of each length, each time with folders of other kinds.
fn for_paths(pulls: &mut Pulls, times: u64, test: impl Fn(&mut Pulls, Folders)) {
    for _ in 0..pulls.trial.times(times) {
        for names in 1..=EIGHT {
            let folders = Folders::any(&mut pulls.trial.random, names, 0);
            test(pulls, folders);
        }
    }
}

/// The same for each of the folders on the way.
fn for_folders(pulls: &mut Pulls, times: u64, test: impl Fn(&mut Pulls, &mut Folders, usize)) {
    for_paths(pulls, times, |pulls, mut folders| {
        for nth in 0..folders.folders.len() {
            test(pulls, &mut folders, nth);
            folders.card.image.undo(0);
        }
    });
}

/// Expects that the search in a folder, the last that is come to, gives an answer; the inode is all that is read of it.
fn expect_at_inode(pulls: &mut Pulls, folders: &Folders, nth: usize, answer: u32) {
    let (mut nodes, mut blocks) = folders.lists(nth);
    nodes.push(folders.folders[nth].ino);
    blocks.push(folders.inode_block(nth));
    let path = folders.path();
    let call = Call::new(&folders.card.image, &path, folders.index);
    pulls.expect_lists(&call, answer, &nodes, &blocks);
}

/// Every pair of kinds, one in the other, and all of them in a row.
#[test]
fn kinds_of_folders() {
    let mut pulls = Pulls::new("pull from folders of every kind");
    let pairs = Shape::ALL
        .iter()
        .flat_map(|above| Shape::ALL.map(|below| vec![*above, below]));
    let all = [&Shape::ALL[..], &Shape::ALL[..1]].concat();
    for shapes in pairs.chain([all]) {
        let mut folders = Folders::new(&mut pulls.trial.random, &shapes, 0);
        let (nodes, blocks) = folders.whole_lists();
        let (image, path) = (&folders.card.image, folders.path());
        pulls.expect_lists(&Call::new(image, &path, 0), 0, &nodes, &blocks);
        pulls.expect_data(image, &path, 0, image.block(folders.data));
    }
    pulls.finish(2 * 50, &[0]);
}

/// The file's block behind nodes of every kind, the one behind it, and a hole.
#[test]
fn files_in_folders() {
    let mut pulls = Pulls::new("pull of a file's blocks in folders");
    for names in 1..=EIGHT {
        for index in sample_indexes(ADDRESSES) {
            let mut folders = Folders::any(&mut pulls.trial.random, names, index);
            let (nodes, blocks) = folders.whole_lists();
            let path = folders.path();
            let image = &folders.card.image;
            pulls.expect_lists(&Call::new(image, &path, index), 0, &nodes, &blocks);
            pulls.expect_data(image, &path, index, image.block(folders.data));
            pulls.expect(image, &path, index + 1, 3);
            folders.card.set_address(folders.ino, index, 0);
            pulls.expect_hole(&folders.card.image, &path, index, BLOCK_SIZE);
        }
    }
    pulls.finish(8 * 20 * 4, &[0, 1, 3]);
}

/// Any prefix of the path leads to a folder, which isn't a file; and the file isn't a folder.
#[test]
fn folders_for_files() {
    let mut pulls = Pulls::new("pull of a folder, and below a file");
    for_paths(&mut pulls, 4, |pulls, folders| {
        let (image, names) = (&folders.card.image, folders.folders.len());
        for shorter in 1..names {
            let path = folders.path_of(shorter);
            let (mut nodes, mut blocks) = folders.lists(shorter);
            nodes.push(folders.folders[shorter].ino);
            blocks.push(folders.inode_block(shorter));
            pulls.expect_lists(&Call::new(image, &path, 0), 12, &nodes, &blocks);
        }
        if names < EIGHT {
            let (mut nodes, mut blocks) = folders.lists(names);
            nodes.push(folders.ino);
            blocks.push(folders.card.inode_block(folders.ino));
            for below in [b"/x".as_slice(), b"/.", b"/.."] {
                let path = [folders.path().as_slice(), below].concat();
                pulls.expect_lists(&Call::new(image, &path, 0), 12, &nodes, &blocks);
            }
        }
    });
    pulls.finish(4 * (DEPTHS - 8 + 7 * 3), &[12]);
}

/// A name that isn't in its folder is missing, whatever comes behind it and wherever else it is.
#[test]
fn missing_names() {
    let mut pulls = Pulls::new("pull of a path with a name that is missing");
    for_folders(&mut pulls, 4, |pulls, folders, nth| {
        let name = good_name(&mut pulls.trial.random, 6);
        let path = folders.path_with(nth, &name);
        pulls.expect(&folders.card.image, &path, 0, 2);
        // With the entry gone.
        let linked = folders.folders[nth].linked;
        folders
            .card
            .image
            .set(linked.block, linked.field(HASH_CODE), 0);
        let (nodes, blocks) = folders.lists(nth + 1);
        let path = folders.path();
        let image = &folders.card.image;
        pulls.expect(image, &path, 0, 2);
        let stops_there = linked.block == folders.inode_block(nth);
        if stops_there {
            pulls.expect_lists(&Call::new(image, &path, 0), 2, &nodes, &blocks);
        }
    });
    pulls.finish(4 * DEPTHS * 2, &[2]);
}

/// Holes on the way to a folder's block: each node number and the address. The nodes before them are listed.
#[test]
fn holes_on_the_way() {
    let mut pulls = Pulls::new("pull through folders with holes");
    for_folders(&mut pulls, 4, |pulls, folders, nth| {
        let folder = &folders.folders[nth];
        if folder.linked.block == folder.way[0].node.block {
            return;
        }
        let (way, path) = (folder.way.clone(), folders.path());
        let (mut nodes, mut blocks) = folders.lists(nth);
        for (n, passage) in way.iter().enumerate() {
            list(&way[n..=n], &mut nodes, &mut blocks);
            let values = if n + 1 == way.len() {
                &HOLES[..]
            } else {
                &HOLES[..1]
            };
            for &hole in values {
                let image = &mut folders.card.image;
                image.set(passage.node.block, passage.slot, hole);
                let call = Call::new(image, &path, 0);
                pulls.expect_lists(&call, 2, &nodes, &blocks);
                image.undo(0);
            }
        }
    });
    pulls.finish(2 * DEPTHS, &[2]);
}

/// Addresses that say hole. Of node numbers only the first does.
const HOLES: [u64; 2] = [0, u32::MAX as u64];

/// Each kind of inode by its mode in place of a folder.
#[test]
fn modes_on_the_way() {
    let mut pulls = Pulls::new("pull by the kinds on the way");
    for_folders(&mut pulls, 1, |pulls, folders, nth| {
        for kind in 0..16 {
            for rest in [0, 0o755, 0xFFF] {
                let mode = kind << 12 | rest;
                let block = folders.inode_block(nth);
                folders.card.image.set(block, I_MODE, mode);
                match mode & 0xF000 {
                    S_IFDIR => pulls.expect(&folders.card.image, &folders.path(), 0, 0),
                    _ => expect_at_inode(pulls, folders, nth, 12),
                }
            }
        }
    });
    pulls.finish(DEPTHS * 48, &[0, 12]);
}

/// What the root is refused for, any folder is: by its depth, its level, its inline bits and its size.
#[test]
fn refused_folders() {
    let mut pulls = Pulls::new("pull through folders that aren't read");
    for_folders(&mut pulls, 2, |pulls, folders, nth| {
        let block = folders.inode_block(nth);
        let inline = folders.card.image.get(block, I_INLINE);
        let room = INLINE_DIRECTORY_ROOM as u64;
        let is_inline = inline & INLINE_DENTRY != 0;
        let above_room = if is_inline { 12 } else { 0 };
        for (field, value, answer) in [
            (I_CURRENT_DEPTH, 63, 0),
            (I_CURRENT_DEPTH, 64, 12),
            (I_CURRENT_DEPTH, 1 << 31, 12),
            (I_DIR_LEVEL, 31, 12),
            (I_DIR_LEVEL, 255, 12),
            (I_INLINE, inline | INLINE_DATA, 12),
            (I_INLINE, inline | EXTRA_ATTR, 12),
            (I_SIZE, 0, 2),
            (I_SIZE, 1, 0),
            (I_SIZE, room, 0),
            (I_SIZE, room + 1, above_room),
            (I_SIZE, u64::MAX, above_room),
        ] {
            folders.card.image.set(block, field, value);
            match answer {
                0 => pulls.expect(&folders.card.image, &folders.path(), 0, 0),
                _ => expect_at_inode(pulls, folders, nth, answer),
            }
            folders.card.image.undo(0);
        }
        // Nothing is sought in no hash level, unless the entries are in the inode.
        folders.card.image.set(block, I_CURRENT_DEPTH, 0);
        match is_inline {
            true => pulls.expect(&folders.card.image, &folders.path(), 0, 0),
            false => expect_at_inode(pulls, folders, nth, 2),
        }
    });
    pulls.finish(2 * DEPTHS * 13, &[0, 2, 12]);
}

/// 12 comes before 2: a folder without entries that isn't read either, and one that is no folder.
#[test]
fn refused_before_missing() {
    let mut pulls = Pulls::new("pull through empty folders that aren't read");
    for_folders(&mut pulls, 2, |pulls, folders, nth| {
        let block = folders.inode_block(nth);
        for (field, value) in [
            (I_CURRENT_DEPTH, 64),
            (I_DIR_LEVEL, 31),
            (I_MODE, S_IFREG),
            (I_INLINE, INLINE_DATA),
        ] {
            folders.card.image.set(block, I_SIZE, 0);
            folders.card.image.set(block, field, value);
            expect_at_inode(pulls, folders, nth, 12);
            folders.card.image.undo(0);
        }
    });
    pulls.finish(2 * DEPTHS * 4, &[12]);
}

/// The number in an entry: none, those that no node has, out of range, and other nodes of the card.
#[test]
fn numbers_in_entries() {
    let mut pulls = Pulls::new("pull by the numbers in entries on the way");
    for_folders(&mut pulls, 2, |pulls, folders, nth| {
        let linked = folders.folders[nth].linked;
        let (free, past) = (folders.card.free_number(), folders.card.node_numbers);
        let (nodes, blocks) = folders.lists(nth + 1);
        let path = folders.path();
        for number in [0, free, past, past + 1, u32::MAX] {
            // A number that no node has has any entry in the table.
            if number == free {
                folders.card.set_entry(free, free, 0);
            }
            folders
                .card
                .image
                .set(linked.block, linked.field(INO), number.into());
            let call = Call::new(&folders.card.image, &path, 0);
            pulls.expect_lists(&call, 9, &[&nodes[..], &[number]].concat(), &blocks);
            folders.card.image.undo(0);
        }
        // A node of the folder that isn't an inode.
        let way = folders.folders[nth].way.clone();
        for passage in &way[1..] {
            let number = u64::from(passage.node.nid);
            folders
                .card
                .image
                .set(linked.block, linked.field(INO), number);
            let call = Call::new(&folders.card.image, &path, 0);
            pulls.expect_lists(&call, 11, &nodes, &blocks);
            folders.card.image.undo(0);
        }
    });
    pulls.finish(2 * DEPTHS * 5, &[9, 11]);
}

/// The inode of a folder has to have its own number in its footer and in the table, not that of the folder above.
#[test]
fn numbers_of_folders() {
    let mut pulls = Pulls::new("pull by the numbers that folders have");
    for_folders(&mut pulls, 2, |pulls, folders, nth| {
        let (block, ino) = (folders.inode_block(nth), folders.folders[nth].ino);
        let above = match nth {
            0 => ino ^ 1,
            _ => folders.folders[nth - 1].ino,
        };
        for field in [footer::NID, footer::INO] {
            folders.card.image.set(block, field, above.into());
            expect_at_inode(pulls, folders, nth, 11);
            folders.card.image.undo(0);
        }
        folders.card.set_entry(ino, above, block);
        expect_at_inode(pulls, folders, nth, 11);
    });
    pulls.finish(2 * DEPTHS * 3, &[11]);
}

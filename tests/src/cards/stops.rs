//! Where a pull of a path can be stopped, at each folder and at the file.

use crate::cards::card::{Card, Passage};
use crate::cards::folders::{Folder, Folders};
use crate::cards::layout::inode::*;
use crate::cards::layout::{dentry, footer, nat, Field, BLOCK_SIZE};

/// Of the block that is pulled, behind a direct node.
pub const INDEX: u32 = ADDRESSES;

/// An answer, and the number in a block that has to get a value for it.
pub type Stop = (u32, u32, Field, u64);

/// Those at a node: of its entry in the table, and of its footer.
pub fn at_node(card: &Card, passage: &Passage, stops: &mut Vec<Stop>) {
    let (table, at) = card.entry_place(passage.node.nid);
    let address = nat::BLOCK_ADDR.moved(at);
    let outside = u64::from(card.image.areas.main_end);
    stops.extend([
        (9, table, address, 0),
        (10, table, address, outside),
        (11, passage.node.block, footer::FLAG, 1 << 20),
    ]);
}

/// In the order in which they are come by. An inline folder's block isn't behind an address.
fn at_folder(card: &Card, folder: &Folder, stops: &mut Vec<Stop>) {
    let outside = u64::from(card.image.areas.main_end);
    let inode = folder.way[0].node.block;
    at_node(card, &folder.way[0], stops);
    stops.extend([
        (12, inode, I_MODE, S_IFREG),
        (12, inode, I_CURRENT_DEPTH, 64),
        (12, inode, I_DIR_LEVEL, 31),
        (2, inode, I_SIZE, 0),
    ]);
    for passage in &folder.way[1..] {
        at_node(card, passage, stops);
    }
    let last = folder.way[folder.way.len() - 1];
    let linked = folder.linked;
    if linked.block != inode {
        stops.push((13, last.node.block, last.slot, outside));
    }
    for (answer, field) in [
        (14, dentry::NAME_LEN),
        (2, dentry::HASH_CODE),
        (9, dentry::INO),
    ] {
        stops.push((answer, linked.block, linked.field(field), 0));
    }
}

/// Where a pull can be stopped after opening, in the order in which it comes by.
pub fn stops(folders: &mut Folders) -> Vec<Stop> {
    let way = folders.card.way(folders.ino, INDEX);
    let card = &folders.card;
    let outside = u64::from(card.image.areas.main_end);
    let mut stops = Vec::new();
    for folder in &folders.folders {
        at_folder(card, folder, &mut stops);
    }
    let (inode, node) = (way[0].node.block, way[1].node.block);
    at_node(card, &way[0], &mut stops);
    stops.extend([
        (12, inode, I_MODE, S_IFDIR),
        (3, inode, I_SIZE, u64::from(INDEX) * BLOCK_SIZE as u64),
    ]);
    at_node(card, &way[1], &mut stops);
    stops.extend([(13, node, way[1].slot, outside), (1, node, way[1].slot, 0)]);
    stops
}

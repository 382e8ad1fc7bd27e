//! Inodes that have their contents in themselves: a file's bytes, or the entries of the root directory.

use crate::cards::card::Card;
use crate::cards::directory::{Dentry, Slots};
use crate::cards::layout::dentry::IN_INODE;
use crate::cards::layout::inode::INLINE_DATA;
use crate::program::card::Put;

/// The slots that stand in an inode.
pub fn slots_in(inode: u32) -> Slots {
    Slots {
        block: inode,
        layout: IN_INODE,
    }
}

/// Adds an inline file of junk, with other junk all around. The flags are those beside the one that makes it inline.
pub fn put_inline(card: &mut Card, name: &[u8], flags: u64, size: u64) -> Put {
    let ino = card.add_file(INLINE_DATA | flags, size);
    card.link(0, 0, &Dentry::new(name, ino));
    Put {
        name: name.to_vec(),
        ino,
        size,
        blocks: Default::default(),
        inline: Some(card.inode_block(ino)),
    }
}

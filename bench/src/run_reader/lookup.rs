//! From a path to the inode of its file.

use reference::bytes::{le32, le64, BLOCK_SIZE};
use reference::hash::raw_hash;
use reference::levels::hash_levels;
use reference::lookup::lookup_in;
use reference::open::Volume;
use reference::slots::{search_block, search_inline};

use super::{File, Leaf, Lists, I_INLINE, I_SIZE};

pub const INLINE_AT: usize = 364;
const INLINE_DENTRY: u8 = 4;
const ROOT: u32 = 3;
const NO_NAME: u32 = 2;
const BAD_NODE_ADDRESS: u32 = 10;
const BAD_NODE: u32 = 11;

/// Looks a node up and reads it; it has to say of itself that it is the one.
pub fn node<'a>(
    volume: &Volume<'a>,
    number: u32,
    ino: u32,
    place: u32,
    lists: &mut impl Lists,
) -> Result<&'a [u8], u32> {
    lists.node(number);
    let (entry_ino, address) = lookup_in(volume, number)?;
    if !volume.in_main_area(address) {
        return Err(BAD_NODE_ADDRESS);
    }
    lists.block(address);
    let block = volume.block(address);
    let footer = [le32(block, 4072), le32(block, 4076), le32(block, 4080) >> 3];
    match entry_ino == ino && footer == [number, ino, place] {
        true => Ok(block),
        false => Err(BAD_NODE),
    }
}

/// The inode number that a path leads to.
pub fn find(volume: &Volume, path: &[u8], lists: &mut impl Lists) -> Result<u32, u32> {
    let names = path.split(|&byte| byte == b'/');
    names
        .into_iter()
        .try_fold(ROOT, |folder, name| find_in(volume, folder, name, lists))
}

fn find_in(volume: &Volume, folder: u32, name: &[u8], lists: &mut impl Lists) -> Result<u32, u32> {
    let inode = node(volume, folder, folder, 0, lists)?;
    let hash = raw_hash(name);
    if inode[I_INLINE] & INLINE_DENTRY != 0 {
        return search_inline(inode, name, hash)?.ok_or(NO_NAME);
    }
    let blocks = le64(inode, I_SIZE).div_ceil(BLOCK_SIZE as u64);
    let mut directory = File::new(*volume, folder, inode);
    for level in hash_levels(inode[347], le32(inode, 72))? {
        for index in level.searched(hash).filter(|&index| index < blocks) {
            let Leaf::Addresses(numbers) = directory.leaf(index as u32, lists)? else {
                continue;
            };
            let address = le32(numbers, 0);
            if address == 0 || address == u32::MAX {
                continue;
            }
            lists.block(address);
            if let Some(found) = search_block(volume.block(address), name, hash)? {
                return Ok(found);
            }
        }
    }
    Err(NO_NAME)
}

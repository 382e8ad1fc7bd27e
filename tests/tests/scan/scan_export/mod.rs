//! The scans of a directory's slots, in a block and in an inode, in an archive of their own. It never meets
//! libharptimber.a in one program: both would bring the same inner functions.

use crate::cards::layout::dentry::{Layout, IN_BLOCK};

/// The result of a scan.
#[repr(C)]
#[derive(Clone, Copy, Debug, PartialEq, Eq)]
pub struct Scanned {
    pub answer: u32,
    pub inode: u32,
    pub turns: u32,
}

#[link(name = "scan_export", kind = "static")]
extern "C" {
    fn scan_export_scan(
        block: *const u8,
        block_len: usize,
        name: *const u8,
        name_len: usize,
    ) -> Scanned;
    fn scan_export_scan_inline(
        inode: *const u8,
        inode_len: usize,
        name: *const u8,
        name_len: usize,
    ) -> Scanned;
}

pub fn scan(layout: Layout, block: &[u8], name: &[u8]) -> Scanned {
    // SAFETY: as many bytes as are told of are there.
    unsafe { scan_as_if(layout, block, block.len(), name) }
}

/// Says that the block has so many bytes, whether or not it has them.
///
/// # Safety
///
/// Only for a block that has them, or one behind which a guard ends the program.
pub unsafe fn scan_as_if(layout: Layout, block: &[u8], block_len: usize, name: &[u8]) -> Scanned {
    let scan = match layout {
        IN_BLOCK => scan_export_scan,
        _ => scan_export_scan_inline,
    };
    // SAFETY: a slice's pointer is never null, and the bytes of the name can be read. What isn't the block's ends the
    // program.
    unsafe { scan(block.as_ptr(), block_len, name.as_ptr(), name.len()) }
}

//! Safe wrappers over the archive's C functions. `bench/before` has them a second time, over an earlier archive whose
//! functions are called earlier_* there.

use super::{Compared, Entry, Hashed, KeepFields, Kept, Place, Pulled, Reader, Run, Segments};

#[cfg_attr(not(feature = "before"), link(name = "harptimber", kind = "static"))]
#[cfg_attr(feature = "before", link(name = "earlier", kind = "static"))]
extern "C" {
    #[cfg_attr(feature = "before", link_name = "earlier_name_hash")]
    fn harptimber_name_hash(name: *const u8, name_len: usize) -> Hashed;
    #[cfg_attr(feature = "before", link_name = "earlier_file_place")]
    fn harptimber_file_place(addresses: u32, index: u32) -> Place;
    #[cfg_attr(feature = "before", link_name = "earlier_node_lookup")]
    fn harptimber_node_lookup(image: *const u8, image_len: usize, number: u32) -> Entry;
    #[cfg_attr(feature = "before", link_name = "earlier_pull")]
    fn harptimber_pull(
        image: *const u8,
        image_len: usize,
        name: *const u8,
        name_len: usize,
        index: u32,
        block: *mut u8,
        block_len: usize,
        nodes: *mut u8,
        nodes_len: usize,
        blocks: *mut u8,
        blocks_len: usize,
    ) -> Pulled;
    #[cfg_attr(feature = "before", link_name = "earlier_reader_start")]
    fn harptimber_reader_start(
        card_blocks: u32,
        path: *const u8,
        path_len: usize,
        index: u32,
    ) -> Reader;
    #[cfg_attr(feature = "before", link_name = "earlier_reader_step")]
    fn harptimber_reader_step(reader: Reader, bytes: *const u8, bytes_len: usize) -> Reader;
    #[cfg_attr(feature = "before", link_name = "earlier_reader_result")]
    fn harptimber_reader_result(
        reader: Reader,
        block: *mut u8,
        block_len: usize,
        nodes: *mut u8,
        nodes_len: usize,
        blocks: *mut u8,
        blocks_len: usize,
    ) -> Pulled;
    #[cfg_attr(feature = "before", link_name = "earlier_pull_run")]
    fn harptimber_pull_run(
        image: *const u8,
        image_len: usize,
        path: *const u8,
        path_len: usize,
        index: u32,
        blocks_wanted: u32,
        buffer: *mut u8,
        buffer_len: usize,
        nodes: *mut u8,
        nodes_len: usize,
        blocks: *mut u8,
        blocks_len: usize,
    ) -> Run;
    #[cfg_attr(feature = "before", link_name = "earlier_compare")]
    fn harptimber_compare(
        kept: *const u8,
        kept_len: usize,
        fresh: *const u8,
        fresh_len: usize,
        nodes: *const u8,
        nodes_len: usize,
        node_count: u32,
        blocks: *const u8,
        blocks_len: usize,
        block_count: u32,
    ) -> Compared;
    #[cfg_attr(feature = "before", link_name = "earlier_segment_report")]
    fn harptimber_segment_report(
        image: *const u8,
        image_len: usize,
        list: *mut u8,
        list_len: usize,
    ) -> Segments;
    #[cfg_attr(feature = "before", link_name = "earlier_keep")]
    fn harptimber_keep(
        image: *const u8,
        image_len: usize,
        path: *const u8,
        path_len: usize,
        index: u32,
        room: *mut u8,
        room_len: usize,
    ) -> Kept;
    #[cfg_attr(feature = "before", link_name = "earlier_keep_read")]
    fn harptimber_keep_read(file: *const u8, file_len: usize) -> KeepFields;
    #[cfg_attr(feature = "before", link_name = "earlier_keep_compare")]
    fn harptimber_keep_compare(
        file: *const u8,
        file_len: usize,
        fresh: *const u8,
        fresh_len: usize,
    ) -> Compared;
}

pub fn name_hash(name: &[u8]) -> Hashed {
    // SAFETY: a slice's pointer is never null, and its bytes can be read.
    unsafe { harptimber_name_hash(name.as_ptr(), name.len()) }
}

pub fn file_place(addresses: u32, index: u32) -> Place {
    // SAFETY: only numbers cross.
    unsafe { harptimber_file_place(addresses, index) }
}

pub fn node_lookup(image: &[u8], number: u32) -> Entry {
    // SAFETY: a slice's pointer is never null, and its bytes can be read.
    unsafe { harptimber_node_lookup(image.as_ptr(), image.len(), number) }
}

pub fn pull(
    image: &[u8],
    name: &[u8],
    index: u32,
    block: &mut [u8],
    nodes: &mut [u8],
    blocks: &mut [u8],
) -> Pulled {
    // SAFETY: a slice's pointer is never null, the bytes of all five can be read and those of the
    // last three written, and slices of which some are lent for writing don't overlap.
    unsafe {
        harptimber_pull(
            image.as_ptr(),
            image.len(),
            name.as_ptr(),
            name.len(),
            index,
            block.as_mut_ptr(),
            block.len(),
            nodes.as_mut_ptr(),
            nodes.len(),
            blocks.as_mut_ptr(),
            blocks.len(),
        )
    }
}

pub fn reader_start(card_blocks: u32, path: &[u8], index: u32) -> Reader {
    // SAFETY: a slice's pointer is never null, and its bytes can be read.
    unsafe { harptimber_reader_start(card_blocks, path.as_ptr(), path.len(), index) }
}

#[inline]
pub fn reader_step(reader: Reader, bytes: &[u8]) -> Reader {
    // SAFETY: a state is plain numbers and bytes; the slice as above.
    unsafe { harptimber_reader_step(reader, bytes.as_ptr(), bytes.len()) }
}

pub fn reader_result(
    reader: Reader,
    block: &mut [u8],
    nodes: &mut [u8],
    blocks: &mut [u8],
) -> Pulled {
    // SAFETY: a slice's pointer is never null, the bytes of all three can be written, and they don't overlap.
    unsafe {
        harptimber_reader_result(
            reader,
            block.as_mut_ptr(),
            block.len(),
            nodes.as_mut_ptr(),
            nodes.len(),
            blocks.as_mut_ptr(),
            blocks.len(),
        )
    }
}

pub fn pull_run(
    image: &[u8],
    path: &[u8],
    index: u32,
    blocks_wanted: u32,
    buffer: &mut [u8],
    nodes: &mut [u8],
    blocks: &mut [u8],
) -> Run {
    // SAFETY: as for a pull.
    unsafe {
        harptimber_pull_run(
            image.as_ptr(),
            image.len(),
            path.as_ptr(),
            path.len(),
            index,
            blocks_wanted,
            buffer.as_mut_ptr(),
            buffer.len(),
            nodes.as_mut_ptr(),
            nodes.len(),
            blocks.as_mut_ptr(),
            blocks.len(),
        )
    }
}

pub fn compare(
    kept: &[u8],
    fresh: &[u8],
    nodes: &[u8],
    node_count: u32,
    blocks: &[u8],
    block_count: u32,
) -> Compared {
    // SAFETY: a slice's pointer is never null, and the bytes of all four can be read.
    unsafe {
        harptimber_compare(
            kept.as_ptr(),
            kept.len(),
            fresh.as_ptr(),
            fresh.len(),
            nodes.as_ptr(),
            nodes.len(),
            node_count,
            blocks.as_ptr(),
            blocks.len(),
            block_count,
        )
    }
}

pub fn segment_report(image: &[u8], list: &mut [u8]) -> Segments {
    // SAFETY: a slice's pointer is never null, the bytes of both can be read and the list's written,
    // and the list doesn't overlap the image.
    unsafe { harptimber_segment_report(image.as_ptr(), image.len(), list.as_mut_ptr(), list.len()) }
}

pub fn keep(image: &[u8], path: &[u8], index: u32, room: &mut [u8]) -> Kept {
    // SAFETY: a slice's pointer is never null, the bytes of all three can be read and the room's written,
    // and the room doesn't overlap the others.
    unsafe {
        harptimber_keep(
            image.as_ptr(),
            image.len(),
            path.as_ptr(),
            path.len(),
            index,
            room.as_mut_ptr(),
            room.len(),
        )
    }
}

pub fn keep_read(file: &[u8]) -> KeepFields {
    // SAFETY: a slice's pointer is never null, and its bytes can be read.
    unsafe { harptimber_keep_read(file.as_ptr(), file.len()) }
}

pub fn keep_compare(file: &[u8], fresh: &[u8]) -> Compared {
    // SAFETY: a slice's pointer is never null, and the bytes of both can be read.
    unsafe { harptimber_keep_compare(file.as_ptr(), file.len(), fresh.as_ptr(), fresh.len()) }
}

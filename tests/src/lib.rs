//! Safe wrappers over the archive's C functions, with structs as in host/include/harptimber.h, and
//! what the tests share.

mod archive;
pub mod calls;
pub mod cards;
pub mod program;
pub mod running;
pub mod sizes;
pub mod system;
pub mod tools;
pub mod trial;

pub use archive::*;

/// The result of `name_hash`.
#[repr(C)]
#[derive(Clone, Copy, Debug, PartialEq, Eq)]
pub struct Hashed {
    pub answer: u32,
    pub hash: u32,
}

/// One node on the way: its place number and the slot taken in it.
#[repr(C)]
#[derive(Clone, Copy, Debug, PartialEq, Eq)]
pub struct Step {
    pub place: u32,
    pub slot: u32,
}

/// The result of `file_place`. The header's place0, slot0 to place3, slot3 are the four steps.
#[repr(C)]
#[derive(Clone, Copy, Debug, PartialEq, Eq)]
pub struct Place {
    pub answer: u32,
    pub steps: u32,
    pub way: [Step; 4],
}

/// The result of `node_lookup`.
#[repr(C)]
#[derive(Clone, Copy, Debug, PartialEq, Eq)]
pub struct Entry {
    pub answer: u32,
    pub inode: u32,
    pub address: u32,
}

/// The result of `pull`.
#[repr(C)]
#[derive(Clone, Copy, Debug, PartialEq, Eq)]
pub struct Pulled {
    pub answer: u32,
    pub byte_count: u32,
    pub node_count: u32,
    pub block_count: u32,
}

/// The state of a reader that is fed one block at a time: `reader_start` and `reader_step` give it.
#[repr(C)]
#[derive(Clone, PartialEq, Eq)]
pub struct Reader {
    /// 1 and the block wanted next, or 0 and 0 once the answer is there.
    pub asks: u32,
    pub block: u32,
    pub numbers: [u32; 33],
    pub bytes: [u8; 23_852],
}

/// The result of `pull_run`.
#[repr(C)]
#[derive(Clone, Copy, Debug, Default, PartialEq, Eq)]
pub struct Run {
    pub answer: u32,
    /// How many blocks stand in the buffer.
    pub count: u32,
    pub byte_count: u32,
    pub node_count: u32,
    pub block_count: u32,
}

/// The result of `compare` and of `keep_compare`.
#[repr(C)]
#[derive(Clone, Copy, Debug, Default, PartialEq, Eq)]
pub struct Compared {
    pub answer: u32,
    pub side: u32,
    pub kind: u32,
    pub number: u32,
}

/// The result of `segment_report`.
#[repr(C)]
#[derive(Clone, Copy, Debug, PartialEq, Eq)]
pub struct Segments {
    pub answer: u32,
    pub count: u32,
    pub valid_blocks: u32,
}

/// The result of `keep`.
#[repr(C)]
#[derive(Clone, Copy, Debug, PartialEq, Eq)]
pub struct Kept {
    pub answer: u32,
    pub length: u32,
}

/// The result of `keep_read`.
#[repr(C)]
#[derive(Clone, Copy, Debug, Default, PartialEq, Eq)]
pub struct KeepFields {
    pub answer: u32,
    pub path_len: u32,
    pub index: u32,
    pub pull_answer: u32,
    pub byte_count: u32,
    pub main_start: u32,
    pub main_end: u32,
    pub node_count: u32,
    pub block_count: u32,
    pub path_at: u32,
    pub block_at: u32,
    pub nodes_at: u32,
    pub blocks_at: u32,
    pub length: u32,
}

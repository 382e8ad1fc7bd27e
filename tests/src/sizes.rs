//! The sizes of calls, under the names of host/include/harptimber.h. tests/documents/header.rs holds them to it.

/// The most blocks that a card may have.
pub const CARD_BLOCKS_MOST: u32 = 4_194_304;
/// The most names that a path has.
pub const NAMES_MOST: u32 = 8;
/// The most node numbers and blocks that a pull of any path lists.
pub const NODES_MOST: u32 = nodes_most(NAMES_MOST);
pub const BLOCKS_MOST: u32 = blocks_most(NAMES_MOST);
/// The most main segments that a card has: before them lie two blocks with the superblock, and two segments each of
/// checkpoint, SIT and NAT.
pub const SEGMENTS_MOST: u32 = (CARD_BLOCKS_MOST - 2) / 512 - 6;

/// The most node numbers that a pull of so many names lists.
pub const fn nodes_most(names: u32) -> u32 {
    175 * names + 4
}

/// The most blocks.
pub const fn blocks_most(names: u32) -> u32 {
    233 * names + 5
}

/// The most blocks that a reader of any path asks for.
pub const READER_BLOCKS_MOST: u32 = reader_blocks_most(NAMES_MOST);

/// The most that a reader of a path with so many names asks for.
pub const fn reader_blocks_most(names: u32) -> u32 {
    408 * names + 16
}

/// The most blocks of a run.
pub const RUN_MOST: u32 = 512;
/// The most node numbers and blocks that a run of any path lists.
pub const RUN_NODES_MOST: u32 = run_nodes_most(NAMES_MOST);
pub const RUN_BLOCKS_MOST: u32 = run_blocks_most(NAMES_MOST);

/// The most node numbers that a run of so many names lists.
pub const fn run_nodes_most(names: u32) -> u32 {
    175 * names + 6
}

/// The most blocks.
pub const fn run_blocks_most(names: u32) -> u32 {
    233 * names + 518
}

/// The bytes of a keep file whose path has so many bytes, and whose pull listed so many nodes and blocks.
pub const fn keep_length(path_len: u32, nodes: u32, blocks: u32) -> u32 {
    4140 + path_len + 16 * nodes + 4100 * blocks
}

/// The most for a path of so many names, each of 255 bytes.
pub const fn keep_most(names: u32) -> u32 {
    keep_length(256 * names - 1, nodes_most(names), blocks_most(names))
}

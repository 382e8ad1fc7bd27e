//! A plain second reading of the F2FS rules in document 01, and of the requests K1 and on that have
//! landed, to compare against.
//!
//! One module per topic; each uses only the ones above it.

#![forbid(unsafe_code)]

pub mod hash;
pub mod path;
pub mod checksum;
pub mod place;
pub mod levels;
pub mod bytes;
pub mod open;
pub mod lookup;
mod inode;
mod node;
pub mod slots;
mod walk;
pub mod pull;
mod reader_open;
mod reader_walk;
pub mod reader;
pub mod run;
pub mod compare;
pub mod segments;
pub mod keep;

#[cfg(test)]
mod sample;

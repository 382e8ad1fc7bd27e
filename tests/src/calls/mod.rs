//! Calls of the archive, beside the reference's and what the paper says.

pub mod answers;
pub mod compares;
pub mod deep;
pub mod every_call;
pub mod guard_script;
pub mod keep_files;
pub mod keep_parts;
pub mod keeps;
pub mod lent;
pub mod lookups;
pub mod pulls;
pub mod readers;
pub mod runs;
pub mod segments;

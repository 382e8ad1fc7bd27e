//! Which cards open.

mod checkpoint;
mod readable;
mod superblock;

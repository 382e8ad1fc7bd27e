//! Cards that are larger than 1 GiB, up to the most blocks: what lies far out on them is what is read.

mod far_file;
mod files;
mod runs;
mod tools;
mod volumes;

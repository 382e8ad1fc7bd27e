//! What people read: the header, README.md and docs/.

mod header;
mod pages;

//! Cards that the published tools write, and readers from elsewhere.

mod accident;
mod damaged;
mod files;
mod folders;
mod inline_files;
mod inline_root;
mod keeps;
mod levels;
mod lookups;
mod outside_readers;
mod runs;
mod segments;

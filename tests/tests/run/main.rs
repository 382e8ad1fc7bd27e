//! Run: up to 512 blocks of a file in one call. Each run is held to the reference's and to single pulls.

mod boundaries;
mod call;
mod compares;
mod damage;
mod file_end;
mod holes;
mod inline_files;
mod order;
mod paths;
mod random;
mod stretch;

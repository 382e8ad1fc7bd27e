//! The calls that take no card.

mod file_place;
mod name_hash;

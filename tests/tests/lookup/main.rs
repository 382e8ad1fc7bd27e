//! Node lookup in cards that open.

mod call;
mod journal;
mod random;
mod table;

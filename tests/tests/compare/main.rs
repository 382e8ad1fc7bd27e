//! Compare.

mod changes;
mod checkpoints;
mod inline;
mod levels;
mod lists;
mod paths;
mod random;

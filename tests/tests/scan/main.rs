//! The scans of a directory's slots, in a block and in an inode, against the reference, which moves slot by slot:
//! answer, inode number and turns.

// By their paths and not from the lib of this package, which would bring libharptimber.a along.
#[path = "../../src/calls/answers.rs"]
mod answers;
#[allow(dead_code)] // not every part of a card is used
mod cards;
mod scan_export;
#[allow(dead_code)] // only the guard pages are
#[path = "../../src/system.rs"]
mod system;
#[path = "../../src/trial.rs"]
mod trial;

mod call;
mod entries;
mod maps;
mod random;
mod scans;
mod turns;

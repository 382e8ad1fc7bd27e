//! Runs of the program of which it is noted when they put files on the disk, and when they name them.

use std::fs;
use std::process::{Command, Stdio};
use std::sync::Arc;

use crate::cards::on_disk::Shared;
use crate::program::preloaded::Preloaded;
use crate::program::{ran, Ran};
use crate::tools::published::Scratch;

/// The library that notes it.
pub struct Synced(Preloaded);

impl Synced {
    /// The one that the tests of a file share.
    pub fn shared() -> Arc<Synced> {
        static SYNCED: Shared<Synced> = Shared::empty();
        SYNCED.get(|| Synced(Preloaded::of("synced.c")))
    }

    /// Runs a command line of the program. Returns what it did in which order, too; its files, its folders or the whole file
    /// system may fail to get on the disk, with an error's number.
    pub fn run(&self, mut command: Command, fails: Option<(&str, i32)>) -> (Ran, Vec<String>) {
        let scratch = Scratch::new();
        let notes = scratch.path("notes");
        self.0.load(&mut command).env("SYNCED_IN", &notes);
        if let Some((what, error)) = fails {
            command.env("SYNCED_FAILS", what);
            command.env("SYNCED_ERROR", error.to_string());
        }
        let ran = ran(&mut command, Stdio::piped());
        let notes = fs::read_to_string(notes).unwrap_or_default();
        (ran, notes.lines().map(str::to_string).collect())
    }
}

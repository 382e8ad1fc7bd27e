//! Runs of the program of which it is noted what they read of an image, and whether they map it.

use std::fs;
use std::process::Stdio;
use std::sync::Arc;

use crate::cards::on_disk::Shared;
use crate::program::preloaded::Preloaded;
use crate::program::{command, ran, Ran, Words};
use crate::tools::published::Scratch;

/// How reads go.
#[derive(Clone, Copy, Debug)]
pub enum Reads {
    Whole,
    /// So many bytes at once.
    Short(usize),
    Interrupted,
    /// But for this block, which can't be read.
    But(u32),
}

/// The library that notes it.
pub struct BlocksRead(Preloaded);

impl BlocksRead {
    /// The one that the tests of a file share.
    pub fn shared() -> Arc<BlocksRead> {
        static BLOCKS_READ: Shared<BlocksRead> = Shared::empty();
        BLOCKS_READ.get(|| BlocksRead(Preloaded::of("blocks_read.c")))
    }

    /// Runs a command line of the program. Returns what it read, too: 'read' or 'mapped', the place and how many bytes.
    pub fn run(&self, words: Words, reads: Reads) -> (Ran, Vec<String>) {
        let scratch = Scratch::new();
        let notes = scratch.path("notes");
        let mut command = command(words);
        self.0.load(&mut command).env("READS_IN", &notes);
        match reads {
            Reads::Whole => &mut command,
            Reads::Short(most) => command.env("READS_MOST", most.to_string()),
            Reads::Interrupted => command.env("READS_INTERRUPTED", "1"),
            Reads::But(block) => command.env("READS_FAIL", block.to_string()),
        };
        let ran = ran(&mut command, Stdio::piped());
        let notes = fs::read_to_string(notes).unwrap_or_default();
        (ran, notes.lines().map(str::to_string).collect())
    }
}

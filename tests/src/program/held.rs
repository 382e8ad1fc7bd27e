//! Runs of the program that are held while they read an image, so that something can be done to it.

use std::fs::File;
use std::os::unix::fs::OpenOptionsExt;
use std::path::Path;
use std::process::{Command, Stdio};
use std::sync::Arc;

use crate::cards::on_disk::Shared;
use crate::program::preloaded::Preloaded;
use crate::program::{command, Ran, Words};
use crate::running::{aside, started, Running};
use crate::tools::published::{run, Scratch};

/// Where a run is held: at its first look at a block of one of the images that it opens, mapped or not.
#[derive(Clone, Copy, Debug)]
pub struct Hold {
    /// Its place among the images.
    pub image: u32,
    pub block: u32,
}

/// What the file system has for a file that is being written.
#[derive(Clone, Copy, Debug, PartialEq, Eq)]
pub enum Files {
    /// As it is here: a file may have no name.
    AsHere,
    /// A temporary name.
    Named,
}

impl Files {
    /// Those that can be tried in a folder.
    pub fn each(folder: &Path) -> Vec<Files> {
        const O_TMPFILE: i32 = 0o20_200_000;
        let mut options = File::options();
        let unnamed = options.write(true).custom_flags(O_TMPFILE).open(folder);
        match unnamed {
            Ok(_) => vec![Files::AsHere, Files::Named],
            Err(why) => {
                println!("no file without a name is tested: {why}");
                vec![Files::Named]
            }
        }
    }
}

/// The library that holds the program.
pub struct Holder(Preloaded);

impl Holder {
    /// The one that the tests of a file share.
    pub fn shared() -> Arc<Holder> {
        static HOLDER: Shared<Holder> = Shared::empty();
        HOLDER.get(|| Holder(Preloaded::of("held.c")))
    }

    /// Starts a run, and waits until it is held: until the file is closed.
    fn start(&self, words: Words, hold: Hold, files: Files) -> (Running, File) {
        let scratch = Scratch::new();
        let fifo = scratch.path("fifo");
        make_fifo(&fifo);
        let mut command = command(words);
        self.0.load(&mut command);
        command.env("HELD_IMAGE", hold.image.to_string());
        command.env("HELD_BLOCK", hold.block.to_string());
        command.env("HELD_BY", &fifo);
        if files == Files::Named {
            command.env("HELD_NAMED", "");
        }
        let mut running = started(&mut command, Stdio::piped());
        running.read();
        // Opened once the program opens the other end.
        let open = aside(move || File::options().write(true).open(fifo));
        let open = running.wait(open).expect("a FIFO");
        (running, open)
    }

    /// Runs the program, with something done while it is held.
    pub fn run(&self, words: Words, hold: Hold, meanwhile: impl FnOnce()) -> Ran {
        self.run_with(Files::AsHere, words, hold, meanwhile)
    }

    /// The same on such a file system.
    pub fn run_with(
        &self,
        files: Files,
        words: Words,
        hold: Hold,
        meanwhile: impl FnOnce(),
    ) -> Ran {
        let (running, open) = self.start(words, hold, files);
        meanwhile();
        drop(open);
        running.end()
    }

    /// Ends the program by a signal while it is held.
    pub fn end_by(&self, words: Words, hold: Hold, files: Files, signal: &str) {
        let (running, _open) = self.start(words, hold, files);
        running.end_by(signal);
    }
}

pub fn make_fifo(path: &Path) {
    run(Command::new("mkfifo").arg(path));
}

//! Runs of the program whose memory is measured.

use std::fs;
use std::path::Path;
use std::process::{Command, Stdio};
use std::sync::Arc;

use crate::cards::on_disk::Shared;
use crate::program::{ran, Ran};
use crate::tools::published::{run, Scratch};

/// What runs another program and measures it.
pub struct Measurer(Scratch);

impl Measurer {
    /// The one that the tests of a file share.
    pub fn shared() -> Arc<Measurer> {
        static MEASURER: Shared<Measurer> = Shared::empty();
        MEASURER.get(|| {
            let measurer = Measurer(Scratch::new());
            let source = Path::new(env!("CARGO_MANIFEST_DIR")).join("src/program/measured.c");
            let mut compiler = Command::new("cc");
            compiler.args(["-Wall", "-Wextra", "-Werror", "-o"]);
            run(compiler.arg(measurer.0.path("measured")).arg(source));
            measurer
        })
    }

    /// What a run left, and the bytes of memory that it had at most, mapped ones among them.
    pub fn run(&self, command: &Command) -> (Ran, u64) {
        let scratch = Scratch::new();
        let measure = scratch.path("measure");
        let mut measured = Command::new(self.0.path("measured"));
        measured.arg(command.get_program()).args(command.get_args());
        let ran = ran(measured.env("MEASURED_TO", &measure), Stdio::piped());
        let kib = fs::read_to_string(&measure).unwrap_or_else(|error| panic!("{error}: {ran:?}"));
        let kib: u64 = kib.parse().expect("a number of KiB");
        (ran, 1024 * kib)
    }
}

//! Libraries that are loaded into the program before its others.

use std::path::{Path, PathBuf};
use std::process::Command;

use crate::tools::published::{run, Scratch};

pub(crate) struct Preloaded(Scratch);

impl Preloaded {
    /// Builds it from a source beside this one.
    pub(crate) fn of(source: &str) -> Preloaded {
        let built = Preloaded(Scratch::new());
        let mut compiler = Command::new("cc");
        compiler.args(["-Wall", "-Wextra", "-Werror", "-shared", "-fPIC"]);
        // As the program has it, so that both mean the same function by mmap.
        compiler.arg("-D_FILE_OFFSET_BITS=64");
        let folder = Path::new(env!("CARGO_MANIFEST_DIR")).join("src/program");
        run(compiler
            .arg("-o")
            .arg(built.library())
            .arg(folder.join(source)));
        built
    }

    fn library(&self) -> PathBuf {
        self.0.path("preloaded.so")
    }

    /// Has it loaded by a command.
    pub(crate) fn load<'a>(&self, command: &'a mut Command) -> &'a mut Command {
        command.env("LD_PRELOAD", self.library())
    }
}

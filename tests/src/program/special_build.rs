//! Builds of the program for tests alone: one that the compiler's sanitizers watch, and one whose library answers anything.

use std::fs;
use std::path::{Path, PathBuf};
use std::process::{Command, Stdio};
use std::sync::Arc;

use crate::cards::on_disk::Shared;
use crate::program::{either_way, host, ran, Ran, Words};
use crate::tools::published::{run, Scratch};

pub struct SpecialBuild(Scratch);

/// What a sanitizer ends the program with.
pub const REPORTED: i32 = 99;

impl SpecialBuild {
    /// With AddressSanitizer and UndefinedBehaviorSanitizer; images are read into heap memory of just their length.
    pub fn sanitized() -> Arc<SpecialBuild> {
        static BUILT: Shared<SpecialBuild> = Shared::empty();
        BUILT.get(|| {
            let archive = host().join("../target/staticlib/libharptimber.a");
            SpecialBuild::of("in_heap.c", Some(archive), |compiler| {
                compiler.args(["-g", "-O1", "-fsanitize=address,undefined"]);
                compiler.args([
                    "-fno-sanitize-recover=all",
                    "-Wl,--wrap=mmap64,--wrap=munmap",
                ]);
            })
        })
    }

    /// With a library whose calls all answer the number in ANY_ANSWER, and what else any_answer.c says.
    pub fn with_any_answer() -> Arc<SpecialBuild> {
        static BUILT: Shared<SpecialBuild> = Shared::empty();
        BUILT.get(|| SpecialBuild::of("any_answer.c", None, |_| ()))
    }

    fn of(
        part: &str,
        archive: Option<PathBuf>,
        options: impl FnOnce(&mut Command),
    ) -> SpecialBuild {
        let built = SpecialBuild(Scratch::new());
        let mut compiler = Command::new("cc");
        options(compiler.args(["-std=gnu11", "-D_FILE_OFFSET_BITS=64"]));
        compiler.arg("-I").arg(host().join("include"));
        compiler.arg("-o").arg(built.program()).args(sources());
        compiler.arg(
            Path::new(env!("CARGO_MANIFEST_DIR"))
                .join("src/program")
                .join(part),
        );
        run(compiler.args(archive));
        built
    }

    fn program(&self) -> PathBuf {
        self.0.path("harptimber")
    }

    pub fn command(&self, words: Words) -> Command {
        let mut command = Command::new(self.program());
        command.args(words.iter().map(|word| word.word()));
        for sanitizer in ["ASAN_OPTIONS", "UBSAN_OPTIONS"] {
            command.env(sanitizer, format!("exitcode={REPORTED}"));
        }
        command
    }

    /// Runs it with these variables.
    pub fn run_with(&self, variables: &[(&str, &str)], words: Words) -> Ran {
        let mut command = self.command(words);
        ran(command.envs(variables.iter().copied()), Stdio::piped())
    }

    /// Runs it; no sanitizer may have anything to say.
    pub fn run(&self, words: Words) -> Ran {
        either_way(words, |words| self.run_once(words))
    }

    fn run_once(&self, words: Words) -> Ran {
        let ran = ran(&mut self.command(words), Stdio::piped());
        let said = ["Sanitizer", "runtime error"].map(|word| ran.err.contains(word));
        assert!(
            said == [false; 2] && ran.status != REPORTED,
            "seen in {ran:?}"
        );
        ran
    }
}

/// The program's own files.
fn sources() -> Vec<PathBuf> {
    let folder = fs::read_dir(host().join("src")).expect("host/src");
    let paths = folder.map(|entry| entry.expect("a file of host/src").path());
    let sources: Vec<PathBuf> = paths
        .filter(|path| path.extension() == Some("c".as_ref()))
        .collect();
    assert!(!sources.is_empty(), "no source in host/src");
    sources
}

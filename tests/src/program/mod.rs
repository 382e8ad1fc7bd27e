//! Runs of the command-line program `harptimber`.

pub mod blocks_read;
pub mod card;
pub mod compare_words;
pub mod compares;
pub mod held;
pub mod inline;
pub mod json;
pub mod keeps;
pub mod levels;
pub mod measured;
pub mod page;
mod preloaded;
pub mod segments;
pub mod special_build;
pub mod synced;
pub mod versions;

use std::collections::BTreeSet;
use std::ffi::{OsStr, OsString};
use std::fs::{self, File};
use std::os::unix::ffi::OsStringExt;
use std::os::unix::fs::MetadataExt;
use std::path::{Path, PathBuf};
use std::process::{Command, Stdio};
use std::sync::Mutex;

pub use crate::running::{ran, Ran};
use crate::tools::published;

/// The folder with the program's Makefile and man page.
pub fn host() -> PathBuf {
    Path::new(env!("CARGO_MANIFEST_DIR")).join("../host")
}

/// The path of a program or test of the rig's side in C, which is built once if need be.
pub fn built(name: &'static str) -> PathBuf {
    static BUILT: Mutex<BTreeSet<&str>> = Mutex::new(BTreeSet::new());
    let target = Path::new("target").join(name);
    let mut built = BUILT.lock().expect("no failure in another test's build");
    if !built.contains(name) {
        published::run(Command::new("make").arg("-sC").arg(host()).arg(&target));
        built.insert(name);
    }
    host().join(target)
}

pub fn program() -> PathBuf {
    built("harptimber")
}

/// One word of a command line.
pub trait Word {
    fn word(&self) -> OsString;
}

impl Word for &str {
    fn word(&self) -> OsString {
        OsString::from(self)
    }
}

impl Word for &[u8] {
    fn word(&self) -> OsString {
        OsString::from_vec(self.to_vec())
    }
}

impl Word for Vec<u8> {
    fn word(&self) -> OsString {
        OsString::from_vec(self.clone())
    }
}

impl Word for PathBuf {
    fn word(&self) -> OsString {
        self.clone().into_os_string()
    }
}

impl Word for u32 {
    fn word(&self) -> OsString {
        OsString::from(self.to_string())
    }
}

pub type Words<'a> = &'a [&'a dyn Word];

/// A command line of the program.
pub fn command(words: Words) -> Command {
    let mut command = Command::new(program());
    command.args(words.iter().map(|word| word.word()));
    command
}

pub fn run(words: Words) -> Ran {
    either_way(words, |words| ran(&mut command(words), Stdio::piped()))
}

/// Runs a command line. A pull is made without mapping the card too, and has to say and to write the same.
pub(crate) fn either_way(words: Words, run: impl Fn(Words) -> Ran) -> Ran {
    if words.first().is_none_or(|first| first.word() != "pull") {
        return run(words);
    }
    let mut blockwise = words.to_vec();
    blockwise.insert(1, &"--blockwise");
    let [(blockwise, unmapped), (mapped, written)] =
        [&blockwise, words].map(|words| (run(words), output_of(words)));
    let said = |ran: &Ran| (ran.status, ran.out.clone(), ran.err.clone());
    assert_eq!(said(&blockwise), said(&mapped), "{blockwise:?}\n{mapped:?}");
    assert!(unmapped == written, "bytes of {blockwise:?}");
    mapped
}

/// What is in -o's file, if there is one.
fn output_of(words: Words) -> Option<Vec<u8>> {
    let mut rest = words.iter().skip_while(|word| word.word() != "-o");
    let file = rest.nth(1).map(|word| PathBuf::from(word.word()));
    file.filter(|file| file.is_file())
        .and_then(|file| fs::read(file).ok())
}

/// As somebody who may not read or write what isn't theirs, as root may.
pub fn run_without_privilege(words: Words) -> Ran {
    ran(&mut command_without_privilege(words), Stdio::piped())
}

/// A command line that runs so.
pub fn command_without_privilege(words: Words) -> Command {
    let command = command(words);
    if fs::metadata("/proc/self").unwrap().uid() != 0 {
        return command;
    }
    let mut without = Command::new("setpriv");
    let none = "-dac_override,-dac_read_search";
    without.arg(format!("--bounding-set={none}"));
    without.arg(format!("--inh-caps={none}"));
    without.arg(command.get_program()).args(command.get_args());
    without
}

/// With its standard output going to a file that is there.
pub fn run_to(path: &Path, words: Words) -> Ran {
    let file = File::options().write(true).open(path);
    ran(&mut command(words), file.expect("a file").into())
}

/// By a line of the shell, where `"$@"` are the program and its words.
pub fn run_by_shell(line: &str, words: Words) -> Ran {
    let command = command(words);
    let mut shell = Command::new("sh");
    shell.args(["-c", line, "sh"]);
    shell.arg(command.get_program()).args(command.get_args());
    ran(&mut shell, Stdio::piped())
}

/// On a terminal, which is both standard output and standard error; with a file, only standard error.
pub fn run_on_terminal(words: Words, output: Option<&Path>) -> Ran {
    run_on_terminal_after("", words, output)
}

/// The same behind something for the shell, that sets the terminal's columns or a variable.
pub fn run_on_terminal_after(setting: &str, words: Words, output: Option<&Path>) -> Ran {
    on_terminal(setting, &command(words), output)
}

/// The same of any command.
pub fn on_terminal(setting: &str, command: &Command, output: Option<&Path>) -> Ran {
    let quoted = |word: &OsStr| {
        let text = word.to_str().expect("words for the shell");
        format!("'{}'", text.replace('\'', "'\\''"))
    };
    let mut line = format!("{setting} {}", quoted(command.get_program()));
    for word in command.get_args() {
        line = format!("{line} {}", quoted(word));
    }
    if let Some(output) = output {
        line = format!("{line} > {}", quoted(output.as_os_str()));
    }
    let mut script = Command::new("script");
    script
        .args(["-qec", &line, "/dev/null"])
        .env("SHELL", "/bin/sh");
    for (variable, value) in command.get_envs() {
        script.env(variable, value.expect("a variable that is set"));
    }
    let mut ran = ran(&mut script, Stdio::piped());
    ran.out = without_returns(&ran.out);
    ran
}

/// A terminal puts a carriage return before each line feed.
fn without_returns(out: &[u8]) -> Vec<u8> {
    let lines: Vec<&[u8]> = out.split(|&byte| byte == b'\n').collect();
    let last = lines.len() - 1;
    let ended = lines[..last].iter();
    let ends = ended.map(|line| line.strip_suffix(b"\r").unwrap_or(line));
    ends.chain([lines[last]]).collect::<Vec<_>>().join(&b'\n')
}

/// What a terminal shows in the end: behind a carriage return, a line is written over.
pub fn screen(text: &str) -> String {
    let line = |line: &str| {
        let mut shown: Vec<char> = Vec::new();
        for part in line.split('\r') {
            let part: Vec<char> = part.chars().collect();
            let rest = shown.split_off(part.len().min(shown.len()));
            shown = [part, rest].concat();
        }
        let shown: String = shown.into_iter().collect();
        shown.trim_end_matches(' ').to_string()
    };
    text.split('\n').map(line).collect::<Vec<_>>().join("\n")
}

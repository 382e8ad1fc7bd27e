//! `make install` and `make uninstall`: the program, and the library as pkg-config gives it.

use std::collections::BTreeSet;
use std::fs;
use std::path::{Path, PathBuf};
use std::process::{Command, Stdio};

use reference::hash::raw_hash;

use harptimber_tests::program::{host, program, ran};
use harptimber_tests::tools::published::Scratch;

const FILES: [&str; 5] = [
    "bin/harptimber",
    "include/harptimber.h",
    "lib/libharptimber.a",
    "lib/pkgconfig/harptimber.pc",
    "share/man/man1/harptimber.1",
];

const SOURCE: &str = "
#include <harptimber.h>
#include <stdio.h>
#include <string.h>

int main(int argc, char **argv)
{
    struct harptimber_hashed h;
    if (argc != 2)
        return 3;
    h = harptimber_name_hash((const uint8_t *)argv[1], strlen(argv[1]));
    printf(\"%u %u\\n\", (unsigned)h.answer, (unsigned)h.hash);
    return 0;
}
";

fn make(target: &str, variables: &[String]) {
    let mut command = Command::new("make");
    command.arg("-C").arg(host()).arg(target).args(variables);
    // The gate's own make, if there is one, has no say here.
    command.env_remove("MAKEFLAGS").env_remove("MAKELEVEL");
    ran(&mut command, Stdio::piped()).expect(0);
}

/// Every file below a folder, by its path from there.
fn files_below(folder: &Path) -> BTreeSet<PathBuf> {
    let mut files = BTreeSet::new();
    let mut folders = vec![folder.to_path_buf()];
    while let Some(next) = folders.pop() {
        for entry in fs::read_dir(next).unwrap() {
            let path = entry.unwrap().path();
            if path.is_dir() {
                folders.push(path);
            } else {
                files.insert(path.strip_prefix(folder).unwrap().to_path_buf());
            }
        }
    }
    files
}

/// Compiles a program as pkg-config says, and lets it hash a name.
fn expect_library(installed: &Path, sysroot: Option<&Path>, scratch: &Path) {
    let source = scratch.join("hashed.c");
    fs::write(&source, SOURCE).unwrap();
    let mut command = Command::new("sh");
    let line = "cc -Wall -Werror -o \"$1\" \"$2\" $(pkg-config --cflags --libs harptimber)";
    let hashed = scratch.join("hashed");
    command.args(["-ec", line, "sh"]).arg(&hashed).arg(source);
    command.env("PKG_CONFIG_PATH", installed.join("lib/pkgconfig"));
    sysroot.map(|sysroot| command.env("PKG_CONFIG_SYSROOT_DIR", sysroot));
    ran(&mut command, Stdio::piped()).expect(0);
    for name in ["road.bin", "a longer name than sixteen bytes"] {
        let ran = ran(Command::new(&hashed).arg(name), Stdio::piped()).expect(0);
        assert_eq!(ran.words(), format!("0 {}\n", raw_hash(name.as_bytes())));
    }
}

/// Installs below a folder, where nothing else may appear, and takes it away again.
fn expect_installed(folder: &Path, prefix: &Path, variables: &[String], sysroot: Option<&Path>) {
    make("install", variables);
    let installed = FILES.map(|file| prefix.join(file));
    let below = installed
        .clone()
        .map(|file| file.strip_prefix(folder).unwrap().to_path_buf());
    assert_eq!(files_below(folder), BTreeSet::from(below), "installed");
    let same = fs::read(&installed[0]).unwrap() == fs::read(program()).unwrap();
    assert!(same, "another program");
    let version = ran(Command::new(&installed[0]).arg("--version"), Stdio::piped());
    version.expect(0);
    let scratch = Scratch::new();
    expect_library(prefix, sysroot, scratch.folder());
    make("uninstall", variables);
    assert_eq!(files_below(folder), BTreeSet::new(), "left by uninstall");
}

fn below_a_prefix() {
    let scratch = Scratch::new();
    let prefix = scratch.path("prefix");
    let variables = [format!("PREFIX={}", prefix.display())];
    expect_installed(scratch.folder(), &prefix, &variables, None);
}

/// As a package is made: installed below a folder that isn't part of the paths.
fn below_a_destination() {
    let scratch = Scratch::new();
    let variables = [
        "PREFIX=/opt/harptimber".to_string(),
        format!("DESTDIR={}", scratch.folder().display()),
    ];
    let prefix = scratch.path("opt/harptimber");
    expect_installed(
        scratch.folder(),
        &prefix,
        &variables,
        Some(scratch.folder()),
    );
    // What somebody else has put there stays.
    let other = prefix.join("bin/other");
    fs::create_dir_all(other.parent().unwrap()).unwrap();
    fs::write(&other, "").unwrap();
    make("install", &variables);
    make("uninstall", &variables);
    assert!(other.is_file(), "uninstall took another file away");
}

/// One after the other: they make the same files in host/target.
#[test]
fn installed() {
    below_a_prefix();
    below_a_destination();
}

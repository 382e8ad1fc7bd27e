//! Points the linker at the archives, and says what to run where one is missing. The measurements in
//! bench/ are built by this file too.

use std::path::Path;

const ARCHIVES: [&str; 3] = ["harptimber", "crc32_export", "scan_export"];

fn main() {
    let folder = Path::new(env!("CARGO_MANIFEST_DIR")).join("../target/staticlib");
    for name in ARCHIVES {
        let archive = folder.join(format!("lib{name}.a"));
        println!("cargo:rerun-if-changed={}", archive.display());
        if !archive.is_file() {
            eprintln!("target/staticlib/lib{name}.a is missing");
            eprintln!("run `.ci/archive {name}` at the repository's root");
            std::process::exit(1);
        }
    }
    println!("cargo:rustc-link-search=native={}", folder.display());
}

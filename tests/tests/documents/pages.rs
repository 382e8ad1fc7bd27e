//! What the README and docs/ say is there: the paths they name, and the C program, which is built and run
//! as they say.

use std::ffi::OsStr;
use std::fs;
use std::path::{Path, PathBuf};
use std::process::{Command, Stdio};

use harptimber_tests::cards::card::{Card, ROOT};
use harptimber_tests::cards::directory::{Dentry, DirLevel};
use harptimber_tests::cards::image::Image;
use harptimber_tests::cards::knobs::{Knobs, Pack};
use harptimber_tests::cards::layout::inode::{INLINE_ROOM, INLINE_ROOM_WITH_XATTR};
use harptimber_tests::cards::layout::{BLOCK_SIZE, SEGMENT_BLOCKS};
use harptimber_tests::cards::on_disk::OnDisk;
use harptimber_tests::program::levels::MOST_LEVEL;
use harptimber_tests::program::page::with_commas;
use harptimber_tests::running::ran;
use harptimber_tests::sizes::{blocks_most, nodes_most, CARD_BLOCKS_MOST, NAMES_MOST};
use harptimber_tests::tools::published::{Scratch, LONGEST_INLINE};
use harptimber_tests::trial::Random;

fn root() -> PathBuf {
    Path::new(env!("CARGO_MANIFEST_DIR")).join("..")
}

fn read(path: &str) -> String {
    fs::read_to_string(root().join(path)).unwrap_or_else(|error| panic!("{path}: {error}"))
}

/// What stands between single backticks.
fn quoted(text: &str) -> impl Iterator<Item = &str> {
    text.split('`').skip(1).step_by(2)
}

/// Whether a name is a pattern's: at most one star, or a word in capitals for any name.
fn fits(pattern: &str, name: &str) -> bool {
    if pattern.chars().all(|c| c.is_ascii_uppercase()) {
        return true;
    }
    match pattern.split_once('*') {
        Some((front, back)) => {
            name.len() >= pattern.len() - 1 && name.starts_with(front) && name.ends_with(back)
        }
        None => name == pattern,
    }
}

/// The same of a file's name. A must-fail edit may be named without its ending.
fn is_named(pattern: &str, name: &OsStr) -> bool {
    let name = name.to_string_lossy();
    let label = name.strip_suffix(".edit").unwrap_or(&name);
    fits(pattern, &name) || fits(pattern, label)
}

/// Whether a path is there, whatever its stars stand for.
fn is_there(folder: &Path, path: &str) -> bool {
    let (first, rest) = path.split_once('/').unwrap_or((path, ""));
    let entries = fs::read_dir(folder).into_iter().flatten().flatten();
    entries
        .filter(|entry| is_named(first, &entry.file_name()))
        .any(|entry| rest.is_empty() || is_there(&entry.path(), rest))
}

/// A path of the repository, and none of what is built.
fn is_path(word: &str) -> bool {
    let plain = |c: char| c.is_ascii_alphanumeric() || "._-*/".contains(c);
    let word_is_path = word.contains('/') && word.chars().all(plain);
    word_is_path && !word.contains("target/") && !word.starts_with('/')
}

#[test]
fn paths() {
    let documents = ["README.md", "docs/ARCHITECTURE.md", "docs/C-API.md"];
    let documents = [&documents[..], &["docs/DEMANDS.md", "docs/DECISIONS.md"]].concat();
    let (mut found, mut missing) = (0, Vec::new());
    for document in documents {
        let text = read(document);
        for path in quoted(&text).filter(|word| is_path(word)) {
            let path = path.trim_start_matches("./").trim_end_matches('/');
            let there = [root(), root().join("crates")].map(|folder| is_there(&folder, path));
            found += 1;
            if !there.contains(&true) {
                missing.push(format!("{document}: {path}"));
            }
        }
    }
    assert!(missing.is_empty(), "not there: {missing:#?}");
    assert!(found > 100, "{found} paths");
}

/// Whether a page has these words, wherever its lines break.
fn expect_words(page: &str, words: &str) {
    let text = read(page).replace("\n * ", " ").replace('\n', " ");
    assert!(text.contains(words), "no '{words}' in {page}");
}

/// How large a card may be, wherever people look for it.
#[test]
fn limits() {
    let gib = (u64::from(CARD_BLOCKS_MOST) * BLOCK_SIZE as u64) >> 30;
    let blocks = with_commas(CARD_BLOCKS_MOST as usize);
    for (page, words) in [
        ("README.md", format!("volumes of up to {gib} GiB")),
        ("docs/C-API.md", format!("at most {gib} GiB")),
        ("docs/C-API.md", format!("{blocks} blocks at most")),
        ("host/include/harptimber.h", format!("2 to {blocks} blocks")),
        (
            "host/include/harptimber.h",
            format!("largest card, {gib} GiB"),
        ),
        ("host/harptimber.1", format!("volumes of up to {gib} GiB")),
        ("host/harptimber.1", format!("but for at most {gib} GiB")),
    ] {
        expect_words(page, &words);
    }
}

/// The first version that reads directories with a level: where an earlier one answered 12, this one may not.
const READS_LEVELS: &str = "0.6.0";

/// What level the root directory may have, and since when.
#[test]
fn directory_levels() {
    for (page, words) in [
        (
            "README.md",
            format!("directory level (`dir_level` in Linux) of up to {MOST_LEVEL}."),
        ),
        (
            "docs/C-API.md",
            format!("From {READS_LEVELS} on a root directory with a level of 1 to {MOST_LEVEL}"),
        ),
        (
            "host/include/harptimber.h",
            format!("Before {READS_LEVELS} a root directory with any directory level"),
        ),
        (
            "host/harptimber.1",
            format!("directory level of up to {MOST_LEVEL}"),
        ),
        (
            "host/harptimber.1",
            format!("its directory level (i_dir_level) is over {MOST_LEVEL}"),
        ),
    ] {
        expect_words(page, &words);
    }
}

/// The first version that reads inline files and roots: it is the last after which a 12 is to be thrown away.
const READS_INLINE: &str = "0.7.0";

/// Inline files and roots: how long they are, and since when they are read.
#[test]
fn inline_inodes() {
    let [longest, room, beside] =
        [LONGEST_INLINE, INLINE_ROOM, INLINE_ROOM_WITH_XATTR].map(with_commas);
    for (page, words) in [
        ("README.md", format!("as files of up to {longest} bytes usually are")),
        ("README.md", format!("a 12 of one before {READS_INLINE}")),
        (
            "docs/C-API.md",
            format!("From {READS_INLINE} on inline files are read, and an inline root directory is searched"),
        ),
        (
            "docs/C-API.md",
            format!("at most {beside}, or {room} if the inode has no inline attributes"),
        ),
        (
            "host/include/harptimber.h",
            format!("before {READS_INLINE} an inline root directory and an inline file"),
        ),
        (
            "host/harptimber.1",
            format!("Files of up to {longest} bytes, empty ones too, usually are inline"),
        ),
        (
            "host/harptimber.1",
            format!("room for {beside} bytes, or for {room} of a file without inline attributes"),
        ),
    ] {
        expect_words(page, &words);
    }
}

/// The first version that takes paths.
const TAKES_PATHS: &str = "0.8.0";

/// How many names a path has, and since when there are several.
#[test]
fn paths_of_names() {
    for (page, words) in [
        (
            "README.md",
            "one to eight names with single slashes between them",
        ),
        (
            "host/harptimber.1",
            "one to eight names with single slashes between them",
        ),
        (
            "host/harptimber.1",
            "or up to seven directories further down",
        ),
        ("host/include/harptimber.h", "A path is one to eight names"),
    ] {
        expect_words(page, words);
    }
    let since = format!("From {TAKES_PATHS} on a path may have up to eight names");
    expect_words("docs/C-API.md", &since);
    let before = format!("Before {TAKES_PATHS} a path of several names");
    expect_words("host/include/harptimber.h", &before);
}

/// What room that needs.
#[test]
fn rooms_of_paths() {
    let [nodes, blocks] = [nodes_most(NAMES_MOST), blocks_most(NAMES_MOST)];
    let [nodes, blocks] = [nodes, blocks].map(|most| with_commas(most as usize));
    let always = format!("Lists of {nodes} numbers (`HARPTIMBER_NODES_BYTES`) and of {blocks} ");
    let needed = "room for 175k + 4 node numbers and 233k + 5 blocks";
    let most = "at most 175k + 4 nodes and 233k + 5 blocks";
    expect_words("docs/C-API.md", &always);
    expect_words("docs/C-API.md", needed);
    expect_words("README.md", most);
    expect_words("host/include/harptimber.h", "at most 175k + 4 for k names");
}

/// The first version that pulls runs.
const PULLS_RUNS: &str = "0.10.0";

/// How long a run is, what room it needs, and since when there are any.
#[test]
fn runs_of_pulls() {
    for (page, words) in [
        ("README.md", "pulls up to 512 blocks in a row"),
        ("docs/C-API.md", "up to 512 blocks of a file in a row"),
        (
            "docs/C-API.md",
            "room for 175k + 6 node numbers and 233k + 518 blocks",
        ),
        ("docs/C-API.md", "lists of 1,406 and of 2,382 numbers"),
        ("host/include/harptimber.h", "at most 175k + 6 for k names"),
        ("host/harptimber.1", "Blocks are compared 512 at a time"),
    ] {
        expect_words(page, words);
    }
    let since = format!("From {PULLS_RUNS} on there are runs of pulls");
    expect_words("docs/C-API.md", &since);
}

/// The first version that has readers.
const HAS_READERS: &str = "0.11.0";

/// How many blocks a reader asks for, what its state takes, and since when there is one.
#[test]
fn readers() {
    for (page, words) in [
        ("README.md", "one block at a time"),
        (
            "docs/C-API.md",
            "For k names at most 408k + 16 blocks are asked for",
        ),
        ("docs/C-API.md", "a struct of 23,992 bytes"),
        ("docs/C-API.md", "takes at most 128 KB of it"),
        (
            "host/include/harptimber.h",
            "This is its state, 23,992 bytes.",
        ),
        ("host/harptimber.1", "at most 408k + 16 blocks"),
    ] {
        expect_words(page, words);
    }
    let since = format!("From {HAS_READERS} on there are readers");
    expect_words("docs/C-API.md", &since);
}

/// The indented lines of a part of a page.
fn snippet(page: &str, title: &str) -> String {
    let text = read(page);
    let part = text.split("\n## ").find(|part| part.starts_with(title));
    let lines = part
        .unwrap_or_else(|| panic!("no '{title}' in {page}"))
        .lines();
    let mut lines = lines.filter(|line| line.starts_with("    ") || line.is_empty());
    let mut code = String::new();
    for line in &mut lines {
        code += line.strip_prefix("    ").unwrap_or("");
        code += "\n";
    }
    code.trim().to_string()
}

#[test]
fn snippets_are_of_the_example() {
    let example = read("host/example.c");
    for (page, title) in [
        ("README.md", "From C"),
        ("docs/C-API.md", "One block at a time"),
    ] {
        let snippet = snippet(page, title);
        assert!(snippet.lines().count() >= 15, "{snippet}");
        assert!(example.contains(&snippet), "{snippet}");
    }
}

/// The README's own command for it, with the program put into the folder.
fn build_example(folder: &Scratch) -> PathBuf {
    let readme = read("README.md");
    let command = quoted(&readme).find(|words| words.starts_with("cc -I"));
    let command = command.expect("a command");
    let program = folder.path("example");
    let command = command.replace("target/example", program.to_str().expect("a plain path"));
    let mut words = command.split_whitespace();
    let output = Command::new(words.next().expect("a compiler"))
        .args(words)
        .current_dir(root())
        .output()
        .expect("a compiler");
    let errors = String::from_utf8_lossy(&output.stderr);
    assert!(output.status.success() && errors.is_empty(), "{errors}");
    program
}

/// A card with a roads/road.bin of 100 such bytes.
fn card(byte: u8) -> Image {
    let knobs = Knobs::sound().with_pack(0, Pack::compact(1));
    with_road(Card::new(knobs, Random::new(1)), byte)
}

fn with_road(mut card: Card, byte: u8) -> Image {
    card.add_root(0, 1);
    let roads = card.add_folder(DirLevel(0), 0, 1);
    let ino = card.add_file(0, 100);
    let block = card.add_block(ino, 0);
    card.link(0, 0, &Dentry::new(b"road.bin", ino));
    card.enter(ROOT);
    card.link(0, 0, &Dentry::new(b"roads", roads));
    card.image.put("road", block, 0, &[byte; 100]);
    card.image
}

/// Each step has its own words: which file, and what is wrong with it.
#[test]
fn example_runs() {
    let folder = Scratch::new();
    let program = build_example(&folder);
    let [kept, changed, empty, zeros, none] =
        ["kept", "changed", "empty", "zeros", "none"].map(|name| folder.path(name));
    card(b'r').save(&kept);
    card(b's').save(&changed);
    fs::write(&empty, "").unwrap();
    fs::write(&zeros, [0; 8192]).unwrap();
    let road: &[u8] = &[b'r'; 100];
    let cards: [(&[&PathBuf], _, _, _); 11] = [
        (&[&kept, &kept], 0, road, ""),
        (&[&kept, &changed], 1, road, "changed: changed"),
        (&[&kept, &zeros], 2, road, "zeros: neither copy"),
        (&[&zeros, &kept], 2, b"", "zeros: neither copy"),
        (&[&none, &kept], 2, b"", "none: No such file"),
        (&[&kept, &none], 2, b"", "none: No such file"),
        (&[&empty, &kept], 2, b"", "empty: is empty"),
        // Of one card by a pipe.
        (&[&kept], 0, road, ""),
        (&[&zeros], 2, b"", "zeros: neither copy"),
        (&[&empty], 2, b"", "empty: out of shape"),
        (&[&none], 2, b"", "none: No such file"),
    ];
    for (cards, status, out, err) in cards {
        let ran = ran(Command::new(&program).args(cards), Stdio::piped()).expect(status);
        assert_eq!(ran.out, out, "output of {ran:?}");
        assert!(ran.err.contains(err), "no '{err}' in {ran:?}");
        assert_eq!(ran.err.lines().count(), usize::from(status != 0), "{ran:?}");
    }
    ran(&mut Command::new(&program), Stdio::piped()).expect_message(3, &["usage: "]);
}

/// On a card of 16 GiB with the file at its end.
#[test]
fn example_runs_on_a_large_card() {
    let folder = Scratch::new();
    let program = build_example(&folder);
    let knobs = Knobs::largest(2);
    let end = knobs.areas().main_end;
    let blocks = (end - SEGMENT_BLOCKS..end).collect();
    let card = Card::within(knobs, Random::new(1), blocks);
    let disk = OnDisk::new(with_road(card, b'r'));
    let image = disk.path();
    for cards in [&[&image][..], &[&image; 2]] {
        let ran = ran(Command::new(&program).args(cards), Stdio::piped()).expect(0);
        assert_eq!(ran.out, [b'r'; 100], "output of {ran:?}");
    }
}

/// The change that the README asks to try is a must-fail edit, so that it is refused in the gate too.
#[test]
fn change_to_see_refused() {
    let readme = read("README.md");
    let line = readme.lines().find(|line| line.starts_with("    sed -i "));
    let words: Vec<&str> = line.expect("a change").split('\'').collect();
    let [_, command, path] = words[..] else {
        panic!("{words:?}");
    };
    let [_, old, new, _] = command.split('/').collect::<Vec<_>>()[..] else {
        panic!("{command}");
    };
    let source = read(path.trim());
    assert_eq!(source.matches(old).count(), 1, "'{old}' in {path}");
    let edit = read("crates/compare/must-fail/block_with_itself.edit");
    let part = |key| edit.lines().find_map(|line| line.strip_prefix(key));
    let [from, to] = ["old: ", "new: "].map(|key| part(key).expect("a part of an edit"));
    assert!(source.replace(old, new) == source.replace(from, to));
    assert!(readme.contains(&format!("`git checkout {}`", path.trim())));
}

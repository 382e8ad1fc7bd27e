//! Files that can't be read or written: a message that names the file, and nothing else happens.

use std::fs::{self, File};
use std::os::unix::ffi::OsStrExt;
use std::os::unix::fs::PermissionsExt;
use std::path::Path;

use harptimber_tests::program::card::{shared_card, ROAD};
use harptimber_tests::program::held::make_fifo;
use harptimber_tests::program::keeps::kept;
use harptimber_tests::program::page::shown;
use harptimber_tests::program::*;
use harptimber_tests::system::{resize, sparse_file};
use harptimber_tests::tools::published::Scratch;

const NO_IMAGE: &str = "is neither a file nor a block device";

/// Runs each command on an image that can't be read, for this reason.
fn expect_unreadable(bad: &Path, why: &str, run: impl Fn(Words) -> Ran) {
    let card = shared_card();
    let (good, bad) = (card.disk.path(), bad.to_path_buf());
    let scratch = Scratch::new();
    let [file, output] = ["road.keep", "output"].map(|name| scratch.path(name));
    fs::write(&file, kept(&card.disk.image, ROAD, 0).unwrap()).unwrap();
    let lines: [Words; 12] = [
        &[&"keep", &"-o", &output, &bad, &ROAD],
        &[&"check", &file, &bad],
        &[&"check", &"--json", &file, &bad],
        &[&"segments", &bad],
        &[&"segments", &"--json", &bad],
        &[&"pull", &bad, &ROAD, &"0"],
        &[&"pull", &"--json", &bad, &ROAD, &"0"],
        &[&"cat", &bad, &ROAD],
        &[&"node", &bad, &"3"],
        &[&"compare", &good, &bad, &ROAD],
        &[&"compare", &"--index=0", &bad, &good, &ROAD],
        &[&"compare", &"--json", &bad, &bad, &ROAD],
    ];
    for line in lines {
        let message = format!("harptimber: {}: {why}\n", bad.display());
        assert_eq!(run(line).expect_message(2, &[]).err, message);
    }
    assert_eq!(scratch.names(), ["road.keep"]);
}

#[test]
fn missing() {
    let card = shared_card();
    let below = card.disk.path().join("below a file");
    let missing = card.disk.scratch.path("missing.img");
    expect_unreadable(&missing, "No such file or directory", run);
    expect_unreadable(&below, "Not a directory", run);
    let long = "long/".repeat(2000);
    expect_unreadable(Path::new(&long), "File name too long", run);
}

#[test]
fn empty() {
    let card = shared_card();
    let empty = card.disk.scratch.path("empty.img");
    File::create(&empty).unwrap();
    expect_unreadable(&empty, "is empty", run);
}

#[test]
fn folder() {
    let card = shared_card();
    expect_unreadable(card.disk.scratch.folder(), "is a directory", run);
}

/// Nobody writes to it: opening it mustn't wait.
#[test]
fn fifo() {
    let card = shared_card();
    let fifo = card.disk.scratch.path("fifo");
    make_fifo(&fifo);
    expect_unreadable(&fifo, NO_IMAGE, run);
}

#[test]
fn devices() {
    for device in ["/dev/null", "/dev/zero", "/dev/full"] {
        expect_unreadable(Path::new(device), NO_IMAGE, run);
    }
}

#[test]
fn no_permission() {
    let card = shared_card();
    let image = card.disk.scratch.path("no permission.img");
    fs::copy(card.disk.path(), &image).unwrap();
    let allow = |mode| fs::set_permissions(&image, PermissionsExt::from_mode(mode)).unwrap();
    allow(0o000);
    expect_unreadable(&image, "Permission denied", run_without_privilege);
    allow(0o400);
    run_without_privilege(&[&"pull", &image, &ROAD, &"0"]).expect(0);
    let words: Words = &[&"pull", &"-o", &image, &card.disk.path(), &ROAD, &"0"];
    let message = format!("{}: Permission denied\n", image.display());
    run_without_privilege(words).expect_message(2, &[&message]);
}

/// With less address space to be had than the image has bytes, though it is no more than a card may have.
#[test]
fn too_big() {
    let scratch = Scratch::new();
    let image = scratch.path("too big.img");
    sparse_file(&image, 16 << 30);
    let with_little = |words: Words| run_by_shell("ulimit -v 16000000; exec \"$@\"", words);
    expect_unreadable(&image, "is too big to map", with_little);
}

/// A card of that length is pulled from in a hundredth of the addresses, if it isn't mapped; also where a reason is sought.
#[test]
fn too_big_but_blockwise() {
    let card = shared_card();
    let scratch = Scratch::new();
    let image = scratch.path("large.img");
    card.card.image.save(&image);
    resize(&image, 16 << 30);
    let with_little = |words: Words| run_by_shell("ulimit -v 160000; exec \"$@\"", words);
    for (name, index) in card.calls() {
        let words: Words = &[&"pull", &"--json", &image, &"--", &name, &index];
        let blockwise = [&[words[0], &"--blockwise"], &words[1..]].concat();
        let [ran, told] = [with_little(&blockwise), run(words)];
        assert_eq!((ran.status, ran.words()), (told.status, told.words()));
        with_little(words).expect_message(2, &["is too big to map\n"]);
    }
}

/// There is room for one of two large cards: it is the second that is named.
#[test]
fn too_big_together() {
    let scratch = Scratch::new();
    let [kept, new] = ["kept.img", "new.img"].map(|name| {
        let path = scratch.path(name);
        shared_card().card.image.save(&path);
        resize(&path, 16 << 30);
        path
    });
    let line: Words = &[&"compare", &kept, &new, &ROAD];
    let [one, both] = [20_000_000, 40_000_000]
        .map(|kib| run_by_shell(&format!("ulimit -v {kib}; exec \"$@\""), line));
    one.expect_message(2, &["new.img: is too big to map\n"]);
    both.expect(0);
}

/// Paths that JSON can't have as they are.
#[test]
fn paths_in_json() {
    let card = shared_card();
    let names: [&[u8]; 3] = [b"a \"b\" \\ c\n.img", b"caf\xE9.img", b"-o"];
    for name in names {
        let image = card.disk.scratch.path(name.word());
        fs::copy(card.disk.path(), &image).unwrap();
        let json = run(&[&"node", &"--json", &"--", &image, &"3"])
            .expect(0)
            .json();
        assert_eq!(json["image"].text(), shown(image.as_os_str().as_bytes()));
    }
}

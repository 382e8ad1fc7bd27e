//! `harptimber keep`: the keep file that it writes, by the reference, and what it says.

use std::collections::BTreeSet;
use std::fs::{self, Permissions};
use std::os::unix::fs::PermissionsExt;
use std::path::PathBuf;

use harptimber_tests::cards::on_disk::OnDisk;
use harptimber_tests::cards::walk_damage::strike_block;
use harptimber_tests::program::card::{pulled, shared_card, ProgramCard, LONG, ROAD};
use harptimber_tests::program::held::{Files, Hold, Holder};
use harptimber_tests::program::json::Json;
use harptimber_tests::program::keeps::{beside, kept, parts};
use harptimber_tests::program::page::{counted, expect_head, expect_name, meaning, status_of};
use harptimber_tests::program::synced::Synced;
use harptimber_tests::program::{command, command_without_privilege};
use harptimber_tests::program::{run, run_by_shell, run_without_privilege, Words};
use harptimber_tests::tools::published::Scratch;

use crate::path_compares::with_changes;
use crate::paths::{Stage, EIGHT};

/// What the object has of the pull, and of the file, which is that of `keep` and of `show`.
pub(crate) fn expect_contents(json: &Json, pull: &Json, file: &[u8]) {
    for key in ["name", "name_hex", "index", "byte_count", "nodes", "blocks"] {
        assert_eq!(json[key], pull[key], "{key} in {json:?}");
    }
    assert_eq!(json["pull_answer"], pull["answer"], "{json:?}");
    assert_eq!(json["pull_meaning"], pull["meaning"], "{json:?}");
    assert_eq!(json.get("pull_reason"), pull.get("reason"), "{json:?}");
    let bounds = ["main_start", "main_end"].map(|key| json[key].number() as u32);
    assert_eq!(bounds, parts(file).bounds, "{json:?}");
    assert_eq!(json["length"].number(), file.len() as u64, "{json:?}");
}

/// The line behind those of the pull.
pub(crate) fn last_line(file: &[u8]) -> String {
    let [start, end] = parts(file).bounds;
    let bytes = counted(file.len(), "byte");
    format!(
        "keep file of {bytes}; the main area is blocks {start} to {}\n",
        end - 1
    )
}

/// Keeps a block, in words and for an object, which has to be the pull's. Shows it, too: with the file alone, as much is said of why
/// there is no block as with the card. Returns the pull's answer.
fn expect_kept(card: &OnDisk, path: &[u8], index: u32) -> u32 {
    let file = kept(&card.image, path, index).expect("a keep file");
    let answer = pulled(&card.image, path, index).pulled.answer;
    let (image, output) = (card.path(), card.scratch.path("file.keep"));
    let pull = run(&[&"pull", &"--json", &image, &"--", &path, &index]);
    let pull = pull.expect(status_of(answer)).json();
    let words: Words = &[&"keep", &"-o", &output, &image, &"--", &path, &index];
    let as_json = run(&[&[&"--json" as _], words].concat()).expect(status_of(answer));
    assert!(fs::read(&output).unwrap() == file, "bytes of {as_json:?}");
    let json = as_json.json();
    expect_head(&json, "keep", 0);
    expect_name(&json, path);
    assert_eq!(json["image"].text(), image.to_str().unwrap());
    assert_eq!(json["output"].text(), output.to_str().unwrap());
    expect_contents(&json, &pull, &file);
    let in_words = run(words).expect(status_of(answer));
    assert!(fs::read(&output).unwrap() == file, "bytes of {in_words:?}");
    let pull = run(&[&"pull", &image, &"--", &path, &index]);
    let said = format!("{}{}", pull.words(), last_line(&file));
    assert_eq!(in_words.words(), said);
    assert_eq!(in_words.err + &as_json.err, "");
    assert_eq!(run(&[&"show", &output]).expect(0).words(), said);
    fs::remove_file(&output).unwrap();
    answer
}

/// Each answer from 0 to 3 and from 9 to 14, and paths that words and JSON can't have as they are.
#[test]
fn every_answer() {
    let card = ProgramCard::build();
    let calls = card.calls().into_iter();
    let answers: BTreeSet<u32> = calls
        .map(|(path, index)| expect_kept(&card.disk, &path, index))
        .collect();
    assert_eq!(answers, (0..=3).chain(9..=14).collect());
}

/// Through folders of every kind, to a file, to a directory, and to nothing on the way.
#[test]
fn folders() {
    let stage = Stage::new(EIGHT);
    let paths = (0..EIGHT).flat_map(|nth| {
        let missing = stage.folders.path_with(nth, b"missing");
        [missing, stage.folders.path_of(nth + 1)]
    });
    let answers: Vec<u32> = paths
        .map(|path| expect_kept(&stage.disk, &path, 0))
        .collect();
    let ways = [2, 12].repeat(EIGHT - 1);
    assert_eq!(answers, [&ways[..], &[2, 0]].concat());
}

/// Random folders, with a few bytes changed in a block on the way.
#[test]
fn damaged_folders() {
    let mut answers = BTreeSet::new();
    with_changes(91, 6, strike_block, |[_, damaged], target| {
        answers.insert(expect_kept(damaged, &target.name, target.index));
    });
    assert!(answers.len() > 5, "{answers:?}");
}

/// Without an index it is block 0.
#[test]
fn first_block() {
    let card = shared_card();
    let (image, output) = (card.disk.path(), card.disk.scratch.path("first_block"));
    run(&[&"keep", &"-o", &output, &image, &ROAD]).expect(0);
    let file = kept(&card.disk.image, ROAD, 0).unwrap();
    assert!(fs::read(&output).unwrap() == file);
}

/// The file on standard output, and what there is to say beside it.
#[test]
fn to_standard_output() {
    let card = shared_card();
    let image = card.disk.path();
    for index in [5, 6] {
        let file = kept(&card.disk.image, ROAD, index).unwrap();
        let status = if index == 5 { 0 } else { 2 };
        let ran = run(&[&"keep", &"-o", &"-", &image, &ROAD, &index]).expect(status);
        assert!(ran.out == file, "bytes of {ran:?}");
        assert!(ran.err.ends_with(&last_line(&file)), "{ran:?}");
        let ran = run(&[&"keep", &"--json", &"-o", &"-", &image, &ROAD, &index]);
        assert!(ran.out == file, "bytes of {ran:?}");
        let json = Json::parse(&ran.err).expect("an object");
        assert_eq!(json["output"].text(), "-");
    }
}

/// A folder with an old keep file in it.
struct Place(Scratch);

impl Place {
    fn new() -> Place {
        Place(Scratch::new())
    }

    fn output(&self) -> PathBuf {
        self.0.path("output")
    }

    /// Tries something without a file, and with one: that stays, and nothing is beside it.
    fn expect_nothing_new(&self, keep: impl Fn()) {
        keep();
        assert_eq!(self.0.names(), [""; 0]);
        fs::write(self.output(), "old").unwrap();
        keep();
        self.expect_alone(b"old");
        fs::remove_file(self.output()).unwrap();
    }

    fn expect_alone(&self, bytes: &[u8]) {
        assert_eq!(self.0.names(), ["output"]);
        assert!(fs::read(self.output()).unwrap() == bytes, "another output");
    }
}

/// A path that is none. Images that don't open are among the refusals of every command.
#[test]
fn bad_paths() {
    let (card, place) = (shared_card(), Place::new());
    for (path, why) in [
        ("", "the path is empty"),
        ("/road.bin", "the path starts with a slash"),
        ("a//b", "the path has two slashes side by side"),
        ("a/b/c/d/e/f/g/h/i", "the path has 9 names"),
    ] {
        place.expect_nothing_new(|| {
            let line: Words = &[&"keep", &"-o", &place.output(), &card.disk.path(), &path];
            let ran = run(line).expect(2);
            let said = format!(", block 0: out of shape (answer 4): {why}");
            assert!(ran.words().contains(&said), "no '{said}' in {ran:?}");
            assert!(ran.words().ends_with("\nnothing was kept\n"), "{ran:?}");
            let json = run(&[line, &[&"--json"]].concat()).expect(2).json();
            expect_head(&json, "keep", 4);
            expect_name(&json, path.as_bytes());
            assert_eq!(json["meaning"].text(), meaning("keep", 4));
            let reason = json["reason"].text();
            assert!(reason.starts_with(why), "{json:?}");
            assert_eq!(json["nodes"].list().len() + json["blocks"].list().len(), 0);
            assert!(json.get("pull_answer").is_none(), "{json:?}");
        });
    }
}

/// While the card is read, and where the bytes can't be written.
#[test]
fn ended_early() {
    let (card, place, holder) = (shared_card(), Place::new(), Holder::shared());
    let output = place.output();
    let words: Words = &[&"keep", &"-o", &output, &card.disk.path(), &ROAD, &"5"];
    let block = card.file(ROAD).blocks[&5];
    for files in Files::each(place.0.folder()) {
        for signal in ["INT", "TERM", "KILL"] {
            place.expect_nothing_new(|| {
                holder.end_by(words, Hold { image: 0, block }, files, signal)
            });
        }
    }
    place.expect_nothing_new(|| {
        let line = "trap '' XFSZ; ulimit -f 1; exec \"$@\"";
        run_by_shell(line, words).expect_message(2, &["output: File too large\n"]);
    });
}

/// A folder in which no file can be made.
#[test]
fn unwritable_folder() {
    let (card, place) = (shared_card(), Place::new());
    let output = place.output();
    let words: Words = &[&"keep", &"-o", &output, &card.disk.path(), &ROAD];
    let allow = |mode| {
        fs::set_permissions(place.0.folder(), Permissions::from_mode(mode)).unwrap();
    };
    place.expect_nothing_new(|| {
        allow(0o555);
        let there = output.exists();
        let why = match there {
            true => "is in a folder that can't be written",
            false => "Permission denied",
        };
        let message = format!("harptimber: {}: {why}\n", output.display());
        run_without_privilege(words).expect_message(2, &[&message]);
        allow(0o755);
    });
}

/// Errors' numbers: of a disk that fails, and of file systems that can't do it.
const EIO: i32 = 5;
const CANT: [i32; 4] = [22, 30, 38, 95];

/// The bytes are on the disk before they get a name, and then the name is. If they can't be put there, the old file stays.
#[test]
fn on_the_disk() {
    let (card, place, synced) = (shared_card(), Place::new(), Synced::shared());
    let (image, output) = (card.disk.path(), place.output());
    let lines: [Words; 3] = [
        &[&"keep", &"-o", &output, &image, &ROAD],
        &[&"pull", &"-o", &output, &image, &ROAD, &"0"],
        &[&"cat", &"-o", &output, &image, &LONG],
    ];
    for line in lines {
        place.expect_nothing_new(|| {
            let (ran, notes) = synced.run(command(line), Some(("file", EIO)));
            ran.expect_message(2, &["output: Input/output error\n"]);
            assert_eq!(notes, ["file synced"]);
        });
        let names = match Files::each(place.0.folder()).contains(&Files::AsHere) {
            true => [&["named"][..], &["named", "renamed"]],
            false => [&["renamed"][..], &["renamed"]],
        };
        for named in names {
            let (ran, notes) = synced.run(command(line), None);
            ran.expect(0);
            let expected = [&["file synced"], named, &["folder synced"]].concat();
            assert_eq!(notes, expected);
            assert_eq!(place.0.names(), ["output"]);
        }
        fs::remove_file(&output).unwrap();
    }
}

/// A name that can't be put on the disk is told, old or new, and the file stays; where no file system does that, nothing is told.
#[test]
fn name_on_the_disk() {
    let (card, place, synced) = (shared_card(), Place::new(), Synced::shared());
    let (image, output) = (card.disk.path(), place.output());
    let file = kept(&card.disk.image, ROAD, 0).unwrap();
    let words: Words = &[&"keep", &"-o", &output, &image, &ROAD];
    let lost =
        "output: is whole, but may be lost if the power fails: its folder: Input/output error\n";
    let allow = |mode| fs::set_permissions(place.0.folder(), Permissions::from_mode(mode)).unwrap();
    let expect = |command, fails: (&str, i32), mode| {
        allow(mode);
        let (ran, notes) = synced.run(command, Some(fails));
        allow(0o700);
        assert_eq!(notes.last().unwrap(), &format!("{} synced", fails.0));
        match fails.1 {
            EIO => ran.expect_message(2, &[lost]),
            _ => ran.expect(0),
        };
        place.expect_alone(&file);
    };
    for error in [EIO].into_iter().chain(CANT) {
        for _ in 0..2 {
            expect(command(words), ("folder", error), 0o700);
        }
        // A folder that may be written but not read: in its place, all of its file system is put there.
        let without = command_without_privilege(words);
        expect(without, ("file system", error), 0o300);
        fs::remove_file(&output).unwrap();
    }
}

/// Of a path that is longer than any, words have as much as a path can have, and JSON has all of it.
#[test]
fn path_longer_than_any() {
    let card = OnDisk::new(shared_card().disk.image.clone());
    let sound = parts(&kept(&card.image, ROAD, 0).unwrap());
    let path = "p\\".repeat(1500);
    for (len, shown, rest) in [
        (2047, 2047, ""),
        (2048, 2047, " and 1 more byte"),
        (2049, 2047, " and 2 more bytes"),
        (3000, 2047, " and 953 more bytes"),
    ] {
        let long = sound.with(|parts| parts.path = path.as_bytes()[..len].to_vec());
        let file = beside(&card, "long.keep", &long.laid_out());
        let ran = run(&[&"show", &file]).expect(0);
        let said = path[..shown].replace('\\', "\\\\");
        let start = format!("{said}{rest}, block 0: ");
        assert!(ran.words().starts_with(&start), "{ran:?}");
        let json = run(&[&"show", &"--json", &file]).expect(0).json();
        expect_name(&json, &path.as_bytes()[..len]);
    }
}

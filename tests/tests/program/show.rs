//! `harptimber show`: what is in a keep file, and the bytes that were kept.

use std::fs::{self, File, Permissions};
use std::os::unix::fs::PermissionsExt;
use std::path::Path;

use harptimber_tests::cards::on_disk::OnDisk;
use harptimber_tests::program::card::{shared_card, REPEATING, ROAD};
use harptimber_tests::program::held::make_fifo;
use harptimber_tests::program::json::Json;
use harptimber_tests::program::keeps::kept_beside;
use harptimber_tests::program::page::{expect_head, status_of};
use harptimber_tests::program::{run, run_on_terminal, run_without_privilege, Ran, Words};
use harptimber_tests::tools::published::Scratch;

use crate::keep::{expect_contents, last_line};

/// A copy of the shared card, with a folder of its own.
fn card() -> OnDisk {
    OnDisk::new(shared_card().disk.image.clone())
}

/// The object, and the lists in words. All answers are told with the keep file, where it is written.
#[test]
fn lists() {
    let (shared, card) = (shared_card(), card());
    let image = card.path();
    for (path, index) in shared.calls() {
        let file = kept_beside(&card, "kept.keep", &path, index);
        let bytes = fs::read(&file).unwrap();
        let pull = run(&[&"pull", &"--json", &"--", &image, &path, &index]).json();
        let json = run(&[&"show", &"--json", &file]).expect(0).json();
        expect_head(&json, "show", 0);
        assert_eq!(json["file"].text(), file.to_str().unwrap());
        expect_contents(&json, &pull, &bytes);
        let pull = run(&[&"pull", &"--lists", &"--", &image, &path, &index]);
        let lines: Vec<&str> = pull.words().split_inclusive('\n').collect();
        let (before, lists) = lines.split_at(2);
        let said = [before, &[&last_line(&bytes)], lists].concat().concat();
        let ran = run(&[&"show", &"--lists", &file]).expect(0);
        assert_eq!(ran.words(), said);
    }
}

/// The bytes up to the byte count, as a pull writes them. Where there is no block, nothing is written.
#[test]
fn bytes() {
    let (shared, card) = (shared_card(), card());
    let (image, [kept, pulled]) = (
        card.path(),
        ["kept", "pulled"].map(|name| card.scratch.path(name)),
    );
    for (path, index) in shared.calls() {
        let file = kept_beside(&card, "kept.keep", &path, index);
        let answer = shared.pulled(&path, index).pulled.answer;
        let status = status_of(answer);
        run(&[&"pull", &"-o", &pulled, &"--", &image, &path, &index]).expect(status);
        let ran = run(&[&"show", &"-o", &kept, &file]).expect(status);
        assert_eq!(ran.words(), run(&[&"show", &file]).expect(0).words());
        assert_eq!(kept.exists(), answer <= 1, "{ran:?}");
        if answer <= 1 {
            assert!(fs::read(&kept).unwrap() == fs::read(&pulled).unwrap());
            fs::remove_file(&kept).unwrap();
        }
        let ran = run(&[&"show", &"--json", &"-o", &"-", &file]).expect(status);
        let json = Json::parse(&ran.err).expect("an object");
        expect_head(&json, "show", 0);
        let count = json["byte_count"].number() as usize;
        assert_eq!(ran.out.len(), count, "{ran:?}");
    }
}

/// On a terminal data is shown as a pull shows it; nothing else is.
#[test]
fn on_a_terminal() {
    let card = card();
    let image = card.path();
    for (path, index) in [(ROAD, 0), (ROAD, 5), (REPEATING, 1), (ROAD, 2), (ROAD, 6)] {
        let file = kept_beside(&card, "kept.keep", path, index);
        let pull = run_on_terminal(&[&"pull", &image, &path, &index], None);
        let show = run_on_terminal(&[&"show", &file], None).expect(0);
        let behind = |ran: &Ran, lines: usize| {
            let lines: Vec<String> = ran
                .words()
                .lines()
                .skip(lines)
                .map(str::to_string)
                .collect();
            lines
        };
        assert_eq!(behind(&show, 3), behind(&pull, 2));
        assert_eq!(behind(&show, 3).is_empty(), [2, 6].contains(&index));
    }
    let file = kept_beside(&card, "kept.keep", ROAD, 0);
    let json = run_on_terminal(&[&"show", &"--json", &file], None).expect(0);
    assert_eq!(json.words().lines().count(), 1, "{json:?}");
}

/// The keep file isn't written to, by whatever name.
#[test]
fn onto_itself() {
    let card = card();
    let file = kept_beside(&card, "kept.keep", ROAD, 0);
    let linked = card.scratch.path("linked.keep");
    fs::hard_link(&file, &linked).unwrap();
    let before = fs::read(&file).unwrap();
    for output in [&file, &linked] {
        let message = format!(
            "harptimber: {}: is the keep file itself\n",
            output.display()
        );
        let ran = run(&[&"show", &"-o", output, &file]);
        assert_eq!(ran.expect_message(2, &[]).err, message);
        assert!(fs::read(&file).unwrap() == before, "written to");
    }
}

/// What can't be read has a message with its name. An empty file can be, and is no keep file.
#[test]
fn unreadable() {
    let scratch = Scratch::new();
    let [missing, fifo, denied, empty] =
        ["missing", "fifo", "denied", "empty"].map(|name| scratch.path(name));
    make_fifo(&fifo);
    for file in [&denied, &empty] {
        File::create(file).unwrap();
    }
    fs::set_permissions(&denied, Permissions::from_mode(0)).unwrap();
    let expect = |bad: &Path, why: &str| {
        let message = format!("harptimber: {}: {why}\n", bad.display());
        let lines: [Words; 2] = [
            &[&"show", &bad.to_path_buf()],
            &[&"show", &"--json", &bad.to_path_buf()],
        ];
        for line in lines {
            let ran = run_without_privilege(line);
            assert_eq!(ran.expect_message(2, &[]).err, message);
        }
    };
    expect(&missing, "No such file or directory");
    expect(&fifo, "is neither a file nor a block device");
    expect(
        Path::new("/dev/zero"),
        "is neither a file nor a block device",
    );
    expect(scratch.folder(), "is a directory");
    expect(&denied, "Permission denied");
    let ran = run(&[&"show", &empty]).expect(2);
    let why = "(answer 18): it has 0 bytes, and a keep file's header alone has 24\n";
    assert!(ran.words().ends_with(why), "{ran:?}");
}

//! `harptimber check`: of a keep file it says what `compare` says of the card that the file was kept from.

use std::fs::{self, File};
use std::os::unix::fs::FileExt;
use std::path::PathBuf;
use std::thread;
use std::time::{Duration, SystemTime};

use harptimber_tests::cards::layout::BLOCK_SIZE;
use harptimber_tests::cards::on_disk::OnDisk;
use harptimber_tests::program::card::{ProgramCard, ROAD};
use harptimber_tests::program::held::{Hold, Holder};
use harptimber_tests::program::json::Json;
use harptimber_tests::program::keeps::{beside, kept, kept_beside, parts};
use harptimber_tests::program::page::{expect_head, meaning};
use harptimber_tests::program::{run, run_by_shell, Ran, Word, Words};

/// Checks the keep file of a block, in words and for an object, which have to be those of a compare of the block. Returns the
/// status.
pub(crate) fn expect_as_compare(
    run: impl Fn(Words) -> Ran,
    cards: [&OnDisk; 2],
    path: &[u8],
    index: u32,
) -> i32 {
    let file = kept(&cards[0].image, path, index).expect("a keep file");
    let file = beside(cards[1], "checked.keep", &file);
    let [kept, new] = cards.map(OnDisk::path);
    let compare: Words = &[&"--index", &index, &"compare", &"--", &kept, &new, &path];
    let check: Words = &[&"check", &file, &new];
    let compared = run(compare);
    let status = compared.status;
    let checked = run(check).expect(status);
    let said = format!("{}: {}", file.display(), compared.words());
    assert_eq!(checked.words(), said);
    let json = |words: Words| run(&[&[&"--json" as _], words].concat()).expect(status);
    let (compared, checked) = (json(compare).json(), json(check).json());
    expect_head(&checked, "check", compared["answer"].number() as u32);
    assert_eq!(checked["file"].text(), file.to_str().unwrap());
    let others = |json: &Json| {
        let keys = json.keys().into_iter();
        let keys = keys.filter(|key| !["command", "kept", "file"].contains(key));
        keys.map(|key| (key.to_string(), json[key].clone()))
            .collect::<Vec<_>>()
    };
    let [compared, mut checked] = [&compared, &checked].map(others);
    // Beside `kept`, the new card is the first that a compare names.
    checked.sort_by_key(|(key, _)| compared.iter().position(|(other, _)| other == key));
    assert_eq!(checked, compared);
    status
}

/// Keep files with each status, beside the new card.
struct Checks {
    new: OnDisk,
    /// With the status that each has alone.
    files: Vec<(PathBuf, i32)>,
    _kept: ProgramCard,
}

impl Checks {
    fn new() -> Checks {
        let kept = ProgramCard::build();
        let mut new = OnDisk::new(kept.disk.image.clone());
        let changed = kept.file(ROAD).blocks[&1];
        new.image
            .put("a byte", changed, 7, &[!new.image.block(changed)[7]]);
        new.write_blocks(&[changed]);
        let (missing, ..) = kept.refused[0].clone();
        let keeps = [
            ("same.keep", ROAD, 0, 0),
            ("changed.keep", ROAD, 1, 1),
            ("end.keep", ROAD, 6, 2),
            ("missing.keep", &missing, 0, 4),
        ];
        let mut files: Vec<(PathBuf, i32)> = keeps
            .into_iter()
            .map(|(name, path, index, status)| {
                let file = kept.disk.scratch.path(name);
                run(&[
                    &"keep",
                    &"-o",
                    &file,
                    &kept.disk.path(),
                    &"--",
                    &path,
                    &index,
                ]);
                (file, status)
            })
            .collect();
        files.push((beside(&new, "text", b"this is no keep file at all"), 2));
        let mut rotten = parts(&fs::read(&files[0].0).unwrap());
        rotten.block[0] ^= 1;
        files.push((beside(&new, "rotten.keep", &rotten.laid_out()), 2));
        files.push((beside(&new, "empty", b""), 2));
        Checks {
            new,
            files,
            _kept: kept,
        }
    }

    fn run(&self, options: Words, files: &[&PathBuf]) -> Ran {
        let mut words: Vec<&dyn Word> = vec![&"check"];
        words.extend(files.iter().map(|file| *file as &dyn Word));
        let new = self.new.path();
        words.push(&new);
        words.extend(options);
        run(&words)
    }

    fn file(&self, name: &str) -> &PathBuf {
        let mut files = self.files.iter().map(|(file, _)| file);
        files.find(|file| file.ends_with(name)).expect("a file")
    }
}

/// One line each, with what changed behind it; and nothing but the status where nothing is to be said.
#[test]
fn alone() {
    let checks = Checks::new();
    for (file, status) in &checks.files {
        let ran = checks.run(&[], &[file]).expect(*status);
        let start = format!("{}: ", file.display());
        assert!(ran.words().starts_with(&start), "{ran:?}");
        assert_eq!(ran.err, "");
        let lines = ran.words().lines().count();
        assert_eq!(lines, if *status == 1 { 2 } else { 1 }, "{ran:?}");
        let ran = checks.run(&[&"-q"], &[file]).expect(*status);
        assert_eq!((ran.words(), ran.err.as_str()), ("", ""));
    }
    let same = checks.run(&[], &[checks.file("same.keep")]);
    let line = format!(
        "{}: road.bin, block 0: is the same\n",
        checks.file("same.keep").display()
    );
    assert_eq!(same.words(), line);
}

/// All pairs: the lines of both, the higher status, and as JSON a list with the answer of the first one that has it.
#[test]
fn pairs() {
    let checks = Checks::new();
    let each = || checks.files.iter();
    for ((one, first), (other, second)) in each().flat_map(|one| each().map(move |two| (one, two)))
    {
        let status = *first.max(second);
        let alone = [one, other].map(|file| checks.run(&[], &[file]).words().to_string());
        let ran = checks.run(&[], &[one, other]).expect(status);
        assert_eq!(ran.words(), alone.concat());
        checks.run(&[&"-q"], &[one, other]).expect(status);
        let alone = [one, other].map(|file| checks.run(&[&"--json"], &[file]).json());
        let json = checks
            .run(&[&"--json"], &[one, other])
            .expect(status)
            .json();
        let worst = if second > first { &alone[1] } else { &alone[0] };
        expect_head(&json, "check", worst["answer"].number() as u32);
        assert_eq!(
            json.keys(),
            ["command", "answer", "meaning", "new", "files"]
        );
        assert_eq!(json["files"].list().len(), 2, "{json:?}");
        for (listed, alone) in json["files"].list().iter().zip(&alone) {
            let keys = alone.keys().into_iter();
            let keys: Vec<&str> = keys
                .filter(|key| !["command", "new"].contains(key))
                .collect();
            assert_eq!(listed.keys(), keys, "{json:?}");
            assert!(keys.iter().all(|key| listed[key] == alone[key]), "{json:?}");
        }
    }
}

/// What is no keep file is answered 18, and names neither a path nor a block.
#[test]
fn no_keep_file() {
    let checks = Checks::new();
    let file = checks.file("text");
    let json = checks.run(&[&"--json"], &[file]).expect(2).json();
    expect_head(&json, "check", 18);
    assert_eq!(json["meaning"].text(), meaning("check", 18));
    assert_eq!(json["verdict"].text(), "refused");
    assert_eq!(json["status"].number(), 2);
    assert!(
        ["name", "runs", "side"]
            .iter()
            .all(|key| json.get(key).is_none()),
        "{json:?}"
    );
    let reason = json["reason"].text();
    let ran = checks.run(&[], &[file]).expect(2);
    let line = format!(
        "{}: {} (answer 18): {reason}\n",
        file.display(),
        meaning("check", 18)
    );
    assert_eq!(ran.words(), line);
}

/// A file that can't be read has a message; the others are checked all the same. There is no object then.
#[test]
fn unreadable_file() {
    let checks = Checks::new();
    let [missing, below] = ["gone.keep", "same.keep/below"].map(|name| {
        let folder = checks.file("same.keep").parent().unwrap();
        folder.join(name)
    });
    let folder = checks.new.scratch.folder().to_path_buf();
    for (bad, why) in [
        (&missing, "No such file or directory"),
        (&below, "Not a directory"),
        (&folder, "is a directory"),
    ] {
        let message = format!("harptimber: {}: {why}\n", bad.display());
        for (good, status) in &checks.files {
            let alone = checks.run(&[], &[good]);
            for files in [[good, bad], [bad, good]] {
                let ran = checks.run(&[], &files).expect((*status).max(2));
                assert_eq!(ran.words(), alone.words());
                assert_eq!(ran.err, message);
                let ran = checks.run(&[&"--json"], &files).expect((*status).max(2));
                assert_eq!((ran.words(), &ran.err), ("", &message));
                let ran = checks.run(&[&"-q"], &files).expect((*status).max(2));
                assert_eq!((ran.words(), &ran.err), ("", &message));
            }
        }
    }
}

/// Far more files than may be open at a time.
#[test]
fn many_files() {
    let checks = Checks::new();
    let [same, changed] = ["same.keep", "changed.keep"].map(|name| checks.file(name));
    let mut words: Vec<&dyn Word> = vec![&"check"];
    words.extend([same as &dyn Word; 200]);
    words.push(changed);
    let new = checks.new.path();
    words.push(&new);
    let ran = run_by_shell("ulimit -n 20; exec \"$@\"", &words).expect(1);
    assert_eq!(ran.words().lines().count(), 202, "{ran:?}");
    words.push(&"--json");
    let ran = run_by_shell("ulimit -n 20; exec \"$@\"", &words).expect(1);
    assert_eq!(ran.json()["files"].list().len(), 201);
}

/// The card somewhere in an image, when it is kept and when it is checked.
#[test]
fn in_a_part() {
    let checks = Checks::new();
    let before = 3 * BLOCK_SIZE + 512;
    let bytes = [&vec![0xAA; before], checks.new.image.bytes(), &[0xAA; 100]].concat();
    let image = beside(&checks.new, "part.img", &bytes);
    let offset = before.to_string();
    let offset = offset.as_str();
    for (file, status) in &checks.files {
        let alone = checks.run(&[], &[file]);
        let ran = run(&[&"check", &"--offset", &offset, file, &image]).expect(*status);
        assert_eq!(ran.words(), alone.words());
        run(&[&"check", file, &image]).expect(2);
    }
    let file = checks.new.scratch.path("part.keep");
    run(&[
        &"keep",
        &"-o",
        &file,
        &"--offset",
        &offset,
        &image,
        &ROAD,
        &"1",
    ])
    .expect(0);
    let other = kept_beside(&checks.new, "whole.keep", ROAD, 1);
    assert!(fs::read(&file).unwrap() == fs::read(other).unwrap());
    checks.run(&[], &[&file]).expect(0);
}

type Change = fn(&File);

/// A keep file that is written or cut while it is read is no answer. It is mapped behind the card.
#[test]
fn while_read() {
    let (checks, holder) = (Checks::new(), Holder::shared());
    let file = checks.file("same.keep").clone();
    let bytes = fs::read(&file).unwrap();
    let new = checks.new.path();
    let lines: [(Words, u32); 4] = [
        (&[&"check", &file, &new], 1),
        (&[&"check", &"--json", &file, &new], 1),
        (&[&"show", &file], 0),
        (&[&"show", &"--json", &file], 0),
    ];
    let changes: [(Change, &str); 3] = [
        (|_| (), ""),
        (
            |file| file.write_all_at(b"new", 9000).unwrap(),
            "was changed while it was read\n",
        ),
        (
            |file| file.set_len(0).unwrap(),
            "can't be read any more: it was cut short, or its medium fails\n",
        ),
    ];
    for ((line, image), (change, message)) in lines
        .iter()
        .flat_map(|line| changes.iter().map(move |change| (line, change)))
    {
        fs::write(&file, &bytes).unwrap();
        let open = File::options().write(true).open(&file).unwrap();
        open.set_modified(SystemTime::UNIX_EPOCH).unwrap();
        thread::sleep(Duration::from_millis(20));
        let hold = Hold {
            image: *image,
            block: 0,
        };
        let ran = holder.run(line, hold, || change(&open));
        match *message {
            "" => assert!(!ran.expect(0).out.is_empty()),
            _ => {
                let message = format!("harptimber: {}: {message}", file.display());
                assert_eq!(ran.expect_message(2, &[]).err, message);
            }
        }
    }
}

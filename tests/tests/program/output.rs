//! Where `harptimber` writes a file's bytes, and what it leaves alone.

use std::fs::{self, File};
use std::os::unix::fs::symlink;
use std::path::{Path, PathBuf};
use std::process::{Command, Stdio};

use harptimber_tests::cards::on_disk::OnDisk;
use harptimber_tests::program::card::{shared_card, ProgramCard, ROAD};
use harptimber_tests::program::json::Json;
use harptimber_tests::program::keeps::{kept, kept_beside};
use harptimber_tests::program::{ran, run, run_by_shell, run_to, Words};
use harptimber_tests::tools::published::Scratch;

/// Bytes up to the byte count, whatever the file had before.
#[test]
fn pulled_bytes() {
    let card = shared_card();
    let road = card.file(ROAD);
    let output = card.disk.scratch.path("pulled_bytes");
    let option = format!("--output={}", output.display());
    for index in 0..road.block_count() {
        let lines: [Words; 3] = [
            &[&"pull", &"-o", &output, &card.disk.path(), &ROAD, &index],
            &[&"pull", &card.disk.path(), &ROAD, &index, &"-o", &output],
            &[&"pull", &card.disk.path(), &ROAD, &option.as_str(), &index],
        ];
        for line in lines {
            fs::write(&output, [0xAA; 5000]).unwrap();
            run(line).expect(0);
            let bytes = fs::read(&output).unwrap();
            assert_eq!(bytes, road.block(&card.card.image, index));
        }
    }
}

/// Standard output by its usual name has the bytes alone; what else there is to say goes beside them.
#[test]
fn to_standard_output() {
    let card = shared_card();
    let (image, path) = (&card.card.image, card.disk.path());
    let road = card.file(ROAD);
    let last = run(&[&"pull", &"-o", &"-", &path, &ROAD, &"5"]).expect(0);
    assert!(last.out == road.block(image, 5), "bytes of {last:?}");
    assert!(last.err.contains("(answer 0), 100 bytes"), "{last:?}");
    let whole = run(&[&"cat", &"--output=-", &path, &ROAD]).expect(0);
    assert!(whole.out == road.bytes(image), "bytes of {whole:?}");
    assert_eq!(whole.err, "");
    let whole = run(&[&"cat", &"--json", &"-o", &"-", &path, &ROAD]).expect(0);
    assert!(whole.out == road.bytes(image), "bytes of {whole:?}");
    let json = Json::parse(&whole.err).expect("an object");
    assert_eq!(json["bytes"].number(), road.size);
    assert_eq!(json["output"].text(), "-");
}

/// Standard output by a path has the bytes alone too: through a pipe, in a file, and in one that `-o` names itself or by a link.
#[test]
fn to_standard_output_by_path() {
    let card = shared_card();
    let (scratch, path) = (Scratch::new(), card.disk.path());
    let [output, linked] = ["output", "linked"].map(|name| scratch.path(name));
    File::create(&output).unwrap();
    fs::hard_link(&output, &linked).unwrap();
    let block = card.file(ROAD).block(&card.card.image, 5);
    let file = kept(&card.disk.image, ROAD, 5).unwrap();
    for (command, bytes) in [("pull", block), ("keep", file)] {
        let stdout = PathBuf::from("/dev/stdout");
        let words: Words = &[&command, &"-o", &stdout, &path, &ROAD, &"5"];
        let piped = run(words).expect(0);
        assert!(piped.out == bytes, "bytes of {piped:?}");
        assert!(piped.err.contains("(answer 0), 100 bytes"), "{piped:?}");
        let json = run(&[words, &[&"--json"]].concat()).expect(0);
        assert!(json.out == bytes, "bytes of {json:?}");
        assert_eq!(Json::parse(&json.err).unwrap()["answer"].number(), 0);
        for to in [&stdout, &output, &linked] {
            for mode in [">", ">>"] {
                let line = format!("exec \"$@\" {mode} '{}'", output.display());
                let words: Words = &[&command, &"-o", to, &path, &ROAD, &"5"];
                let ran = run_by_shell(&line, words).expect(0);
                assert!(fs::read(&output).unwrap() == bytes, "bytes of {ran:?}");
                assert_eq!(ran.err, piped.err);
            }
        }
    }
}

/// Words go to a standard output that the bytes don't go to, also where the output replaces another file.
#[test]
fn words_beside_another_file() {
    let card = shared_card();
    let scratch = Scratch::new();
    let [output, words] = ["output", "words"].map(|name| scratch.path(name));
    for name in [&output, &words] {
        fs::write(name, "").unwrap();
    }
    let image = card.disk.path();
    let ran = run_to(&words, &[&"pull", &"-o", &output, &image, &ROAD, &"5"]).expect(0);
    assert_eq!(ran.err, "");
    let said = fs::read_to_string(&words).unwrap();
    assert!(said.contains("(answer 0), 100 bytes"), "{said}");
}

/// A refused pull touches no file and makes none.
#[test]
fn refused_pulls() {
    let card = shared_card();
    let output = card.disk.scratch.path("refused_pulls");
    let refused = card
        .refused
        .iter()
        .map(|(name, index, _)| (name.clone(), *index));
    for (name, index) in refused.chain([(ROAD.to_vec(), 6)]) {
        let lines: [Words; 2] = [
            &[&"pull", &"-o", &output, &card.disk.path(), &name, &index],
            &[
                &"pull",
                &"--json",
                &"-o",
                &output,
                &card.disk.path(),
                &name,
                &index,
            ],
        ];
        for line in lines {
            run(line).expect(2);
            assert!(!output.exists(), "made by a refused pull");
            fs::write(&output, "kept").unwrap();
            run(line).expect(2);
            assert_eq!(fs::read(&output).unwrap(), b"kept");
            fs::remove_file(&output).unwrap();
        }
    }
}

/// The image under its own path and under others.
fn image_paths(card: &ProgramCard) -> Vec<PathBuf> {
    let (folder, image) = (card.disk.scratch.folder(), card.disk.path());
    let [linked, pointed] = ["linked.img", "pointed.img"].map(|name| folder.join(name));
    fs::hard_link(&image, &linked).unwrap();
    symlink("card.img", &pointed).unwrap();
    vec![
        image.clone(),
        folder.join(".").join("card.img"),
        linked,
        pointed,
    ]
}

/// The image isn't written to, however it is named.
#[test]
fn onto_the_image() {
    let card = ProgramCard::build();
    let image = card.disk.path();
    for output in image_paths(&card) {
        let lines: [Words; 5] = [
            &[&"keep", &"-o", &output, &image, &ROAD],
            &[&"pull", &"-o", &output, &image, &ROAD, &"0"],
            &[&"pull", &"--json", &"-o", &output, &image, &ROAD, &"2"],
            &[&"cat", &"-o", &output, &image, &ROAD],
            &[&"cat", &"--json", &"-o", &image, &output, &ROAD],
        ];
        for line in lines {
            run(line).expect_message(2, &[".img: is the card image itself\n"]);
            expect_untouched(&card);
        }
    }
    run_to(&image, &[&"cat", &image, &ROAD]).expect_message(2, &["card image itself"]);
    expect_untouched(&card);
}

fn expect_untouched(card: &ProgramCard) {
    let bytes = fs::read(card.disk.path()).unwrap();
    assert!(bytes == card.card.image.bytes(), "image written to");
}

/// With no standard files at all, nothing but the bytes gets into the files that are opened then.
#[test]
fn closed_standard_files() {
    let card = shared_card();
    let output = card.disk.scratch.path("closed_standard_files");
    let words: Words = &[&"pull", &"-o", &output, &card.disk.path(), &ROAD, &"5"];
    for (closed, status) in [("<&-", 0), (">&-", 2), ("2>&-", 0), ("<&- >&- 2>&-", 2)] {
        run_by_shell(&format!("exec \"$@\" {closed}"), words).expect(status);
        let bytes = card.file(ROAD).block(&card.card.image, 5);
        assert_eq!(fs::read(&output).unwrap(), bytes, "with {closed}");
        expect_untouched(&card);
    }
}

/// A message that names the output, with the reason.
fn expect_refused(image: &PathBuf, output: &PathBuf, why: &str) {
    let lines: [Words; 4] = [
        &[&"keep", &"-o", output, image, &ROAD],
        &[&"pull", &"-o", output, image, &ROAD, &"0"],
        &[&"cat", &"-o", output, image, &ROAD],
        &[&"cat", &"--json", &"-o", output, image, &ROAD],
    ];
    for line in lines {
        let message = format!("harptimber: {}: {why}\n", output.display());
        assert_eq!(run(line).expect_message(2, &[]).err, message);
    }
}

#[test]
fn unwritable() {
    let card = shared_card();
    let folder = card.disk.scratch.folder().to_path_buf();
    let below = folder.join("missing").join("output");
    let full = PathBuf::from("/dev/full");
    let image = card.disk.path();
    expect_refused(&image, &full, "No space left on device");
    expect_refused(&image, &folder, "Is a directory");
    expect_refused(&image, &below, "No such file or directory");
}

/// Beside the bytes on standard output, an answer that gets lost is a failure too.
#[test]
fn full_standard_error() {
    let card = shared_card();
    let path = card.disk.path();
    let road = card.file(ROAD);
    let [block, whole] = [
        road.block(&card.card.image, 0),
        road.bytes(&card.card.image),
    ];
    let lines: [(Words, &[u8], i32); 4] = [
        (&[&"pull", &"-o", &"-", &path, &ROAD, &"0"], &block, 2),
        (
            &[&"pull", &"-o", &"-", &"--json", &path, &ROAD, &"0"],
            &block,
            2,
        ),
        (&[&"cat", &"--json", &"-o", &"-", &path, &ROAD], &whole, 2),
        // Nothing to say.
        (&[&"cat", &"-o", &"-", &path, &ROAD], &whole, 0),
    ];
    for (line, bytes, status) in lines {
        for (lost, status) in [("/dev/full", status), ("&-", status), ("/dev/null", 0)] {
            let ran = run_by_shell(&format!("exec \"$@\" 2>{lost}"), line).expect(status);
            assert!(ran.out == bytes, "bytes of {ran:?}");
        }
    }
}

/// Output that gets lost is a failure, of every command.
#[test]
fn full_standard_output() {
    let card = shared_card();
    let other = OnDisk::new(card.disk.image.clone());
    let [path, new] = [card.disk.path(), other.path()];
    let file = kept_beside(&other, "road.keep", ROAD, 0);
    let output = other.scratch.path("output");
    let lines: [Words; 17] = [
        &[&"keep", &"-o", &output, &path, &ROAD],
        &[&"show", &file],
        &[&"show", &"--json", &file],
        &[&"check", &file, &new],
        &[&"check", &"--json", &file, &new],
        &[&"pull", &path, &ROAD, &"0"],
        &[&"pull", &"--lists", &"--json", &path, &ROAD, &"0"],
        &[&"cat", &path, &ROAD],
        &[&"cat", &path, &"one byte"],
        &[&"compare", &path, &new, &ROAD],
        &[&"compare", &"--json", &path, &new, &ROAD],
        &[&"node", &path, &"3"],
        &[&"place", &"923", &"0"],
        &[&"hash", &"name"],
        &[&"hash", &"--json", &"name"],
        &[&"--help"],
        &[&"--version"],
    ];
    for line in lines {
        let ran = run_to(Path::new("/dev/full"), line).expect(2);
        assert!(!ran.err.is_empty(), "no message of {ran:?}");
    }
}

/// A file as a block device. It is detached as soon as nobody has it open, however the test ends.
pub(crate) struct Loop {
    pub(crate) path: PathBuf,
    _open: File,
}

impl Loop {
    /// None, with a word why, where nobody may attach one.
    pub(crate) fn attach(file: &Path) -> Option<Loop> {
        let losetup = |options: &str, path: &Path| {
            let mut shell = Command::new("sh");
            shell.args(["-c", &format!("losetup {options} \"$1\""), "sh"]);
            let ran = ran(shell.arg(path), Stdio::piped());
            match ran.status {
                0 => Ok(ran.words().trim().to_string()),
                _ => Err(ran.err),
            }
        };
        let path = losetup("-f --show", file).map(PathBuf::from);
        let open = |path: PathBuf| {
            let open = File::open(&path).map_err(|error| error.to_string());
            losetup("-d", &path)?;
            Ok(Loop { path, _open: open? })
        };
        let attached = path.and_then(open);
        let attached = attached.inspect_err(|why| println!("no loop device is tested: {why}"));
        attached.ok()
    }
}

/// A block device is read as a file is. It isn't written to, nor is the file that it has its bytes from.
#[test]
fn block_devices() {
    let card = ProgramCard::build();
    let image = card.disk.path();
    let Some(attached) = Loop::attach(&image) else {
        return;
    };
    let device = attached.path.clone();
    let read = run(&[&"cat", &device, &ROAD]).expect(0);
    assert!(read.out == card.file(ROAD).bytes(&card.card.image));
    let other = OnDisk::new(card.disk.image.clone());
    run(&[&"compare", &other.path(), &device, &ROAD]).expect(0);
    let again = Loop::attach(&image).expect("a second loop device");
    let same = [&image, &device, &again.path];
    for [kept, new] in same.iter().flat_map(|kept| same.map(|new| [*kept, new])) {
        let ran = run(&[&"compare", kept, new, &ROAD]);
        ran.expect_message(3, &["one and the same card"]);
    }
    let itself = "is the card image itself";
    let refused = [
        (&image, &device, "is a block device"),
        (&device, &image, itself),
        (&device, &device, itself),
    ];
    for (image, output, why) in refused {
        expect_refused(image, output, why);
        expect_untouched(&card);
    }
    for (image, output, why) in [(&device, &image, itself), (&image, &device, refused[0].2)] {
        run_to(output, &[&"cat", image, &ROAD]).expect_message(2, &[why]);
        expect_untouched(&card);
    }
    let other = card.disk.scratch.path("other");
    run(&[&"cat", &"-o", &other, &device, &ROAD]).expect(0);
    assert!(fs::read(&other).unwrap() == read.out, "another file");
}

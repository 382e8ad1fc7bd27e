//! A file that `harptimber` writes is there once it is whole, and before that what was there stays, however
//! the program ends.

use std::fs::{self, File, Permissions};
use std::io::Read;
use std::os::unix::fs::{symlink, MetadataExt, PermissionsExt};
use std::path::{Path, PathBuf};
use std::sync::Arc;

use harptimber_tests::program::card::{shared_card, ProgramCard, LONG, ROAD};
use harptimber_tests::program::held::{make_fifo, Files, Hold, Holder};
use harptimber_tests::program::{run, run_by_shell, run_to, run_without_privilege, Words};
use harptimber_tests::running::aside;
use harptimber_tests::tools::published::Scratch;

/// A folder for the output alone.
struct Place {
    card: Arc<ProgramCard>,
    scratch: Scratch,
}

impl Place {
    fn new() -> Place {
        Place {
            card: shared_card(),
            scratch: Scratch::new(),
        }
    }

    fn output(&self) -> PathBuf {
        self.scratch.path("output")
    }

    fn image(&self) -> PathBuf {
        self.card.disk.path()
    }

    /// The block of a file that is read last but some.
    fn hold(&self, name: &[u8], index: u32) -> Hold {
        let block = self.card.file(name).blocks[&index];
        Hold { image: 0, block }
    }

    fn road(&self) -> Vec<u8> {
        self.card.file(ROAD).bytes(&self.card.card.image)
    }

    /// Copies a file to the output.
    fn copy(&self, to: &Path) {
        run(&[&"cat", &"-o", &to.to_path_buf(), &self.image(), &ROAD]).expect(0);
    }

    fn expect_road(&self, at: &Path) {
        assert!(fs::read(at).unwrap() == self.road(), "{}", at.display());
    }

    /// Nothing but this output.
    fn expect_alone(&self, bytes: &[u8]) {
        assert_eq!(self.scratch.names(), ["output"]);
        assert!(fs::read(self.output()).unwrap() == bytes, "another output");
    }

    fn expect_nothing(&self) {
        assert_eq!(self.scratch.names(), [""; 0]);
    }
}

/// In the middle of a file, with many bytes of it written; where there was no file, and where there was one.
#[test]
fn ended_by_a_signal() {
    let place = Place::new();
    let (output, image, holder) = (place.output(), place.image(), Holder::shared());
    let line: Words = &[&"cat", &"-o", &output, &image, &LONG];
    let hold = place.hold(LONG, 925);
    for files in Files::each(place.scratch.folder()) {
        for signal in ["INT", "TERM", "HUP", "PIPE", "QUIT", "KILL"] {
            // A temporary name outlives a program that is killed.
            if signal != "KILL" || files == Files::AsHere {
                holder.end_by(line, hold, files, signal);
                place.expect_nothing();
                fs::write(&output, "kept").unwrap();
                holder.end_by(line, hold, files, signal);
                place.expect_alone(b"kept");
                fs::remove_file(&output).unwrap();
            }
        }
    }
}

/// What is there while a file is written, and afterwards: the old one, then the new one whole.
#[test]
fn meanwhile() {
    let place = Place::new();
    let (output, image, holder) = (place.output(), place.image(), Holder::shared());
    let whole = place.card.file(LONG).bytes(&place.card.card.image);
    let line: Words = &[&"cat", &"-o", &output, &image, &LONG];
    for files in Files::each(place.scratch.folder()) {
        let names = usize::from(files == Files::Named);
        for there in [0, 1] {
            let look = || {
                let found = place.scratch.names();
                let temporary = |name: &&_| format!("{name:?}").starts_with("\".harptimber-");
                assert_eq!(found.iter().filter(temporary).count(), names, "{found:?}");
                assert_eq!(found.len(), names + there, "{found:?}");
                assert_eq!(output.exists(), there == 1);
                if there == 1 {
                    assert_eq!(fs::read(&output).unwrap(), b"old");
                }
            };
            holder
                .run_with(files, line, place.hold(LONG, 925), look)
                .expect(0);
            place.expect_alone(&whole);
            fs::write(&output, "old").unwrap();
        }
        fs::remove_file(&output).unwrap();
    }
}

/// Bytes that can't be written any more, by an error or by a signal.
#[test]
fn no_more_room() {
    let place = Place::new();
    let (output, image) = (place.output(), place.image());
    let lines: [Words; 2] = [
        &[&"cat", &"-o", &output, &image, &LONG],
        &[&"pull", &"-o", &output, &image, &ROAD, &"0"],
    ];
    let by_error = "trap '' XFSZ; ulimit -f 1; exec \"$@\"";
    let by_signal = "ulimit -c 0; ulimit -f 1; \"$@\"; test $? -gt 128";
    for line in lines {
        run_by_shell(by_error, line).expect_message(2, &["output: File too large\n"]);
        place.expect_nothing();
        fs::write(&output, "kept").unwrap();
        run_by_shell(by_error, line).expect_message(2, &["output: File too large\n"]);
        run_by_shell(by_signal, line).expect(0);
        place.expect_alone(b"kept");
        fs::remove_file(&output).unwrap();
    }
}

fn mode(path: &Path) -> u32 {
    fs::metadata(path).unwrap().mode() & 0o7777
}

/// A file that is replaced keeps its mode, and a new one has what the user's mask leaves.
#[test]
fn modes() {
    let place = Place::new();
    let output = place.output();
    let words: Words = &[&"cat", &"-o", &output, &place.image(), &ROAD];
    for (mask, new) in [("022", 0o644), ("077", 0o600), ("0", 0o666)] {
        run_by_shell(&format!("umask {mask}; exec \"$@\""), words).expect(0);
        assert_eq!(mode(&output), new);
        for old in [0o640, 0o600, 0o755, 0o666] {
            fs::set_permissions(&output, Permissions::from_mode(old)).unwrap();
            run_by_shell(&format!("umask {mask}; exec \"$@\""), words).expect(0);
            assert_eq!(mode(&output), old);
        }
        place.expect_alone(&place.road());
        fs::remove_file(&output).unwrap();
    }
}

/// A file that may not be written isn't replaced either, nor is one in a folder where none can be made.
#[test]
fn not_allowed() {
    let place = Place::new();
    let output = place.output();
    let words: Words = &[&"cat", &"-o", &output, &place.image(), &ROAD];
    let allow =
        |path: &Path, mode| fs::set_permissions(path, Permissions::from_mode(mode)).unwrap();
    fs::write(&output, "kept").unwrap();
    let folder = place.scratch.folder();
    for (path, not, yes, why) in [
        (output.as_path(), 0o444, 0o644, "Permission denied"),
        (folder, 0o555, 0o755, "is in a folder that can't be written"),
    ] {
        allow(path, not);
        let message = format!("harptimber: {}: {why}\n", output.display());
        run_without_privilege(words).expect_message(2, &[&message]);
        allow(path, yes);
        place.expect_alone(b"kept");
    }
}

/// A link stays, and the file that it leads to is written, also where it leads to none yet.
#[test]
fn links() {
    let place = Place::new();
    let folder = place.scratch.path("folder");
    fs::create_dir(&folder).unwrap();
    let file = folder.join("file");
    let [first, second] = ["first", "second"].map(|name| place.scratch.path(name));
    symlink(Path::new("folder").join("second"), &first).unwrap();
    symlink("file", folder.join("second")).unwrap();
    symlink(&first, &second).unwrap();
    for link in [&first, &second] {
        place.copy(link);
        place.expect_road(&file);
        fs::write(&file, "old").unwrap();
        place.copy(link);
        place.expect_road(&file);
        fs::remove_file(&file).unwrap();
    }
    for path in [first, second, folder.join("second")] {
        assert!(fs::symlink_metadata(&path).unwrap().is_symlink());
    }
    let around = place.scratch.path("around");
    symlink("around", &around).unwrap();
    let ran = run(&[&"cat", &"-o", &around, &place.image(), &ROAD]);
    ran.expect_message(2, &["Too many levels of symbolic links\n"]);
}

/// Another name of the file that is replaced keeps the old bytes.
#[test]
fn other_names() {
    let place = Place::new();
    let other = place.scratch.path("other");
    fs::write(place.output(), "old").unwrap();
    fs::hard_link(place.output(), &other).unwrap();
    place.copy(&place.output());
    place.expect_road(&place.output());
    assert_eq!(fs::read(other).unwrap(), b"old");
}

/// A path without a folder, and the longest name that a file can have.
#[test]
fn names() {
    let place = Place::new();
    let folder = place.scratch.folder().to_path_buf();
    let longest = "n".repeat(255);
    let too_long = "n".repeat(256);
    for name in ["output", longest.as_str(), "./output"] {
        for _ in 0..2 {
            let words: Words = &[&"cat", &"-o", &name, &place.image(), &ROAD];
            run_by_shell(&format!("cd '{}'; exec \"$@\"", folder.display()), words).expect(0);
            place.expect_road(&folder.join(name));
        }
    }
    assert_eq!(place.scratch.names(), [longest.as_str(), "output"]);
    let missing = [
        ("", "No such file"),
        ("missing/", "No such file"),
        (&too_long, "name too long"),
    ];
    for (name, why) in missing {
        let ran = run(&[&"cat", &"-o", &name, &place.image(), &ROAD]);
        ran.expect_message(2, &[why]);
    }
}

/// What is no file is written as the bytes come, and isn't replaced.
#[test]
fn special_files() {
    let place = Place::new();
    run(&[&"cat", &"-o", &"/dev/null", &place.image(), &ROAD]).expect(0);
    let fifo = place.scratch.path("fifo");
    make_fifo(&fifo);
    let from = fifo.clone();
    let read = aside(move || {
        let mut bytes = Vec::new();
        File::open(from).unwrap().read_to_end(&mut bytes).unwrap();
        bytes
    });
    place.copy(&fifo);
    assert!(read.recv().unwrap() == place.road(), "through a FIFO");
    assert_eq!(place.scratch.names(), ["fifo"]);
}

/// Standard output by its path in the file system is written directly, file or not.
#[test]
fn standard_output_by_path() {
    let place = Place::new();
    let output = place.output();
    let words: Words = &[&"cat", &"-o", &"/dev/stdout", &place.image(), &ROAD];
    assert!(run(words).expect(0).out == place.road(), "through a pipe");
    fs::write(&output, vec![0xAA; 100_000]).unwrap();
    let before = fs::metadata(&output).unwrap().ino();
    run_to(&output, words).expect(0);
    place.expect_alone(&place.road());
    assert_eq!(fs::metadata(&output).unwrap().ino(), before);
}

//! Images that are changed while they are read: there is a message instead of an answer.

use std::fs::{self, File};
use std::os::unix::fs::FileExt;
use std::path::PathBuf;
use std::sync::Arc;
use std::thread;
use std::time::{Duration, SystemTime};

use harptimber_tests::program::card::{shared_card, ProgramCard, LONG, ROAD};
use harptimber_tests::program::held::{Files, Hold, Holder};
use harptimber_tests::program::keeps::kept;
use harptimber_tests::program::{Ran, Words};
use harptimber_tests::tools::published::Scratch;

/// The times that a file system notes may be so far apart.
const TICK: Duration = Duration::from_millis(20);

/// Two copies of the card, the library that holds the program, and a keep file in a folder of its own.
struct Images {
    card: Arc<ProgramCard>,
    holder: Arc<Holder>,
    scratch: Scratch,
    kept: Scratch,
}

impl Images {
    fn new() -> Images {
        let images = Images {
            card: shared_card(),
            holder: Holder::shared(),
            scratch: Scratch::new(),
            kept: Scratch::new(),
        };
        (0..2).for_each(|image| images.restore(image));
        let file = kept(&images.card.disk.image, ROAD, 5).unwrap();
        fs::write(images.kept.path("road.keep"), file).unwrap();
        images
    }

    fn path(&self, image: u32) -> PathBuf {
        self.scratch.path(["kept.img", "new.img"][image as usize])
    }

    fn restore(&self, image: u32) {
        fs::copy(self.card.disk.path(), self.path(image)).unwrap();
    }

    fn output(&self) -> PathBuf {
        self.scratch.path("output")
    }

    /// Does something to the image in which a run is held, long after the last change to it.
    fn run(&self, words: Words, hold: Hold, files: Files, change: impl FnOnce(&File)) -> Ran {
        let file = File::options().write(true).open(self.path(hold.image));
        let file = file.unwrap();
        file.set_modified(SystemTime::UNIX_EPOCH).unwrap();
        thread::sleep(TICK);
        self.holder.run_with(files, words, hold, || change(&file))
    }

    /// Each command that reads images, held at the last block that it reads.
    fn each(&self, expect: impl Fn(Words, Hold)) {
        let [kept, new] = [0, 1].map(|image| self.path(image));
        let output = self.output();
        let file = self.kept.path("road.keep");
        let [road, long] = [(ROAD, 5), (LONG, 925)].map(|(name, index)| {
            let block = self.card.file(name).blocks[&index];
            Hold { image: 0, block }
        });
        let ino = self.card.file(ROAD).ino;
        let (block, _) = self.card.card.entry_place(ino);
        let table = Hold { image: 0, block };
        let on_new = |hold| Hold { image: 1, ..hold };
        expect(&[&"pull", &kept, &ROAD, &"5"], road);
        expect(&[&"pull", &"--json", &kept, &ROAD, &"5"], road);
        expect(&[&"pull", &"-o", &"-", &kept, &ROAD, &"5"], road);
        expect(&[&"pull", &"-o", &output, &kept, &ROAD, &"5"], road);
        expect(&[&"pull", &"--blockwise", &kept, &ROAD, &"5"], road);
        let blockwise: Words = &[&"pull", &"--blockwise", &"-o", &output, &kept, &ROAD, &"5"];
        expect(blockwise, road);
        expect(&[&"keep", &"-o", &output, &kept, &ROAD, &"5"], road);
        expect(
            &[&"keep", &"--json", &"-o", &output, &kept, &ROAD, &"5"],
            road,
        );
        expect(&[&"check", &file, &kept], road);
        expect(&[&"check", &"--json", &file, &kept], road);
        expect(&[&"cat", &kept, &LONG], long);
        expect(&[&"cat", &"--json", &"-o", &output, &kept, &LONG], long);
        let block = self.card.card.image.first_block(1);
        let pack = Hold { image: 0, block };
        expect(&[&"info", &kept], pack);
        expect(&[&"info", &"--json", &kept], pack);
        let (block, _) = self.card.card.image.sit_place(0, 0);
        let sit = Hold { image: 0, block };
        expect(&[&"segments", &kept], sit);
        expect(&[&"segments", &"--json", &kept], sit);
        expect(&[&"node", &kept, &ino], table);
        expect(&[&"node", &"--json", &kept, &ino], table);
        for (whole, one) in [(long, road), (on_new(long), on_new(road))] {
            expect(&[&"compare", &kept, &new, &LONG], whole);
            expect(&[&"compare", &"--json", &kept, &new, &LONG], whole);
            expect(&[&"compare", &"--index=5", &kept, &new, &ROAD], one);
        }
    }

    /// A message that names the image, no file, and nothing on standard output but what cat has written by then.
    fn expect_message(&self, words: Words, hold: Hold, message: &str, change: impl Fn(&File)) {
        let message = format!("{}: {message}", self.path(hold.image).display());
        for files in [Files::AsHere, Files::Named] {
            let ran = self.run(words, hold, files, &change);
            if words[0].word() == "cat" {
                ran.expect_errors(2, &[&message]);
            } else {
                ran.expect_message(2, &[&message]);
            }
            assert_eq!(self.scratch.names(), ["kept.img", "new.img"], "{files:?}");
            self.restore(hold.image);
        }
    }

    fn expect_changed(&self, change: impl Fn(&File)) {
        let message = "was changed while it was read\n";
        self.each(|words, hold| self.expect_message(words, hold, message, &change));
    }
}

/// Bytes that nothing on a card depends on.
fn write(file: &File) {
    file.write_all_at(b"new", 0).unwrap();
}

/// To be held is no change.
#[test]
fn nothing() {
    let images = Images::new();
    images.each(|words, hold| {
        for files in [Files::AsHere, Files::Named] {
            let ran = images.run(words, hold, files, |_| ()).expect(0);
            assert!(!ran.err.contains("harptimber: "), "a message of {ran:?}");
        }
    });
}

#[test]
fn written() {
    Images::new().expect_changed(write);
}

/// With the date put back that the image had before.
#[test]
fn written_under_the_old_date() {
    Images::new().expect_changed(|file| {
        write(file);
        file.set_modified(SystemTime::UNIX_EPOCH).unwrap();
    });
}

#[test]
fn cut() {
    let images = Images::new();
    images.each(|words, hold| {
        let message = "can't be read any more: it was cut short, or its medium fails\n";
        images.expect_message(words, hold, message, |file| file.set_len(0).unwrap());
    });
}

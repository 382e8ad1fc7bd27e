//! The progress that `cat` and `compare` show on a terminal.

use std::fs;
use std::path::Path;
use std::sync::Arc;

use harptimber_tests::cards::layout::BLOCK_SIZE;
use harptimber_tests::cards::on_disk::{OnDisk, Shared};
use harptimber_tests::program::{run, run_on_terminal, screen, Ran, Words};
use harptimber_tests::tools::published::{contents, filled_on, File};
use harptimber_tests::trial::Random;

const LARGE: &str = "large";
const MEBIBYTES: usize = 9;

/// Small enough to be written at once, and larger.
const SMALL: [(&str, usize); 2] = [("70", 70 * BLOCK_SIZE), ("1000", 1000 * BLOCK_SIZE)];

struct Published {
    disk: OnDisk,
    files: Vec<File>,
}

impl Published {
    /// The card that the tests share.
    fn shared() -> Arc<Published> {
        static CARD: Shared<Published> = Shared::empty();
        CARD.get(|| {
            let mut random = Random::new(8);
            let large = (LARGE, (MEBIBYTES << 20) - 300_000);
            let file = |(name, size): (&str, usize)| (name.into(), contents(&mut random, size));
            let files: Vec<File> = SMALL.into_iter().chain([large]).map(file).collect();
            let disk = OnDisk::new(filled_on(100, 1_700_000_000, &files));
            Published { disk, files }
        })
    }

    /// The output has to be this file's bytes. It goes.
    fn expect_written(&self, output: &Path, name: &str) {
        let mut files = self.files.iter();
        let (_, bytes) = files.find(|(of, _)| of == name.as_bytes()).unwrap();
        assert!(&fs::read(output).unwrap() == bytes, "bytes of {name}");
        fs::remove_file(output).unwrap();
    }
}

/// How far the large file is said to have been done, in MiB, time after time: from the start to the end.
fn expect_rising(ran: &Ran) {
    let (start, end) = (format!("{LARGE}: "), format!(" of {MEBIBYTES} MiB"));
    let parts = ran.words().split('\r');
    let done = parts.filter_map(|part| part.strip_prefix(&start)?.strip_suffix(&end));
    let done: Vec<usize> = done.map(|done| done.parse().expect("a number")).collect();
    let rising = done.windows(2).all(|two| two[0] < two[1]);
    assert!(rising && done.len() > MEBIBYTES / 2, "{done:?} in {ran:?}");
    let last = done.last().unwrap();
    assert!((MEBIBYTES - 1..=MEBIBYTES).contains(last), "of {ran:?}");
}

/// If standard error is a terminal and the bytes don't go to one.
#[test]
fn cat() {
    let card = Published::shared();
    let (path, output) = (card.disk.path(), card.disk.scratch.path("cat"));
    for (name, _) in SMALL.into_iter().chain([(LARGE, 0)]) {
        let words: Words = &[&"cat", &path, &name];
        let to_file: Words = &[&"cat", &"-o", &output, &path, &name];
        for (words, redirected) in [(words, Some(output.as_path())), (to_file, None)] {
            let shown = run_on_terminal(words, redirected).expect(0);
            card.expect_written(&output, name);
            assert_eq!(screen(shown.words()), "", "left by {shown:?}");
            match name {
                LARGE => expect_rising(&shown),
                _ => assert_eq!(shown.words(), "", "a small file's progress"),
            }
        }
    }
    let both = run_on_terminal(&[&"cat", &path, &LARGE], None).expect(0);
    assert!(both.out == card.files[2].1, "progress among the bytes");
}

/// If standard error is a terminal; the words may go to it too.
#[test]
fn compare() {
    let card = Published::shared();
    let other = OnDisk::new(card.disk.image.clone());
    let (path, new) = (card.disk.path(), other.path());
    let output = card.disk.scratch.path("compare");
    for (name, _) in SMALL.into_iter().chain([(LARGE, 0)]) {
        let words: Words = &[&"compare", &path, &new, &name];
        let said = run(words).expect(0);
        assert_eq!(said.err, "", "progress without a terminal");
        let beside = run_on_terminal(words, Some(&output)).expect(0);
        assert_eq!(fs::read(&output).unwrap(), said.out, "of {beside:?}");
        assert_eq!(screen(beside.words()), "", "left by {beside:?}");
        let both = run_on_terminal(words, None).expect(0);
        assert_eq!(screen(both.words()), said.words(), "left by {both:?}");
        match name {
            LARGE => [beside, both].iter().for_each(expect_rising),
            _ => assert_eq!(beside.words(), "", "a small file's progress"),
        }
    }
    for option in ["--index=7", "-q"] {
        let words: Words = &[&"compare", &option, &path, &new, &LARGE];
        let ran = run_on_terminal(words, Some(&output)).expect(0);
        assert_eq!(ran.words(), "", "progress with {option}");
    }
}

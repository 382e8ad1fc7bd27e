//! The program under memcheck.

use std::ffi::OsStr;

use harptimber_tests::cards::card::ROOT;
use harptimber_tests::cards::layout::dentry::{IN_INODE, NAME_LEN};
use harptimber_tests::cards::layout::inode::{INLINE_AT, I_MODE};
use harptimber_tests::cards::layout::BLOCK_SIZE;
use harptimber_tests::node_lookup;
use harptimber_tests::program::program;
use harptimber_tests::tools::outside::CardFile;
use harptimber_tests::tools::published::{contents, filled_with, ran, LONGEST_INLINE};
use harptimber_tests::trial::Random;

use crate::memcheck;
use crate::tight_inline::TightInline;

/// Runs the program under memcheck, which has to end with this status.
fn expect_status(status: i32, words: &[&OsStr]) -> Vec<u8> {
    let ran = ran(memcheck().arg(program()).args(words));
    ran.expect(status).out
}

/// The program too, on a card by the published tools and on one with a damaged root.
#[test]
fn valgrind_on_program() {
    let random = &mut Random::new(3);
    let long = (b"long".to_vec(), contents(random, 880 * BLOCK_SIZE));
    let short = contents(random, 60_000);
    let inline = contents(random, LONGEST_INLINE);
    let files = [("short", &short), ("inline", &inline)];
    let [short_file, inline_file] =
        files.map(|(name, bytes)| (name.as_bytes().to_vec(), bytes.clone()));
    let kept = filled_with(100, "", &[long, short_file, inline_file]);
    let mut fresh = kept.clone();
    fresh.set(node_lookup(kept.bytes(), ROOT).address, I_MODE, 0);
    let [kept, copy, fresh] = [&kept, &kept, &fresh].map(CardFile::of);
    let [kept, copy, fresh] = [kept.path(), copy.path(), fresh.path()];
    let [kept, copy, fresh] = [kept.as_os_str(), copy.as_os_str(), fresh.as_os_str()];
    let word = OsStr::new;
    for (name, bytes) in files {
        let read = expect_status(0, &[word("cat"), kept, word(name)]);
        assert!(read == *bytes, "bytes of {name}");
        expect_status(2, &[word("cat"), fresh, word(name)]);
    }
    expect_status(0, &[word("ls"), kept]);
    expect_status(2, &[word("pull"), kept, word("inline"), word("1")]);
    expect_status(0, &[word("segments"), kept]);
    expect_status(0, &[word("segments"), word("--json"), fresh]);
    for (status, image) in [(0, kept), (2, fresh)] {
        let [lists, blockwise, name, index] = ["--lists", "--blockwise", "long", "873"].map(word);
        expect_status(status, &[word("pull"), lists, image, name, index]);
        expect_status(status, &[word("pull"), blockwise, image, name, index]);
    }
    for (status, new) in [(0, copy), (1, fresh)] {
        let [short, long, inline] = ["short", "long", "inline"].map(word);
        expect_status(status, &[word("compare"), kept, new, short, long, inline]);
        for (name, _) in files {
            expect_status(status, &[word("compare"), kept, new, word(name)]);
        }
    }
}

/// The program on an inline root directory, and an inline file, at the image's end; and where a card has other bytes in either.
#[test]
fn valgrind_on_inline_inodes() {
    let sound = TightInline::ending_with_file();
    let last = sound.areas.main_end - 1;
    let mut ended_by_root = TightInline::new();
    let root = ended_by_root.move_to_end(ROOT);
    let mut other_file = sound.clone();
    let at = INLINE_AT + 99;
    other_file.put("byte", last, at, &[!sound.block(last)[at]]);
    let mut other_entry = ended_by_root.card.image.clone();
    other_entry.set(root, IN_INODE.in_slot(NAME_LEN, 0), 0);
    let word = OsStr::new;
    for (kept, new) in [
        (&sound, &other_file),
        (&ended_by_root.card.image, &other_entry),
    ] {
        let [kept, new] = [kept, new].map(CardFile::of);
        let [kept, new] = [kept.path(), new.path()];
        let [kept, new] = [kept.as_os_str(), new.as_os_str()];
        expect_status(0, &[word("cat"), kept, word("road.bin")]);
        expect_status(0, &[word("ls"), kept]);
        expect_status(1, &[word("compare"), kept, new, word("road.bin")]);
        expect_status(1, &[word("compare"), new, kept, word("road.bin")]);
        expect_status(2, &[word("pull"), new, word("road.bin"), word("1")]);
    }
}

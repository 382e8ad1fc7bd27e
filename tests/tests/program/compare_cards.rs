//! What `harptimber compare` says of cards that people make and mix up: the expected words come from what was put on them.

use std::fs;
use std::os::unix::fs::symlink;
use std::path::{Path, PathBuf};
use std::thread::sleep;
use std::time::Duration;

use reference::lookup::node_lookup;

use harptimber_tests::cards::layout::BLOCK_SIZE;
use harptimber_tests::cards::on_disk::{OnDisk, Shared};
use harptimber_tests::program::card::pulled;
use harptimber_tests::program::compare_words::expect_parts;
use harptimber_tests::program::json::Json;
use harptimber_tests::program::page::expect_head;
use harptimber_tests::program::{run, Ran, Word, Words};
use harptimber_tests::tools::published::{contents, filled_on, filled_with, File, LONGEST_INLINE};
use harptimber_tests::trial::Random;

const DATE: u32 = 1_700_000_000;
const RESTS: &str = "rest on something that changed";

/// Six blocks, the last of them full.
const SIZE: usize = 6 * BLOCK_SIZE;

/// A kept card and a new one, with what is on them under each name.
struct Cards {
    kept: OnDisk,
    new: OnDisk,
    /// Byte 15104 of the table before and now, byte 18000 of what shrank, and byte 100 of what is inline now.
    table: [u8; 2],
    shrunk: u8,
    inline: u8,
}

/// All of this differs between the two, so that the root directory does too.
const NAMES: [&str; 8] = [
    "alike", "table", "grown", "shrunk", "gone", "inline", "unread", "new",
];
const TABLE_BYTE: usize = 15104;
const SHRUNK_SIZE: usize = 18000;
const INLINE_SIZE: usize = 100;

impl Cards {
    fn shared() -> std::sync::Arc<Cards> {
        static CARDS: Shared<Cards> = Shared::empty();
        CARDS.get(|| {
            let mut random = Random::new(21);
            let mut kept = file_list(&NAMES[..7], |_| contents(&mut random, SIZE));
            let mut new = kept.clone();
            let [before, table] = [&mut kept[1].1, &mut new[1].1];
            table[TABLE_BYTE] ^= 0xFF;
            let table = [before[TABLE_BYTE], table[TABLE_BYTE]];
            new[2].1.extend([7; 5000]);
            new[3].1.truncate(SHRUNK_SIZE);
            let shrunk = kept[3].1[SHRUNK_SIZE];
            new[5].1.truncate(INLINE_SIZE);
            let inline = kept[5].1[INLINE_SIZE];
            new[4] = (b"new".to_vec(), vec![5; 9000]);
            new[6] = (b"unread/below".to_vec(), vec![6; 9000]);
            let [kept, new] = [&kept, &new].map(|files| OnDisk::new(filled_on(64, DATE, files)));
            Cards {
                kept,
                new,
                table,
                shrunk,
                inline,
            }
        })
    }

    fn run(&self, words: Words, status: i32) -> Ran {
        let paths = [self.kept.path(), self.new.path()];
        let start: Words = &[&"compare", &paths[0], &paths[1]];
        let ran = run(&[start, words].concat()).expect(status);
        assert_eq!(ran.err, "");
        ran
    }

    /// The line on each name, in parts: a reason may stand behind an answer.
    fn lines(&self) -> [Vec<String>; 8] {
        let [before, now] = self.table;
        let line = |parts: &[&str]| parts.iter().map(|part| part.to_string()).collect();
        let table =
            format!("(0x{before:02x} before, 0x{now:02x} now); 5 have the same bytes but {RESTS}");
        let shrunk = format!(
            "(0x{:02x} before, the end of the file now); 4 have the same bytes but {RESTS}",
            self.shrunk
        );
        let inline = format!("(0x{:02x} before, the end of the file now)", self.inline);
        let all = format!("all 6 blocks have the same bytes but {RESTS}");
        [
            line(&["alike: ", &all]),
            line(&["table: 1 of 6 blocks differs, first at byte 15104 of the file ", &table]),
            line(&["grown: grown from 24,576 to 29,576 bytes: ", &all]),
            line(&["shrunk: shrunk from 24,576 to 18,000 bytes: 2 of 6 blocks differ, first at byte 18000 of the file ", &shrunk]),
            line(&["gone: gone: 24,576 bytes on the kept card; on the new card: no such name", "(answer 2)"]),
            line(&["inline: shrunk from 24,576 to 100 bytes: all 6 blocks differ, first at byte 100 of the file ", &inline]),
            line(&["unread: no longer readable: 24,576 bytes on the kept card; on the new card: ", "(answer 12): it is a directory"]),
            line(&["new: new: 9,000 bytes on the new card; on the kept card: no such name", "(answer 2)"]),
        ]
    }
}

fn file_list(names: &[&str], mut bytes: impl FnMut(&str) -> Vec<u8>) -> Vec<File> {
    let file = |&name: &&str| (name.as_bytes().to_vec(), bytes(name));
    names.iter().map(file).collect()
}

/// A line each, and no more, whatever else there would be to say.
fn expect_lines(ran: &Ran, lines: &[Vec<String>]) {
    let said: Vec<&str> = ran.words().lines().collect();
    assert_eq!(said.len(), lines.len(), "lines of {ran:?}");
    for (line, parts) in said.iter().zip(lines) {
        assert!(line.starts_with(&parts[0]), "no '{}' in '{line}'", parts[0]);
        expect_parts(line, parts);
    }
}

fn words_of<'a>(names: &'a [&'a str]) -> Vec<&'a dyn Word> {
    names.iter().map(|name| name as &dyn Word).collect()
}

/// The same folder, put on two cards some seconds apart: the bytes are the same, and what isn't are dates.
#[test]
fn same_folder_twice() {
    let mut random = Random::new(22);
    let files = file_list(&["road", "table"], |_| {
        contents(&mut random, 300 * BLOCK_SIZE)
    });
    let card = || OnDisk::new(filled_with(64, "", &files));
    let kept = card();
    sleep(Duration::from_secs(2));
    let new = card();
    for name in ["road", "table"] {
        let words: Words = &[&"compare", &kept.path(), &new.path(), &name];
        let ran = run(words).expect(1);
        let lines: Vec<&str> = ran.words().lines().collect();
        let start = format!("{name}: all 300 blocks have the same bytes but {RESTS}");
        assert_eq!(lines[0], start);
        assert_eq!(lines.len(), 2, "the reason isn't said once: {ran:?}");
        expect_parts(
            lines[1],
            &[
                "  blocks 0 to 299: ",
                "time",
                " changed in ",
                "inode (node ",
            ]
            .map(String::from),
        );
        let json = run(&[words, &[&"--json"]].concat()).expect(1).json();
        assert_eq!(json["verdict"].text(), "same bytes");
        assert_eq!(counts(&json), [0, 300, 0]);
    }
}

/// Same, same bytes, differing.
fn counts(json: &Json) -> [u64; 3] {
    ["same", "same_bytes", "differ"].map(|key| json[key].number())
}

/// The accident: one byte of the friction table, with the old date. Nothing else is said to have changed.
#[test]
fn friction_table() {
    let mut random = Random::new(23);
    let table = contents(&mut random, SIZE + 100);
    let mut ice = table.clone();
    ice[TABLE_BYTE] = !table[TABLE_BYTE];
    let card = |table: &[u8]| {
        OnDisk::new(filled_on(
            64,
            DATE,
            &[(b"friction.tbl".to_vec(), table.to_vec())],
        ))
    };
    let [kept, new] = [&table, &ice].map(|table| card(table));
    let words: Words = &[&"compare", &kept.path(), &new.path(), &"friction.tbl"];
    let [before, now] = [&table, &ice].map(|table| table[TABLE_BYTE]);
    let first =
        format!("first at byte {TABLE_BYTE} of the file (0x{before:02x} before, 0x{now:02x} now)");
    let whole = format!(
        "friction.tbl: 1 of 7 blocks differs, {first}; 6 are the same\n  block 3: other bytes\n"
    );
    assert_eq!(run(words).expect(1).words(), whole);
    let one = format!("friction.tbl, block 3: differs, {first}\n  block 3: other bytes\n");
    assert_eq!(
        run(&[words, &[&"--index=3"]].concat()).expect(1).words(),
        one
    );
    let other = run(&[words, &[&"--index", &"6"]].concat()).expect(0);
    assert_eq!(other.words(), "friction.tbl, block 6: is the same\n");
    let json = run(&[words, &[&"--json"]].concat()).expect(1).json();
    assert_eq!(
        (json["verdict"].text(), counts(&json)),
        ("differs", [6, 0, 1])
    );
}

/// A card with this table, this other one and an empty file.
fn with_tables(table: &[u8], other: &[u8]) -> OnDisk {
    let files = [
        ("friction.tbl", table),
        ("other.tbl", other),
        ("empty", &[]),
    ];
    let files = files.map(|(name, bytes)| (name.as_bytes().to_vec(), bytes.to_vec()));
    OnDisk::new(filled_on(64, DATE, &files))
}

/// The same with a table so small that it is in its inode, and with others that are not changed.
#[test]
fn small_friction_table() {
    let mut random = Random::new(26);
    let table = contents(&mut random, LONGEST_INLINE);
    let mut ice = table.clone();
    let at = 1291;
    ice[at] = !table[at];
    let other = contents(&mut random, 2000);
    let [kept, new] = [&table, &ice].map(|table| with_tables(table, &other));
    let paths = [kept.path(), new.path()];
    let of = |name: &'static str, status: i32| {
        let words: Words = &[&"compare", &paths[0], &paths[1], &name];
        let json = run(&[words, &[&"--json"]].concat()).expect(status).json();
        (run(words).expect(status), json)
    };
    let inode = pulled(&kept.image, b"friction.tbl", 0).nodes()[1];
    let block = node_lookup(kept.image.bytes(), inode).expect("an entry").1;
    let bytes = format!("(0x{:02x} before, 0x{:02x} now)", table[at], ice[at]);
    let lines = [
        format!("friction.tbl: the only block differs, first at byte {at} of the file {bytes}\n"),
        "  block 0: other bytes\n".to_string(),
        format!("  block 0: inline contents changed in the file's inode (node {inode}, the card's block {block})\n"),
    ];
    let (ran, json) = of("friction.tbl", 1);
    assert_eq!(ran.words(), lines.concat());
    assert_eq!(
        (json["verdict"].text(), counts(&json)),
        ("differs", [0, 0, 1])
    );
    let (ran, json) = of("other.tbl", 0);
    assert_eq!(ran.words(), "other.tbl: the only block is the same\n");
    assert_eq!((json["verdict"].text(), counts(&json)), ("same", [1, 0, 0]));
    let (ran, _) = of("empty", 0);
    assert_eq!(ran.words(), "empty: an empty file on both cards\n");
}

/// Of many blocks here and there the first are named.
#[test]
fn every_second_block() {
    let mut random = Random::new(25);
    let kept = file_list(&["table"], |_| contents(&mut random, 25 * BLOCK_SIZE));
    let mut new = kept.clone();
    for index in (0..25).step_by(2) {
        new[0].1[index * BLOCK_SIZE + 17] ^= 0xFF;
    }
    let [before, now] = [&kept, &new].map(|files| files[0].1[17]);
    let [kept, new] = [&kept, &new].map(|files| OnDisk::new(filled_on(64, DATE, files)));
    let ran = run(&[&"compare", &kept.path(), &new.path(), &"table"]).expect(1);
    let first = format!("first at byte 17 of the file (0x{before:02x} before, 0x{now:02x} now)");
    let line = format!("table: 13 of 25 blocks differ, {first}; 12 are the same");
    let blocks = "  blocks 0, 2, 4, 6, 8, 10, 12, 14, 16, 18 and 3 more: other bytes";
    assert_eq!(ran.words(), format!("{line}\n{blocks}\n"));
}

/// Grown, shrunk, gone, new and no longer readable, each by itself: the line, then details.
#[test]
fn each_alone() {
    let cards = Cards::shared();
    for (name, parts) in NAMES.iter().zip(cards.lines()) {
        let ran = cards.run(&[name], 1);
        let (first, rest) = ran.words().split_once('\n').expect("a line");
        expect_parts(first, &parts);
        assert!(!rest.is_empty(), "no details of {name}");
        assert!(rest.lines().all(|line| line.starts_with("  ")), "{ran:?}");
    }
}

/// Of each name: the verdict, how many blocks differ, and the size on the new card if it is another.
const VERDICTS: [(&str, u64, Option<usize>); 8] = [
    ("same bytes", 0, None),
    ("differs", 1, None),
    ("differs", 0, Some(SIZE + 5000)),
    ("differs", 2, Some(SHRUNK_SIZE)),
    ("gone", 6, None),
    ("differs", 6, Some(INLINE_SIZE)),
    // The directory's size.
    ("no longer readable", 6, Some(BLOCK_SIZE)),
    ("new", 0, Some(9000)),
];

#[test]
fn verdicts() {
    let cards = Cards::shared();
    for (name, (verdict, differ, new_size)) in NAMES.iter().zip(VERDICTS) {
        let json = cards.run(&[name, &"--json"], 1).json();
        expect_head(&json, "compare", 16);
        assert_eq!(json["verdict"].text(), verdict, "of {name}");
        let on_kept = if *name == "new" { 0 } else { 6 };
        assert_eq!(counts(&json), [0, on_kept - differ, differ], "of {name}");
        let sizes = [
            (*name != "new").then_some(SIZE),
            new_size.or((*name != "gone").then_some(SIZE)),
        ];
        let told =
            ["kept_size", "new_size"].map(|key| json.get(key).map(|size| size.number() as usize));
        assert_eq!(told, sizes, "of {name}");
    }
}

/// Whatever else differs: here the root directory does, and so what says that there is no such name.
#[test]
fn on_neither_card() {
    let cards = Cards::shared();
    for index in [&[][..], &[&"--index=0" as &dyn Word]] {
        let words: Words = &[&[&"misspelt" as _], index].concat();
        let ran = cards.run(words, 4);
        assert!(
            ran.words().contains(": on neither card: no such name"),
            "{ran:?}"
        );
        assert_eq!(ran.words().lines().count(), 1, "{ran:?}");
        let json = cards.run(&[words, &[&"--json"]].concat(), 4).json();
        expect_head(&json, "compare", 2);
        assert_eq!(json["verdict"].text(), "on neither card");
        assert_eq!(json["status"].number(), 4);
    }
}

/// A line each; with -v, which blocks and what changed too, as for each name alone.
#[test]
fn several_names() {
    let cards = Cards::shared();
    let names = words_of(&NAMES);
    expect_lines(&cards.run(&names, 1), &cards.lines());
    let alone: String = NAMES
        .map(|name| cards.run(&[&name], 1).words().to_string())
        .concat();
    for verbose in ["-v", "--verbose"] {
        let ran = cards.run(&[&[&verbose as _], &names[..]].concat(), 1);
        assert_eq!(ran.words(), alone);
    }
    let block = cards.run(&[&"table", &"alike", &"--index", &"3"], 1);
    let starts = [
        "table, block 3: differs, first at byte 15104",
        "alike, block 3: has the same bytes",
    ];
    expect_lines(&block, &starts.map(|start| vec![start.to_string()]));
}

/// Each name's own status; together it is the highest. The order of the names is nothing to it.
#[test]
fn status_of_several() {
    let mut random = Random::new(24);
    let kept = file_list(&["same", "table"], |_| contents(&mut random, SIZE));
    let mut new = kept.clone();
    new[1].1[0] ^= 1;
    let [kept, new] = [&kept, &new].map(|files| OnDisk::new(filled_on(64, DATE, files)));
    let of = [("same", 0), ("table", 1), ("a//b", 2), ("misspelt", 4)];
    for set in 1..16 {
        let mut some: Vec<(&str, i32)> = (0..4)
            .filter(|i| set >> i & 1 == 1)
            .map(|i| of[i])
            .collect();
        let status = some.iter().map(|(_, status)| *status).max().unwrap();
        for _ in 0..2 {
            some.reverse();
            let names: Vec<&str> = some.iter().map(|(name, _)| *name).collect();
            let paths = [kept.path(), new.path()];
            let start: Words = &[&"compare", &paths[0], &paths[1]];
            let words = [start, &words_of(&names)].concat();
            let ran = run(&words).expect(status);
            let own = ran.words().lines().filter(|line| !line.starts_with(' '));
            assert!(
                own.zip(&names).all(|(line, name)| line.starts_with(name)),
                "{ran:?}"
            );
            let quiet = run(&[&[&"-q" as _], &words[..]].concat()).expect(status);
            assert_eq!((quiet.words(), quiet.err.as_str()), ("", ""));
            let json = run(&[&[&"--json" as _], &words[..]].concat())
                .expect(status)
                .json();
            expect_files(&json, &some);
        }
    }
}

/// A single name's object has no list. Every object in one has what that would have, but for the cards.
fn expect_files(json: &Json, expected: &[(&str, i32)]) {
    let worst = expected.iter().map(|(_, status)| *status).max();
    let answer_of = |status: i32| [15, 16, 4, 0, 2][status as usize];
    expect_head(json, "compare", answer_of(worst.unwrap()));
    let objects = match expected {
        [_] => std::slice::from_ref(json),
        _ => json["files"].list(),
    };
    assert_eq!(json.get("files").is_some(), expected.len() > 1, "{json:?}");
    assert_eq!(objects.len(), expected.len(), "{json:?}");
    for (object, &(name, status)) in objects.iter().zip(expected) {
        assert_eq!(object["name"].text(), name);
        assert_eq!(object["status"].number(), status as u64);
        assert_eq!(
            object["answer"].number(),
            u64::from(answer_of(status) as u32)
        );
    }
}

/// Without words there is nothing to look at in detail, nor an object.
#[test]
fn quiet_alone() {
    let cards = Cards::shared();
    let paths = [cards.kept.path(), cards.new.path()];
    for other in ["--json", "-v"] {
        let words: Words = &[&"compare", &"-q", &other, &paths[0], &paths[1], &"table"];
        run(words).expect_message(3, &["-q"]);
    }
}

/// A script with a wrong variable must not hear "same".
#[test]
fn one_and_the_same_card() {
    let card = OnDisk::new(filled_on(
        64,
        DATE,
        &file_list(&["road"], |_| vec![1; SIZE]),
    ));
    let path = card.path();
    let named = |name: &str| card.scratch.path(name);
    symlink("card.img", named("symbolic")).unwrap();
    fs::hard_link(&path, named("hard")).unwrap();
    let roundabout = card.scratch.folder().join(".").join("card.img");
    let same: [PathBuf; 4] = [path.clone(), named("symbolic"), named("hard"), roundabout];
    for one in &same {
        for other in &same {
            for option in ["--index=0", "-q", "--json", "-v"] {
                let ran = run(&[&"compare", &option, one, other, &"road"]);
                let paths = [one, other].map(|path| path.to_str().unwrap());
                ran.expect_message(3, &["one and the same card", paths[0], paths[1]]);
            }
        }
    }
    let copy = named("copy");
    fs::copy(&path, &copy).unwrap();
    let ran = run(&[&"compare", &path, &copy as &dyn Word, &"road"]).expect(0);
    assert_eq!(ran.words(), "road: all 6 blocks are the same\n");
}

/// A card that can't be read is told of once, however many names there are.
#[test]
fn refused_card() {
    let cards = Cards::shared();
    let zeros = cards.kept.scratch.path("zeros");
    fs::write(&zeros, vec![0; 64 * BLOCK_SIZE]).unwrap();
    let refused = |kept: &Path, new: &Path, side: u64| {
        let words: Words = &[
            &"compare",
            &kept.to_path_buf(),
            &new.to_path_buf(),
            &"alike",
            &"table",
        ];
        let ran = run(words).expect(2);
        assert_eq!(ran.words().lines().count(), 1, "{ran:?}");
        expect_parts(
            ran.words(),
            &["zeros: ".to_string(), "(answer 5)".to_string()],
        );
        let json = run(&[words, &[&"--json"]].concat()).expect(2).json();
        expect_head(&json, "compare", 5);
        assert_eq!(json["files"].list().len(), 1, "{json:?}");
        assert_eq!(json["files"].list()[0]["side"].number(), side);
    };
    refused(&zeros, &cards.new.path(), 1);
    refused(&cards.kept.path(), &zeros, 2);
}

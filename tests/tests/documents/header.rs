//! What host/include/harptimber.h gives a C host beside the calls: sizes, words, a list's entries and its
//! version, as a program sees them.

use std::collections::BTreeSet;
use std::mem::offset_of;
use std::process::{Command, Stdio};

use harptimber_tests::calls::lent::Lens;
use harptimber_tests::cards::layout::checkpoint::CP_LARGE_NAT_BITMAP_FLAG;
use harptimber_tests::cards::layout::dentry::LONGEST_NAME;
use harptimber_tests::cards::layout::inode::{
    EXTRA_ATTR, INLINE_DATA, INLINE_DENTRY, INLINE_ROOM, INLINE_ROOM_WITH_XATTR, INLINE_XATTR,
};
use harptimber_tests::cards::layout::nat::MAP_BYTES_PER_SEGMENT;
use harptimber_tests::cards::layout::{journal, sit_journal, BLOCK_SIZE, SEGMENT_BLOCKS};
use harptimber_tests::program::levels::MOST_LEVEL;
use harptimber_tests::program::page::{meaning, with_commas};
use harptimber_tests::program::{host, ran};
use harptimber_tests::sizes::{
    blocks_most, keep_length, keep_most, nodes_most, run_blocks_most, run_nodes_most, BLOCKS_MOST,
    CARD_BLOCKS_MOST, NAMES_MOST, NODES_MOST, READER_BLOCKS_MOST, RUN_BLOCKS_MOST, RUN_MOST,
    RUN_NODES_MOST, SEGMENTS_MOST,
};
use harptimber_tests::tools::published::Scratch;
use harptimber_tests::Reader;

/// The oldest forms of the languages that the header is written for, by what builds them.
const C99: [&str; 2] = ["cc", "-std=c99"];
const CPP11: [&str; 2] = ["g++", "-std=c++11"];

const WARNINGS: [&str; 6] = [
    "-Wall",
    "-Wextra",
    "-Werror",
    "-Wpedantic",
    "-Wconversion",
    "-Wsign-conversion",
];

/// What a C program prints that has these statements.
fn printed(statements: &str) -> String {
    printed_by(C99, statements)
}

fn printed_by([compiler, language]: [&str; 2], statements: &str) -> String {
    let scratch = Scratch::new();
    let [source, program] = ["header.c", "header"].map(|name| scratch.path(name));
    let headers = "#include <stdio.h>\n#include \"harptimber.h\"\n";
    let text = format!("{headers}int main(void)\n{{\n{statements}\nreturn 0;\n}}\n");
    std::fs::write(&source, text).unwrap();
    let kind = if language == CPP11[1] { "c++" } else { "c" };
    let mut compiler = Command::new(compiler);
    compiler.args(["-x", kind, language]).args(WARNINGS);
    compiler.arg("-I").arg(host().join("include"));
    ran(compiler.arg("-o").arg(&program).arg(source), Stdio::piped()).expect(0);
    let ran = ran(&mut Command::new(program), Stdio::piped()).expect(0);
    ran.words().to_string()
}

#[test]
fn sizes() {
    let Lens {
        block,
        nodes,
        blocks,
    } = Lens::of(NAMES_MOST);
    let run = Lens::of_run(NAMES_MOST, RUN_MOST);
    for (name, size) in [
        ("BLOCK_BYTES", block),
        ("BLOCK_BYTES", BLOCK_SIZE),
        ("NODES_BYTES", nodes),
        ("BLOCKS_BYTES", blocks),
        ("NODES_MOST", NODES_MOST as usize),
        ("BLOCKS_MOST", BLOCKS_MOST as usize),
        ("RUN_MOST", RUN_MOST as usize),
        ("RUN_BYTES", run.block),
        ("RUN_NODES_MOST", RUN_NODES_MOST as usize),
        ("RUN_BLOCKS_MOST", RUN_BLOCKS_MOST as usize),
        ("RUN_NODES_BYTES", run.nodes),
        ("RUN_BLOCKS_BYTES", run.blocks),
        ("READER_BLOCKS_MOST", READER_BLOCKS_MOST as usize),
        ("SEGMENTS_MOST", SEGMENTS_MOST as usize),
        ("SEGMENTS_MOST", 8185),
        ("SEGMENTS_BYTES", 4 * SEGMENTS_MOST as usize),
        ("SEGMENT_BLOCKS", SEGMENT_BLOCKS as usize),
        ("CARD_BLOCKS_LEAST", 2),
        ("CARD_BLOCKS_MOST", CARD_BLOCKS_MOST as usize),
        ("NAME_BYTES_MOST", LONGEST_NAME),
        ("NAMES_MOST", NAMES_MOST as usize),
        ("PATH_BYTES_MOST", 2047),
        ("READER_BLOCKS_MOST", 3280),
        ("READER_BLOCKS_MOST_OF(2 - 1)", 424),
        ("KEEP_BYTES", keep_most(NAMES_MOST) as usize),
        ("KEEP_BYTES", 7_691_551),
    ] {
        let statement = format!("printf(\"%d\", HARPTIMBER_{name});");
        assert_eq!(printed(&statement), size.to_string(), "{name}");
    }
}

/// Rooms by a path's names, as constants and of a number that a program has. The names of their macros start with `kind`.
fn expect_rooms(kind: &str, lens: fn(u32) -> Lens, most: fn(u32) -> [u32; 2]) {
    let uses = format!(
        "enum {{ nodes = {kind}NODES_BYTES_OF(1), blocks = {kind}BLOCKS_BYTES_OF(1 + 1) }};
        printf(\"%d %d\\n\", nodes, blocks);
        for (int k = 0; k < HARPTIMBER_NAMES_MOST; k++)
            printf(\"%d %d %d %d\\n\", {kind}NODES_MOST_OF(k + 1), {kind}BLOCKS_MOST_OF(k + 1),
                   {kind}NODES_BYTES_OF(k + 1), {kind}BLOCKS_BYTES_OF(k + 1));"
    );
    let mut expected = format!("{} {}\n", lens(1).nodes, lens(2).blocks);
    for names in 1..=NAMES_MOST {
        let (Lens { nodes, blocks, .. }, most) = (lens(names), most(names));
        expected += &format!("{} {} {nodes} {blocks}\n", most[0], most[1]);
    }
    for language in [C99, CPP11] {
        assert_eq!(printed_by(language, &uses), expected, "by {language:?}");
    }
}

#[test]
fn rooms_by_names() {
    expect_rooms("HARPTIMBER_", Lens::of, |names| {
        [nodes_most(names), blocks_most(names)]
    });
}

/// However many blocks a run has.
#[test]
fn rooms_of_runs_by_names() {
    let lens = |names| Lens::of_run(names, 1);
    expect_rooms("HARPTIMBER_RUN_", lens, |names| {
        [run_nodes_most(names), run_blocks_most(names)]
    });
}

/// The bytes of keep files: by what is in one, and the most for a path by its names.
#[test]
fn keep_lengths() {
    let uses = "enum { one = HARPTIMBER_KEEP_BYTES_OF(1), least = HARPTIMBER_KEEP_LENGTH_OF(0, 1, 0) };
        size_t path_len = 2000 + 47;
        uint32_t nodes = 1404, blocks = 1869;
        printf(\"%d %d %lu\\n\", one, least, (unsigned long)HARPTIMBER_KEEP_LENGTH_OF(path_len, nodes, blocks - 1 + 1));
        for (int k = 0; k < HARPTIMBER_NAMES_MOST; k++)
            printf(\"%d\\n\", HARPTIMBER_KEEP_BYTES_OF(k + 1));";
    let longest = keep_length(2047, NODES_MOST, BLOCKS_MOST);
    let mut expected = format!("{} 4156 {longest}\n", keep_most(1));
    for names in 1..=NAMES_MOST {
        assert_eq!(keep_most(names), 958_356 * names + 24_703);
        expected += &format!("{}\n", keep_most(names));
    }
    for language in [C99, CPP11] {
        assert_eq!(printed_by(language, uses), expected, "by {language:?}");
    }
}

/// The bytes of the largest card, which an int can't have: a constant of 64 bits without a sign, in C and in C++. It can be
/// counted with like any other number, and initialises a number of its type, or a length, without a warning.
#[test]
fn card_bytes() {
    let uses = "static const uint64_t most = HARPTIMBER_CARD_BYTES_MOST;
        __typeof__(HARPTIMBER_CARD_BYTES_MOST) number = 3 * HARPTIMBER_CARD_BYTES_MOST / HARPTIMBER_CARD_BYTES_MOST;
        const uint64_t *const same_type = &number;
        size_t len = HARPTIMBER_CARD_BYTES_MOST;
        len -= HARPTIMBER_CARD_BYTES_MOST - HARPTIMBER_BLOCK_BYTES;
        switch (most) {
        case HARPTIMBER_CARD_BYTES_MOST:
            printf(\"%llu %lu %lu\", (unsigned long long)most, (unsigned long)*same_type, (unsigned long)len);
        }";
    for language in [C99, CPP11] {
        let told = printed_by(language, uses);
        assert_eq!(told, "17179869184 3 4096", "by {language:?}");
    }
}

/// A reader's state as this project's own binding has it, by which it is tested.
#[test]
fn reader_state() {
    let uses = "struct harptimber_reader r = {0, 0, {0}, {0}};
        printf(\"%d %d\\n\", (int)(sizeof r.numbers / sizeof r.numbers[0]), (int)sizeof r.bytes);
        printf(\"%d %d %d %d\\n\", (int)sizeof r, (int)offsetof(struct harptimber_reader, block),
               (int)offsetof(struct harptimber_reader, numbers), (int)offsetof(struct harptimber_reader, bytes));";
    let [block, numbers, bytes] = [
        offset_of!(Reader, block),
        offset_of!(Reader, numbers),
        offset_of!(Reader, bytes),
    ];
    let size = size_of::<Reader>();
    let expected = format!("33 23852\n{size} {block} {numbers} {bytes}\n");
    for language in [C99, CPP11] {
        assert_eq!(printed_by(language, uses), expected, "by {language:?}");
    }
}

/// The man page's words, so that a host speaks as the program does.
#[test]
fn words() {
    let words = printed(
        "for (uint32_t answer = 0; answer <= HARPTIMBER_BAD_KEEP_FILE; answer++)
            puts(harptimber_answer_words(answer));",
    );
    let words: Vec<&str> = words.lines().collect();
    let page = (0..=18).map(|answer| meaning("pull", answer));
    assert_eq!(words, page.collect::<Vec<_>>());
    for unknown in ["19", "UINT32_MAX"] {
        let statement = format!("puts(harptimber_answer_words({unknown}));");
        assert_eq!(printed(&statement), "unknown\n");
    }
}

/// The words of the comment above a number.
fn comment_on(number: &str) -> String {
    let header = std::fs::read_to_string(host().join("include/harptimber.h")).unwrap();
    let before = header.split(&format!("    HARPTIMBER_{number},")).next();
    let comment = before.unwrap_or_default().rsplit("/*").next();
    let words = comment.unwrap_or_default().replace('*', " ");
    words.split_whitespace().collect::<Vec<_>>().join(" ")
}

/// The comment above something has each part.
fn comment_says(on: &str, parts: &[String]) {
    let words = comment_on(on);
    for part in parts {
        assert!(words.contains(part), "no '{part}' in '{words}'");
    }
}

/// All that can be behind answer 8 stands above its number.
#[test]
fn unreadable() {
    let parts = [
        "error (8 hex)".to_string(),
        "needs check (10 hex, fsck to the tools)".to_string(),
        format!("large_nat_bitmap ({CP_LARGE_NAT_BITMAP_FLAG:x} hex)"),
        format!("{MAP_BYTES_PER_SEGMENT} bytes a segment"),
        "the NAT journal's block doesn't lie in the pack".to_string(),
        format!("more than {} entries", journal::MOST_ENTRIES),
        "two for one number".to_string(),
        format!("SIT journal counts more than {}", sit_journal::MOST_ENTRIES),
    ];
    comment_says("UNREADABLE = 8", &parts);
}

/// The same of answer 12.
#[test]
fn kinds_not_read() {
    let [room, beside] = [INLINE_ROOM, INLINE_ROOM_WITH_XATTR].map(with_commas);
    let other_mark = format!("{INLINE_DATA}, inline data, or the file's have {INLINE_DENTRY}");
    let parts = [
        "the root, or what a name before the last leads to, isn't a directory".to_string(),
        "isn't a regular file".to_string(),
        format!("the inode's inline flags have {EXTRA_ATTR:x} hex"),
        format!("a directory's inline flags have {other_mark}, inline dentry"),
        "alone or with its own".to_string(),
        format!("a directory's have {INLINE_DENTRY}, and its size is over {beside} bytes"),
        format!("the file's have {INLINE_DATA}, and its size is over {beside} bytes if they have"),
        format!("have {INLINE_XATTR} too, inline attributes, and over {room} if not"),
        "depth is over 63".to_string(),
        format!("directory level (i_dir_level) is over {MOST_LEVEL}"),
        "A file's own level isn't asked for".to_string(),
    ];
    comment_says("KIND_NOT_READ = 12", &parts);
}

#[test]
fn list_entries() {
    let entries = printed(
        "static const uint8_t list[] = {1, 0, 0, 0, 0x78, 0x56, 0x34, 0x12, 0xFF, 0xFE, 0xFD, 0xFC};
        for (uint32_t i = 0; i < 3; i++)
            printf(\"%lx \", (unsigned long)harptimber_list_entry(list, i));",
    );
    assert_eq!(entries, "1 12345678 fcfdfeff ");
}

/// One version: the header's numbers and its text, the program's and the installed package's.
#[test]
fn version() {
    let [text, numbers] = [
        "fputs(HARPTIMBER_VERSION, stdout);",
        "printf(\"%d.%d.%d\", HARPTIMBER_VERSION_MAJOR, HARPTIMBER_VERSION_MINOR, HARPTIMBER_VERSION_PATCH);",
    ]
    .map(printed);
    assert_eq!(text, numbers);
    let program = harptimber_tests::program::run(&[&"--version"]).expect(0);
    assert_eq!(program.words(), format!("harptimber {text}\n"));
    let scratch = Scratch::new();
    let mut install = Command::new("make");
    install.arg("-sC").arg(host()).arg("install");
    install.arg(format!("PREFIX={}", scratch.folder().display()));
    ran(&mut install, Stdio::piped()).expect(0);
    let mut package = Command::new("pkg-config");
    package.args(["--modversion", "harptimber"]);
    package.env("PKG_CONFIG_PATH", scratch.path("lib/pkgconfig"));
    let package = ran(&mut package, Stdio::piped()).expect(0);
    assert_eq!(package.words(), format!("{text}\n"));
}

/// The names behind `before` in a text, up to a parenthesis.
fn functions(text: &str, before: &str) -> BTreeSet<String> {
    let found = text.split(before).skip(1);
    let names = found.filter_map(|rest| rest.split_once('(').map(|(name, _)| name));
    let is_name = |name: &&str| name.chars().all(|c| c.is_ascii_lowercase() || c == '_');
    names.filter(is_name).map(str::to_string).collect()
}

/// Each function's head behind `before` in a text, from its name to its body: parameters, result and clauses, whatever their layout.
fn heads(text: &str, before: &str) -> BTreeSet<String> {
    let found = text.split(before).skip(1);
    let heads = found.map(|rest| rest.split_once("\n{\n").expect("a body").0);
    let words = heads.map(|head| head.split_whitespace().collect::<String>());
    words.map(|head| head.replace(",)", ")")).collect()
}

/// Each call that the header declares is exported, and made in `any_bytes` by a function that asks nothing. What is exported is that
/// call under the same name, with the same clauses, and asks nothing either.
#[test]
fn calls() {
    let read = |path: &str| std::fs::read_to_string(host().join("..").join(path)).unwrap();
    let header = read("host/include/harptimber.h");
    let declared: BTreeSet<String> = header
        .lines()
        .filter(|line| line.starts_with("struct harptimber_"))
        .flat_map(|line| functions(line, " harptimber_"))
        .collect();
    assert!(declared.contains("pull") && declared.contains("compare"));
    let exported = read("crates/harptimber_c/src/lib.rt");
    let export = "#[unsafe(no_mangle)]\npub extern \"C\" fn harptimber_";
    assert_eq!(functions(&exported, export), declared);
    let called = read("crates/any_bytes/src/lib.rt");
    for caller in [&exported, &called] {
        assert_eq!(functions(caller, "harptimber::harptimber_"), declared);
        assert!(!caller.contains("requires"));
    }
    let library = read("crates/harptimber/src/lib.rt");
    let call = "\npub fn harptimber_";
    assert_eq!(functions(&library, call), declared);
    assert_eq!(heads(&exported, export), heads(&library, call));
}

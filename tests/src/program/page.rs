//! What the program's man page says of its output.

use std::fs;

use crate::program::host;
use crate::program::json::Json;

/// The keys that each object has.
const HEAD: [&str; 5] = ["command", "answer", "meaning", "reason", "causes"];

/// What can be behind answer 8, by its names in JSON and in the order in which it is told.
pub const CAUSES: [&str; 8] = [
    "error_flag",
    "needs_check_flag",
    "large_nat_bitmap",
    "maps",
    "journal_place",
    "journal_count",
    "number_twice",
    "sit_journal_count",
];

/// What was asked for, and what it rests on.
const PULL_KEYS: [&str; 6] = ["name", "name_hex", "index", "byte_count", "nodes", "blocks"];

/// What else a keep file has.
const KEPT_KEYS: [&str; 6] = [
    "pull_answer",
    "pull_meaning",
    "pull_reason",
    "length",
    "main_start",
    "main_end",
];

/// What became of a file, or of a block.
const COMPARED_KEYS: [&str; 14] = [
    "name",
    "name_hex",
    "status",
    "verdict",
    "kept_size",
    "new_size",
    "same",
    "changed",
    "same_bytes",
    "differ",
    "runs",
    "end",
    "side",
    "files",
];

/// The keys that each command's JSON may have beside them.
const KEYS: [(&str, &[&[&str]]); 12] = [
    (
        "info",
        &[&[
            "image",
            "offset",
            "bytes",
            "label",
            "blocks",
            "features",
            "areas",
            "copies",
            "packs",
            "table",
            "partitions",
        ]],
    ),
    (
        "ls",
        &[&["image", "name", "name_hex", "complete", "problems", "names"]],
    ),
    ("pull", &[&["image"], &PULL_KEYS]),
    (
        "cat",
        &[&[
            "image", "name", "name_hex", "output", "bytes", "blocks", "holes", "index",
        ]],
    ),
    ("compare", &[&["kept", "new"], &COMPARED_KEYS]),
    ("keep", &[&["image", "output"], &PULL_KEYS, &KEPT_KEYS]),
    ("show", &[&["file"], &PULL_KEYS, &KEPT_KEYS]),
    ("check", &[&["new", "file"], &COMPARED_KEYS]),
    (
        "segments",
        &[&["image", "count", "valid_blocks", "segments", "empty", "off"]],
    ),
    ("node", &[&["image", "number", "inode", "address"]]),
    ("place", &[&["addresses", "index", "way"]]),
    ("hash", &[&["name", "name_hex", "hash", "hash_hex"]]),
];

/// Those of the objects inside, by the key under which they stand.
const INNER_KEYS: [(&str, &[&str]); 9] = [
    ("areas", &["area", "first", "segments"]),
    ("copies", &["passes", "in_use", "reason"]),
    (
        "packs",
        &[
            "passes",
            "in_use",
            "reason",
            "version",
            "version_hex",
            "flags",
            "clean",
        ],
    ),
    ("partitions", &["number", "first", "bytes", "marked"]),
    (
        "names",
        &[
            "name", "name_hex", "inode", "kind", "size", "answer", "meaning", "reason",
        ],
    ),
    (
        "runs",
        &[
            "first",
            "last",
            "answer",
            "meaning",
            "kind",
            "number",
            "difference",
            "new_answer",
            "new_reason",
            "same_bytes",
            "byte",
            "before",
            "now",
        ],
    ),
    (
        "end",
        &[
            "index",
            "kept",
            "kept_reason",
            "answer",
            "meaning",
            "kind",
            "number",
            "difference",
            "new_answer",
            "new_reason",
        ],
    ),
    (
        "off",
        &["segment", "valid_count", "ones", "journal", "block"],
    ),
    ("way", &["place", "slot"]),
];

fn keys_of(command: &str) -> Vec<&'static str> {
    let found = KEYS.iter().find(|(name, _)| *name == command);
    found.map_or(Vec::new(), |(_, keys)| keys.concat())
}

fn inner_keys_of(key: &str) -> &'static [&'static str] {
    let found = INNER_KEYS.iter().find(|(name, _)| *name == key);
    found.map_or(&[], |(_, keys)| keys)
}

pub fn man_page() -> String {
    fs::read_to_string(host().join("harptimber.1")).expect("host/harptimber.1")
}

/// A number's words in the page's table, without the highlighting.
fn words_of(answer: u32) -> String {
    let page = man_page();
    let table = page.split(".TS\n").nth(1).expect("a table of answers");
    let table = table.split(".TE\n").next().unwrap();
    // Words that are too long for a line stand between T{ and T}.
    let table = table.replace("T{\n", "").replace("\nT}", "");
    let words = table.lines().find_map(|line| {
        let (number, words) = line.split_once('\t')?;
        (number == answer.to_string()).then_some(words)
    });
    let words = words.unwrap_or_else(|| panic!("no answer {answer} on the page"));
    let marks = ["\\fB", "\\fI", "\\fP"];
    marks
        .iter()
        .fold(words.to_string(), |words, mark| words.replace(mark, ""))
}

/// What an answer of a command means. Words of their own for some commands stand in a bracket behind the
/// usual ones: "data (for .., .. and ..: found; for ..: can be read)".
pub fn meaning(command: &str, answer: u32) -> String {
    let words = words_of(answer);
    let Some((usual, others)) = words.split_once(" (for ") else {
        return words;
    };
    let others = others.strip_suffix(')').expect("a bracket's end");
    let own = others.split("; for ").find_map(|part| {
        let (commands, own) = part.split_once(": ").expect("words of their own");
        let mut commands = commands.split([',', ' ']);
        commands.any(|of| of == command).then_some(own)
    });
    own.unwrap_or(usual).to_string()
}

/// The same in words with a reason behind it, which tells what it is of all that it could be.
pub fn meaning_with_reason(command: &str, answer: u32) -> String {
    let meaning = meaning(command, answer);
    let short = meaning.split(": ").next().unwrap_or_default();
    if [4, 8].contains(&answer) {
        short.to_string()
    } else {
        meaning
    }
}

/// The names of causes that the page explains, in its order.
pub fn causes_on_page() -> Vec<String> {
    let page = man_page();
    let part = page.split("a list of these words:\n.RS\n").nth(1);
    let part = part.and_then(|part| part.split("\n.RE\n").next());
    let entries = part.expect("a list of causes").split(".TP\n.B ").skip(1);
    let names = entries.map(|entry| entry.lines().next().unwrap_or_default());
    names.map(str::to_string).collect()
}

/// A command's own words on JSON name each key, as often as it stands in another object, and nothing else.
pub fn expect_keys_on_page(command: &str) {
    let mut keys = keys_of(command);
    let inner: Vec<_> = keys.iter().map(|key| inner_keys_of(key)).collect();
    keys.extend(inner.concat());
    let paragraph = on_json(command);
    let words: Vec<&str> = paragraph.lines().flat_map(in_bold).collect();
    for key in words.iter().chain(&keys) {
        let [on_page, in_json] =
            [&words, &keys].map(|all| all.iter().filter(|word| *word == key).count());
        assert!(in_json > 0, "'{key}' isn't in the JSON of {command}");
        assert!(on_page >= in_json, "'{key}' of {command} is missing");
    }
}

/// A command's paragraph on JSON, as it is written.
fn on_json(command: &str) -> String {
    let page = man_page();
    let section = page.split("\n.SH JSON\n").nth(1).expect("a part on JSON");
    let section = section.split("\n.SH ").next().unwrap();
    let paragraph = section.split(&format!("\n.TP\n.B {command}\n")).nth(1);
    let paragraph = paragraph.unwrap_or_else(|| panic!("nothing on the JSON of {command}"));
    let end = ["\n.TP", "\n.PP"]
        .iter()
        .filter_map(|end| paragraph.find(end))
        .min();
    paragraph[..end.unwrap_or(paragraph.len())].to_string()
}

/// Of a line like `.BR image ", " name " and " runs :` what isn't between quotes.
fn in_bold(line: &str) -> Vec<&str> {
    let is_key = |letter: char| letter.is_ascii_lowercase() || letter == '_';
    let words = [".B ", ".BR "]
        .iter()
        .find_map(|bold| line.strip_prefix(bold));
    let parts = words.unwrap_or_default().split('"').step_by(2);
    let words = parts.flat_map(|part| part.split(move |letter| !is_key(letter)));
    words.filter(|word| !word.is_empty()).collect()
}

/// What every object has, and that it has nothing beside what the page names.
pub fn expect_head(json: &Json, command: &str, answer: u32) {
    assert_eq!(json["command"].text(), command);
    assert_eq!(json["answer"].number(), u64::from(answer), "in {json:?}");
    assert_eq!(json["meaning"].text(), meaning(command, answer));
    expect_keys(json, &[&HEAD[..], &keys_of(command)].concat());
    expect_causes(json, answer);
    for (key, known) in INNER_KEYS {
        match json.get(key) {
            Some(Json::List(objects)) => objects.iter().for_each(|json| expect_keys(json, known)),
            Some(object) => expect_keys(object, known),
            None => (),
        }
    }
}

/// Answer 8 has them wherever it has a reason, and nothing else has.
fn expect_causes(json: &Json, answer: u32) {
    // With several names, compare has reasons in the objects of its list.
    let has_reason = json.get("reason").is_some();
    let causes = json.get("causes").map_or(&[][..], Json::list);
    assert_eq!(!causes.is_empty(), answer == 8 && has_reason, "{json:?}");
    let places = causes.iter().map(|cause| {
        let place = CAUSES.iter().position(|known| *known == cause.text());
        place.unwrap_or_else(|| panic!("{cause:?} isn't on the page"))
    });
    assert!(places.is_sorted_by(|before, after| before < after));
}

fn expect_keys(json: &Json, known: &[&str]) {
    for key in json.keys() {
        assert!(known.contains(&key), "'{key}' isn't on the page: {json:?}");
    }
}

/// A name and its bytes.
pub fn expect_name(json: &Json, name: &[u8]) {
    assert_eq!(json["name"].text(), shown(name));
    let hex: String = name.iter().map(|byte| format!("{byte:02x}")).collect();
    assert_eq!(json["name_hex"].text(), hex);
}

/// A name or path as JSON shows it: each byte that isn't UTF-8 is U+FFFD.
pub fn shown(name: &[u8]) -> String {
    let each = |chunk: std::str::Utf8Chunk| {
        let wrong = "\u{FFFD}".repeat(chunk.invalid().len());
        [chunk.valid(), &wrong].concat()
    };
    name.utf8_chunks().map(each).collect()
}

/// So many things, as words have it: "1 block", "4,096 blocks".
pub fn counted(count: usize, thing: &str) -> String {
    let plural = if count == 1 { "" } else { "s" };
    format!("{} {thing}{plural}", with_commas(count))
}

pub fn with_commas(count: usize) -> String {
    let digits = count.to_string();
    let groups = digits.as_bytes().rchunks(3).rev();
    let groups = groups.map(|group| std::str::from_utf8(group).expect("digits"));
    groups.collect::<Vec<_>>().join(",")
}

/// Data, holes and what was found are read; everything else is refused.
pub fn status_of(answer: u32) -> i32 {
    if answer <= 1 {
        0
    } else {
        2
    }
}

/// A name as words show it.
pub fn in_words(name: &[u8]) -> String {
    let hex = |bytes: &[u8]| bytes.iter().map(|byte| format!("\\x{byte:02X}")).collect();
    let character = |letter: char| match letter {
        '\\' => "\\\\".to_string(),
        _ if letter.is_control() => hex(letter.to_string().as_bytes()),
        _ => letter.to_string(),
    };
    let chunk = |chunk: std::str::Utf8Chunk| {
        let valid: String = chunk.valid().chars().map(character).collect();
        let invalid: String = hex(chunk.invalid());
        valid + &invalid
    };
    name.utf8_chunks().map(chunk).collect()
}

//! Every way to call `harptimber` wrongly, its options' places, its help and its man page.

use std::process::{Command, Stdio};

use harptimber_tests::program::json::Json;
use harptimber_tests::program::page::{causes_on_page, expect_keys_on_page, meaning, CAUSES};
use harptimber_tests::program::{host, ran, run, Word, Words};

/// Each command with as many words as it needs, and an option that it needs. The files aren't there: usage comes first.
const COMMANDS: [(&str, &[&str]); 12] = [
    ("info", &["card.img"]),
    ("ls", &["card.img"]),
    ("pull", &["card.img", "road.bin", "0"]),
    ("cat", &["card.img", "road.bin"]),
    ("compare", &["kept.img", "new.img", "road.bin"]),
    ("keep", &["-o", "file", "card.img", "road.bin"]),
    ("show", &["road.keep"]),
    ("check", &["road.keep", "new.img"]),
    ("segments", &["card.img"]),
    ("node", &["card.img", "3"]),
    ("place", &["923", "0"]),
    ("hash", &["road.bin"]),
];

/// Those that read no card.
const NO_IMAGE: [&str; 3] = ["show", "place", "hash"];

fn expect_usage(line: &[&str]) {
    let words: Vec<&dyn Word> = line.iter().map(|word| word as &dyn Word).collect();
    run(&words).expect_message(3, &[]);
}

/// Tries a line with each of these words more: in front of it, behind it and inside.
fn expect_usage_with(line: &[&str], more: &[&str]) {
    for at in 0..=line.len() {
        let (before, behind) = line.split_at(at);
        expect_usage(&[before, more, behind].concat());
    }
}

fn line_of(command: &str) -> Vec<&'static str> {
    let (command, words) = COMMANDS.iter().find(|(of, _)| *of == command).unwrap();
    [&[*command], *words].concat()
}

#[test]
fn missing_words() {
    expect_usage(&[]);
    expect_usage(&["--"]);
    expect_usage(&["--json"]);
    for (command, words) in COMMANDS {
        for count in 0..words.len() {
            expect_usage(&[&[command], &words[..count]].concat());
        }
    }
}

#[test]
fn words_too_many() {
    for (command, words) in COMMANDS {
        // Of paths and keep files there may be any number; ls takes a path, and keep an index, without needing it.
        let most: &[&str] = match command {
            "compare" | "check" => continue,
            "ls" => &["card.img", "roads"],
            "keep" => &["-o", "file", "card.img", "road.bin", "0"],
            _ => words,
        };
        expect_usage(&[&[command], most, &["0"]].concat());
    }
    expect_usage(&["--help=now"]);
}

#[test]
fn unknown_commands_and_options() {
    for command in ["", "push", "PULL", "pul", "pulls", "help", "-"] {
        expect_usage(&[command, "card.img", "road.bin", "0"]);
    }
    for (command, _) in COMMANDS {
        for option in ["-x", "--wrong", "--jsonn", "-json", "--json=1", "--lists=1"] {
            expect_usage_with(&line_of(command), &[option]);
        }
    }
}

/// An option of another command.
#[test]
fn options_elsewhere() {
    let each = || COMMANDS.iter().map(|(command, _)| *command);
    let others = |takes: &'static [&str]| each().filter(move |of| !takes.contains(of));
    for command in others(&["pull", "show"]) {
        expect_usage_with(&line_of(command), &["--lists"]);
    }
    for command in others(&["pull"]) {
        expect_usage_with(&line_of(command), &["--blockwise"]);
    }
    for command in others(&["compare"]) {
        for option in ["-v", "--verbose", "--index=0"] {
            expect_usage_with(&line_of(command), &[option]);
        }
    }
    for command in others(&["compare", "check"]) {
        for option in ["-q", "--quiet"] {
            expect_usage_with(&line_of(command), &[option]);
        }
    }
    for command in NO_IMAGE {
        expect_usage_with(&line_of(command), &["--offset", "0"]);
        expect_usage_with(&line_of(command), &["--partition=1"]);
    }
    for command in others(&["pull", "cat", "keep", "show"]) {
        expect_usage_with(&line_of(command), &["-o", "file"]);
        expect_usage_with(&line_of(command), &["--output=file"]);
    }
}

#[test]
fn option_without_its_file() {
    for command in ["pull", "cat", "keep", "show"] {
        expect_usage(&[&line_of(command)[..], &["-o"]].concat());
    }
}

/// There is no other place for a keep file.
#[test]
fn keep_needs_a_file() {
    for options in [&[][..], &["--json"], &["--offset", "0"]] {
        let line = [&["keep", "card.img", "road.bin", "0"], options].concat();
        let words: Vec<&dyn Word> = line.iter().map(|word| word as &dyn Word).collect();
        run(&words).expect_message(3, &["harptimber: keep: needs -o FILE\n"]);
    }
}

/// What is quiet prints no object.
#[test]
fn quiet_with_json() {
    for command in ["compare", "check"] {
        expect_usage_with(&line_of(command), &["-q", "--json"]);
    }
}

/// The bytes and the object can't both go to standard output.
#[test]
fn cat_to_json_needs_a_file() {
    expect_usage_with(&line_of("cat"), &["--json"]);
}

const NO_NUMBERS: [&str; 20] = [
    "",
    " ",
    "x",
    "-1",
    "+1",
    "1x",
    "x1",
    " 1",
    "1 ",
    "1\n",
    "1.0",
    "1e3",
    "0x10",
    "1,000",
    "4294967296",
    "4294967297",
    "18446744073709551616",
    "18446744073709551617",
    "99999999999999999999999999",
    "\u{FF11}",
];

#[test]
fn no_numbers() {
    for wrong in NO_NUMBERS {
        for options in [&[][..], &["--json"], &["--"]] {
            let expect = |words: &[&str]| expect_usage(&[options, words].concat());
            expect(&["pull", "card.img", "road.bin", wrong]);
            expect(&["keep", "card.img", "road.bin", wrong, "-o", "file"]);
            expect(&["-o", "file", "keep", "card.img", "road.bin", wrong]);
            expect(&["node", "card.img", wrong]);
            expect(&["place", wrong, "0"]);
            expect(&["place", "923", wrong]);
        }
        for json in [&[][..], &["--json"]] {
            let index = [
                "compare", "--index", wrong, "kept.img", "new.img", "road.bin",
            ];
            expect_usage(&[json, &index].concat());
        }
    }
}

/// Where the card starts may have 63 bits, and a partition's number 32.
#[test]
fn no_numbers_of_parts() {
    let wide = ["4294967296", "4294967297"];
    let too_wide = "9223372036854775808";
    for (command, _) in COMMANDS.iter().filter(|(of, _)| !NO_IMAGE.contains(of)) {
        let offsets = NO_NUMBERS.iter().filter(|wrong| !wide.contains(wrong));
        for wrong in offsets.chain([&too_wide]) {
            expect_usage(&[&line_of(command)[..], &["--offset", wrong]].concat());
        }
        for wrong in NO_NUMBERS {
            expect_usage(&[&line_of(command)[..], &["--partition", wrong]].concat());
        }
        for option in ["--offset", "--partition"] {
            expect_usage(&[&line_of(command)[..], &[option]].concat());
        }
        let both = ["--offset", "0", "--partition", "1"];
        expect_usage_with(&line_of(command), &both);
    }
}

fn json(line: &[&str]) -> Json {
    let words: Vec<&dyn Word> = line.iter().map(|word| word as &dyn Word).collect();
    run(&words).expect(0).json()
}

/// The greatest number that is one.
#[test]
fn greatest_number() {
    let ran = run(&[&"place", &"--json", &"923", &"4294967295"]).expect(2);
    assert_eq!(ran.json()["index"].number(), u64::from(u32::MAX));
}

#[test]
fn options_before_and_behind() {
    let expected = json(&["place", "--json", "923", "1000"]);
    assert_eq!(expected["index"].number(), 1000);
    assert_eq!(json(&["--json", "place", "923", "1000"]), expected);
    assert_eq!(json(&["place", "923", "--json", "1000"]), expected);
    assert_eq!(json(&["place", "923", "1000", "--json"]), expected);
    assert_eq!(json(&["place", "--json", "--", "923", "1000"]), expected);
    assert_eq!(json(&["--json", "--", "place", "923", "1000"]), expected);
}

/// Behind `--` every word is one.
#[test]
fn end_of_options() {
    for name in ["--json", "-o", "--help", "--version", "--", "-", "--wrong"] {
        let object = json(&["hash", "--json", "--", name]);
        assert_eq!(object["name"].text(), name);
    }
    assert_eq!(json(&["hash", "--json", "-"])["name"].text(), "-");
}

#[test]
fn help() {
    for option in ["-h", "--help"] {
        let ran = run(&[&option]).expect(0);
        assert_eq!(ran.err, "");
        for (command, _) in COMMANDS {
            let is_word = |word: &str| word == command;
            let named = ran.words().split_whitespace().any(is_word);
            assert!(named, "no {command} in {ran:?}");
        }
        for option in [
            "--json",
            "--lists",
            "--index",
            "-q",
            "-v",
            "-o",
            "--offset",
            "--partition",
            "--blockwise",
            "--version",
        ] {
            assert!(ran.words().contains(option), "no {option} in {ran:?}");
        }
    }
}

/// The options of each command's own page, beside --help.
const PAGES: [(&str, &[&str]); 12] = [
    ("info", &["--offset", "--partition", "--json"]),
    ("ls", &["--offset", "--partition", "--json"]),
    (
        "pull",
        &[
            "-o",
            "--lists",
            "--offset",
            "--partition",
            "--blockwise",
            "--json",
        ],
    ),
    ("cat", &["-o", "--offset", "--partition", "--json"]),
    (
        "compare",
        &["--index", "-q", "-v", "--offset", "--partition", "--json"],
    ),
    ("keep", &["-o", "--offset", "--partition", "--json"]),
    ("show", &["-o", "--lists", "--json"]),
    ("check", &["-q", "--offset", "--partition", "--json"]),
    ("segments", &["--offset", "--partition", "--json"]),
    ("node", &["--offset", "--partition", "--json"]),
    ("place", &["--json"]),
    ("hash", &["--json"]),
];

/// With or without the command's words, and wherever `--help` stands.
#[test]
fn own_pages() {
    for (command, taken) in PAGES {
        let page = run(&[&command, &"--help"]).expect(0);
        assert_eq!(page.err, "");
        let usage = format!("Usage: harptimber {command} ");
        assert!(page.words().starts_with(&usage), "of {page:?}");
        assert!(page.words().contains("\nExit status:\n"), "of {page:?}");
        let all = ["-o", "--lists", "--index", "-q", "-v", "--offset"];
        for option in all
            .into_iter()
            .chain(["--partition", "--blockwise", "--json"])
        {
            let takes = taken.contains(&option);
            let needs = command == "keep" && option == "-o";
            let usage = page.words().lines().next().unwrap();
            let shown =
                [format!(" [{option}"), format!(" {option} ")].map(|word| usage.contains(&word));
            assert_eq!(shown, [takes && !needs, needs], "{page:?}");
            let described = |line: &str| line.split([' ', ',', '=']).any(|word| word == option);
            let described = page.words().lines().skip(1).any(described);
            assert!(described || !takes, "no {option} in {page:?}");
        }
        let lines: [Words; 3] = [
            &[&"-h", &command],
            &[&"--help", &command],
            &[&command, &"x", &"-h"],
        ];
        for line in lines {
            assert_eq!(run(line).expect(0).words(), page.words());
        }
    }
    expect_usage(&["push", "--help"]);
}

/// A name or a number that looks like an option: the message says what to do.
#[test]
fn dashes() {
    for wrong in ["-1", "-dash", "-home", "-hh", "--dash"] {
        let lines: [&[&str]; 3] = [
            &["pull", "card.img", "road.bin", wrong],
            &["pull", "card.img", wrong, "0"],
            &["hash", wrong],
        ];
        for line in lines {
            let words: Vec<&dyn Word> = line.iter().map(|word| word as &dyn Word).collect();
            let ran = run(&words).expect(3);
            let start = format!("harptimber: {wrong}: no such option; ");
            assert!(ran.err.starts_with(&start), "of {ran:?}");
            let message = ran.err.lines().next().unwrap();
            assert!(message.ends_with(" put --"), "of {ran:?}");
        }
    }
    assert_eq!(json(&["hash", "--json", "--", "-1"])["name"].text(), "-1");
}

#[test]
fn version() {
    let ran = run(&[&"--version"]).expect(0);
    assert_eq!(ran.err, "");
    let line = ran.words().strip_suffix('\n').expect("a line");
    let digits = |word: &str| word.starts_with(|first: char| first.is_ascii_digit());
    assert!(line.contains("harptimber") && line.split(' ').any(digits));
    assert!(!line.contains('\n'), "several lines in {ran:?}");
}

fn man(options: &[&str]) -> (String, String) {
    let mut command = Command::new("man");
    command.envs([
        ("LC_ALL", "C.UTF-8"),
        ("MANWIDTH", "100"),
        ("MANPAGER", "cat"),
    ]);
    command.args(options).arg("-l");
    let ran = ran(command.arg(host().join("harptimber.1")), Stdio::piped());
    let ran = ran.expect(0);
    (ran.words().to_string(), ran.err)
}

#[test]
fn man_page() {
    let (page, warnings) = man(&["--warnings"]);
    assert_eq!(warnings, "", "warnings on the page");
    for (command, _) in COMMANDS {
        assert!(page.contains(&format!("harptimber {command} ")));
    }
    let answers = page.split("\nANSWERS\n").nth(1).expect("the answers");
    let answers = answers.split("\nJSON\n").next().unwrap();
    let answers = answers.replace('\u{2019}', "'");
    for answer in 0..=18 {
        let line = format!(" {answer}   {}", meaning("pull", answer));
        assert!(answers.contains(&line), "no '{line}' in {answers}");
    }
}

#[test]
fn causes() {
    assert_eq!(causes_on_page(), CAUSES);
}

#[test]
fn keys_of_json() {
    for (command, _) in COMMANDS {
        expect_keys_on_page(command);
    }
}

//! What fsck.f2fs, which Debian has in f2fs-tools, says of a card's segments and directories. In its dry run it writes
//! nothing.

use std::process::Command;

use crate::cards::image::Image;
use crate::running::Ran;
use crate::tools::published::{ran, Scratch};

#[derive(Debug, PartialEq, Eq)]
pub struct Checked {
    /// The counts of all SIT entries in use, added up: `build_sit_area_bitmap`'s "Blocks [..]".
    pub counted: u32,
    /// The blocks that it came to from the root directory on: "valid_block_count matching with CP".
    pub reached: u32,
    /// The segments of its "Wrong SIT valid blocks": the count isn't that of the ones in the map.
    pub wrong: Vec<u32>,
    /// Whether it found nothing at all to complain of.
    pub sound: bool,
}

/// Checks an image, with so much told of it.
fn check(image: &Image, debug_level: &str) -> Ran {
    let scratch = Scratch::new();
    image.save(&scratch.image_path());
    let mut command = Command::new("fsck.f2fs");
    command.args(["-d", debug_level, "--dry-run"]);
    ran(command.arg(scratch.image_path()))
}

pub fn fsck(image: &Image) -> Checked {
    let ran = check(image, "1");
    let words = ran.words();
    let lines = |part: &'static str| words.lines().filter(move |line| line.contains(part));
    let only = |part| lines(part).next().unwrap_or_else(|| panic!("{ran:?}"));
    let wrong = lines("Wrong SIT valid blocks: segno=");
    Checked {
        counted: hex_after(only("build_sit_area_bitmap:"), "Blocks [0x"),
        reached: hex_after(only("valid_block_count matching with CP"), "] [0x"),
        wrong: wrong.map(|line| hex_after(line, "segno=0x")).collect(),
        sound: ran.status == 0 && !words.contains("[Fail]"),
    }
}

/// How many entries a root directory has that stand in its inode, without the dots, and how many slots are there:
/// "Inline Dentry Block Done : dentries:13 in 182 slots".
pub fn inline_entries(image: &Image) -> [u32; 2] {
    let ran = check(image, "1");
    let words = ran.words();
    let line = words
        .lines()
        .find_map(|line| line.split_once("Inline Dentry Block Done : dentries:"));
    let (_, counts) = line.unwrap_or_else(|| panic!("{ran:?}"));
    let mut numbers = counts.split(|c: char| !c.is_ascii_digit());
    [(); 2].map(|_| {
        let number = numbers.find_map(|digits| digits.parse().ok());
        number.unwrap_or_else(|| panic!("two numbers: {counts}"))
    })
}

/// An entry that isn't in a block of the bucket that its hash leads to: "Wrong position of dirent".
#[derive(Debug, PartialEq, Eq)]
pub struct Misplaced {
    pub name: Vec<u8>,
    /// The directory's level.
    pub dir_level: u32,
    /// The index at which it is, and the hash level that has it.
    pub index: u64,
    pub level: u32,
    /// The first and the last block of its bucket there.
    pub bucket: [u64; 2],
}

/// The misplaced entries of an image. Names must not have a comma.
pub fn misplaced(image: &Image) -> Vec<Misplaced> {
    let ran = check(image, "0");
    let words = ran.words();
    let lines = words
        .lines()
        .filter_map(|line| line.split_once("Wrong position of dirent "));
    lines.map(|(_, fields)| misplaced_by(fields)).collect()
}

/// By "pino:3, name:file, level:0, dir_level:5, pgofs:2, correct range:[50, 51]".
fn misplaced_by(fields: &str) -> Misplaced {
    let field = |name: &str| {
        let rest = fields.split(name).nth(1);
        rest.unwrap_or_else(|| panic!("{name} in {fields}"))
    };
    let number = |text: &str| -> u64 {
        let digits = text.split(|c: char| !c.is_ascii_digit()).next();
        let number = digits.and_then(|digits| digits.parse().ok());
        number.unwrap_or_else(|| panic!("a number: {text}"))
    };
    let (first, last) = field("range:[").split_once(", ").expect("a range");
    let (name, _) = field("name:").split_once(", level:").expect("a name");
    Misplaced {
        name: name.as_bytes().to_vec(),
        dir_level: number(field("dir_level:")) as u32,
        index: number(field("pgofs:")),
        level: number(field(", level:")) as u32,
        bucket: [first, last].map(number),
    }
}

/// The hexadecimal number behind these words.
fn hex_after(line: &str, words: &str) -> u32 {
    let rest = line.split(words).nth(1).unwrap_or_default();
    let digits = rest.split(|c: char| !c.is_ascii_hexdigit()).next();
    u32::from_str_radix(digits.unwrap_or_default(), 16).unwrap_or_else(|_| panic!("{line}"))
}

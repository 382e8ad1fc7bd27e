//! `harptimber ls`, against the files that the published tools were given and against cards made by hand, sound and
//! damaged.

use std::ffi::OsStr;
use std::fs;
use std::os::unix::ffi::OsStrExt;
use std::os::unix::fs::symlink;
use std::path::Path;
use std::process::Command;

use harptimber_tests::cards::card::{Card, Passage, ROOT};
use harptimber_tests::cards::directory::{bucket_index, in_slot, Dentry};
use harptimber_tests::cards::image::Image;
use harptimber_tests::cards::layout::dentry::NAME_LEN;
use harptimber_tests::cards::layout::inode::*;
use harptimber_tests::cards::layout::superblock::MAGIC;
use harptimber_tests::cards::layout::{footer, slots, Field};
use harptimber_tests::cards::on_disk::OnDisk;
use harptimber_tests::cards::one_file::{small_knobs, Scene, Setting, NAME};
use harptimber_tests::cards::random::pick;
use harptimber_tests::cards::tree;
use harptimber_tests::cards::walk_damage::strike_block;
use harptimber_tests::program::card::{pulled, shared_card, ProgramCard, ROAD};
use harptimber_tests::program::card::{MARKED, TOO_LONG, TOO_LONG_BESIDE_XATTR};
use harptimber_tests::program::json::Json;
use harptimber_tests::program::page::{counted, expect_head, expect_name, in_words, meaning};
use harptimber_tests::program::special_build::SpecialBuild;
use harptimber_tests::program::{run, Ran, Word};
use harptimber_tests::tools::published::{self, contents, LONGEST_INLINE};
use harptimber_tests::trial::Random;

/// What is to be said of a name.
#[derive(Debug)]
pub(crate) struct Expected {
    name: Vec<u8>,
    /// None if the inode can't be read.
    size: Option<u64>,
    answer: u32,
    reason: Option<String>,
}

impl Expected {
    pub(crate) fn new(name: &[u8], size: u64, answer: u32, reason: &str) -> Expected {
        Expected {
            name: name.to_vec(),
            size: Some(size),
            answer,
            reason: Some(reason.to_string()).filter(|reason| !reason.is_empty()),
        }
    }

    fn line(&self) -> String {
        let size = self.size.map_or("?".to_string(), |size| {
            let bytes = counted(size as usize, "byte");
            bytes.split(' ').next().unwrap().to_string()
        });
        let said = format!("{} (answer {})", meaning("pull", self.answer), self.answer);
        // Of all that can be out of shape, only what is.
        let said = said.replace(": the image's length, the path or name, A or a list", "");
        let reason = self.reason.iter().map(|reason| format!(": {reason}"));
        let reason: String = reason.collect();
        format!("{size:>14}  {}: {said}{reason}\n", in_words(&self.name))
    }

    fn expect(&self, json: &Json) {
        expect_name(json, &self.name);
        let size = json.get("size").map(|size| size.number());
        assert_eq!(size, self.size, "size in {json:?}");
        assert_eq!(json["answer"].number(), u64::from(self.answer), "{json:?}");
        assert_eq!(json["meaning"].text(), meaning("pull", self.answer));
        let reason = json.get("reason").map(|reason| reason.text().to_string());
        assert_eq!(reason, self.reason, "reason in {json:?}");
    }
}

/// A listing of the root directory with these names and nothing else, in words and as JSON. With problems it is incomplete.
pub(crate) fn expect_listing(path: &Path, expected: Vec<Expected>, problems: &[String]) {
    expect_listing_of(path, None, expected, problems)
}

/// The same of the directory that a path leads to, or without one of the root.
pub(crate) fn expect_listing_of(
    image: &Path,
    directory: Option<&[u8]>,
    mut expected: Vec<Expected>,
    problems: &[String],
) {
    let path = image.to_path_buf();
    expected.sort_by(|one, other| one.name.cmp(&other.name));
    let status = if problems.is_empty() { 0 } else { 2 };
    let of = directory.iter().map(|path| path as &dyn Word);
    let line: Vec<&dyn Word> = [&"ls" as &dyn Word, &path].into_iter().chain(of).collect();
    let ran = run(&line).expect(status);
    assert_eq!(ran.err, "", "of {ran:?}");
    let head = head_of(directory, expected.len(), problems.is_empty());
    let mut words = format!("{}: {head}\n", path.display());
    words.extend(expected.iter().map(Expected::line));
    words.extend(
        problems
            .iter()
            .map(|problem| format!("names may be missing: {problem}\n")),
    );
    assert_eq!(ran.words(), words);
    let json = [&line[..], &[&"--json" as &dyn Word]].concat();
    let json = listed(&run(&json).expect(status), &path);
    match directory {
        Some(directory) => expect_name(&json, directory),
        None => assert!(json.get("name").is_none(), "{json:?}"),
    }
    expect_rows(&json, &expected);
    let said: Vec<&str> = json["problems"].list().iter().map(Json::text).collect();
    assert_eq!(said, problems, "in {json:?}");
}

/// The first line, behind the image.
fn head_of(directory: Option<&[u8]>, count: usize, complete: bool) -> String {
    let of = directory.map_or("the root directory".to_string(), |directory| {
        format!("the directory {}", in_words(directory))
    });
    let all = if complete { "" } else { ", perhaps not all" };
    let told = match count {
        0 => "",
        _ => "; size, name, and what a pull of block 0 answers",
    };
    format!("{} in {of}{all}{told}", counted(count, "name"))
}

fn expect_rows(json: &Json, expected: &[Expected]) {
    let names = json["names"].list();
    assert_eq!(names.len(), expected.len(), "names in {json:?}");
    for (json, name) in names.iter().zip(expected) {
        name.expect(json);
    }
}

fn listed(ran: &Ran, path: &Path) -> Json {
    assert_eq!(ran.err, "", "of {ran:?}");
    let json = ran.json();
    expect_head(&json, "ls", 0);
    assert_eq!(json["image"].text(), path.to_str().unwrap());
    let complete = json["problems"].list().is_empty();
    assert_eq!(json["complete"], Json::Bool(complete), "in {json:?}");
    assert_eq!(ran.status, if complete { 0 } else { 2 }, "of {ran:?}");
    json
}

/// What a regular file of the published tools is to be listed as, inline or not.
pub(crate) fn published_file(name: &[u8], size: usize) -> Expected {
    match size {
        0 => Expected::new(name, 0, 3, "it is empty"),
        _ => Expected::new(name, size as u64, 0, ""),
    }
}

/// Names with letters that mean something elsewhere.
const ODD: [&[u8]; 8] = [
    b"back\\x41slash",
    b"A",
    b"tab\tand\nline",
    "Stra\u{DF}e".as_bytes(),
    b"-o",
    b"..hidden",
    b"...",
    &[b'n'; 255],
];

/// Fills a folder with files of many sizes, a folder and a link. Returns what a card with them is to be listed as.
fn fill_folder(folder: &Path, random: &mut Random) -> Vec<Expected> {
    fs::create_dir_all(folder.join("sub/deeper")).unwrap();
    fs::write(folder.join("sub/below.bin"), contents(random, 9000)).unwrap();
    symlink("road.bin", folder.join("link")).unwrap();
    let sizes = [
        0,
        1,
        100,
        LONGEST_INLINE,
        LONGEST_INLINE + 1,
        4096,
        4097,
        3_000_000,
    ];
    let sized = sizes.map(|size| (format!("of {size}").into_bytes(), size));
    let odd = ODD.map(|name| (name.to_vec(), 5000));
    let mut expected = vec![
        Expected::new(b"sub", 4096, 12, "it is a directory"),
        Expected::new(b"link", 8, 12, "it is a symbolic link"),
    ];
    for (name, size) in sized.into_iter().chain(odd) {
        let path = folder.join(OsStr::from_bytes(&name));
        fs::write(path, contents(random, size)).unwrap();
        expected.push(published_file(&name, size));
    }
    expected
}

#[test]
fn published_card() {
    let scratch = published::Scratch::new();
    let (folder, image) = (scratch.path("files"), scratch.image_path());
    let expected = fill_folder(&folder, &mut Random::new(31));
    let file = fs::File::create(&image).unwrap();
    file.set_len(64 << 20).unwrap();
    published::run(Command::new("mkfs.f2fs").arg(&image));
    published::run(Command::new("sload.f2fs").arg("-f").args([&folder, &image]));
    expect_listing(&image, expected, &[]);
}

/// So many that the directory has several levels.
#[test]
fn published_names() {
    let mut random = Random::new(32);
    let mut files = Vec::new();
    for len in 1..=255 {
        for last in [b'<', b'>'] {
            let name = format!("{len:x}").repeat(255).into_bytes();
            let name = [&name[..len - 1], &[last]].concat();
            files.push((name, contents(&mut random, 3345 + len)));
        }
    }
    let scratch = published::file_with(200, "", &files);
    let expected = files
        .iter()
        .map(|(name, bytes)| published_file(name, bytes.len()));
    expect_listing(&scratch.image_path(), expected.collect(), &[]);
}

/// The root's entries for itself aren't files.
#[test]
fn published_without_files() {
    let disk = OnDisk::new(published::formatted(64, ""));
    expect_listing(&disk.path(), Vec::new(), &[]);
}

/// The names on the shared card with their sizes, where an inode has one.
fn names_and_sizes(card: &ProgramCard) -> Vec<(Vec<u8>, Option<u64>)> {
    let put = card.files.iter().chain([&card.outside]);
    let put = put.map(|file| (file.name.clone(), Some(file.size)));
    let with_node = Some(u64::from(ADDRESSES + 2) * 4096);
    let others = [
        ("unused node", with_node),
        ("far node", with_node),
        ("foreign node", with_node),
        ("folder", Some(100)),
        ("no inode", None),
    ];
    let others = others.map(|(name, size)| (name.as_bytes(), size));
    let unread = [
        (TOO_LONG, Some(3689)),
        (TOO_LONG_BESIDE_XATTR, Some(3489)),
        (MARKED, Some(100)),
    ];
    let others = others.into_iter().chain(unread);
    let others = others.map(|(name, size)| (name.to_vec(), size));
    let mut names: Vec<_> = put.chain(others).collect();
    names.sort();
    names
}

/// Every answer that a pull of block 0 has, names of any bytes, and a malformed entry in a block of the second level.
#[test]
fn every_answer() {
    expect_every_answer(&shared_card());
}

pub(crate) fn expect_every_answer(card: &ProgramCard) {
    let json = expect_names(card, 2);
    let problems: Vec<&str> = json["problems"].list().iter().map(Json::text).collect();
    let [problem] = problems[..] else {
        panic!("one problem isn't what is in {json:?}");
    };
    assert!(
        problem.starts_with("slot 213 of the card's block "),
        "{problem}"
    );
    assert!(problem.ends_with(" has a name of 9 bytes"), "{problem}");
}

/// The names with their sizes and answers, by a command that ends so. Returns the object.
pub(crate) fn expect_names(card: &ProgramCard, status: i32) -> Json {
    let path = card.disk.path();
    let json = listed(&run(&[&"ls", &"--json", &path]).expect(status), &path);
    let expected = names_and_sizes(card);
    let names = json["names"].list();
    assert_eq!(names.len(), expected.len(), "names in {json:?}");
    let mut answers = Vec::new();
    for (json, (name, size)) in names.iter().zip(&expected) {
        expect_name(json, name);
        assert_eq!(json.get("size").map(Json::number), *size, "in {json:?}");
        let answer = pulled(&card.card.image, name, 0).pulled.answer;
        assert_eq!(json["answer"].number(), u64::from(answer), "in {json:?}");
        answers.push(answer);
    }
    assert!([0, 1, 3, 9, 12]
        .iter()
        .all(|answer| answers.contains(answer)));
    json
}

/// No byte of a name reaches a terminal that would act on it.
#[test]
fn control_bytes() {
    let words = run(&[&"ls", &shared_card().disk.path()]).expect(2);
    let control = |letter: char| letter.is_control() && letter != '\n';
    assert!(
        !words.words().contains(control),
        "control bytes of {words:?}"
    );
}

/// A card with one file, `road.bin`, of one block.
fn small() -> Scene {
    let setting = Setting {
        root_inline: 0,
        file_inline: 0,
        size: 4096,
    };
    let mut scene = Scene::new(&mut Random::new(33), setting);
    scene.card.add_block(scene.ino, 0);
    for block in [scene.file_block(), scene.root_block()] {
        scene
            .card
            .image
            .set_all(block, &[(I_ADVISE, 0), (I_FLAGS, 0)]);
    }
    scene
}

/// Why a pull doesn't find the file.
pub(crate) const NOT_THERE: &str = "the root directory has no road.bin";

fn road(answer: u32, reason: &str) -> Expected {
    Expected::new(NAME, 4096, answer, reason)
}

/// Blocks behind each kind of node of the root directory, whatever its size says.
#[test]
fn deep_directories() {
    for inline in [0, INLINE_XATTR] {
        let mut scene = small();
        let root = scene.root_block();
        let fields = [(I_INLINE, inline), (I_CURRENT_DEPTH, 29), (I_SIZE, 1)];
        scene.card.image.set_all(root, &fields);
        let mut expected = vec![road(0, "")];
        let mut steps = Vec::new();
        for level in [1, 9, 10, 11, 18, 19, 20, 21, 28] {
            let name = format!("in level {level}").into_bytes();
            scene
                .card
                .link(level, level % 2, &Dentry::new(&name, scene.ino));
            expected.push(Expected::new(&name, 4096, 0, ""));
            let hash = Dentry::new(&name, 0).hash;
            let way = tree::way(scene.card.addresses(ROOT), bucket_index(level, hash, 0));
            steps.push(way.len());
        }
        assert!(
            [1, 2, 3, 4].iter().all(|len| steps.contains(len)),
            "{steps:?}"
        );
        expect_listing(&OnDisk::new(scene.card.image).path(), expected, &[]);
    }
}

/// Entries that a pull can't find: in the bucket of another hash, below the depth, and under names that are none.
#[test]
fn found_by_no_pull() {
    let mut scene = small();
    let (ino, root, block) = (scene.ino, scene.root_block(), scene.linked.block);
    let hidden = Dentry::new(b"hidden", ino).under_hash_of(b"other");
    scene.card.link(0, 0, &hidden);
    scene.card.link(5, 0, &Dentry::new(b"too deep", ino));
    let image = &mut scene.card.image;
    image.put_dentry(block, 100, &Dentry::new(b"zero\0byte", ino));
    image.put_dentry(block, 110, &Dentry::new(b"a/b", ino));
    image.put_dentry(block, 120, &Dentry::new(b".", ino));
    image.put_dentry(block, 130, &Dentry::new(b"..", ROOT));
    image.put_dentry(block, 140, &Dentry::new(NAME, ROOT));
    let root_size = image.get(root, I_SIZE);
    let expected = vec![
        road(0, ""),
        Expected::new(NAME, root_size, 0, ""),
        Expected::new(b"hidden", 4096, 2, "the root directory has no hidden"),
        Expected::new(b"too deep", 4096, 2, "the root directory has no too deep"),
        Expected::new(b"zero\0byte", 4096, 4, "the name has a zero byte"),
        Expected::new(b"a/b", 4096, 4, "the name has a slash"),
        Expected::new(b".", 4096, 0, ""),
    ];
    expect_listing(&OnDisk::new(scene.card.image).path(), expected, &[]);
}

/// A number to change on a card, and what is then said.
type Broken = (u32, Field, u64, String);

/// Addresses of the root directory that lead outside, in its inode and in its last node, or to a block a second time.
fn broken_addresses(scene: &mut Scene) -> Vec<Broken> {
    let (root, block) = (scene.root_block(), scene.linked.block);
    let card = &mut scene.card;
    let (main, end) = (card.image.areas.main, card.image.areas.main_end);
    let address = slots::I_ADDR.moved(5 * slots::SIZE);
    let deep = tree::last_index(ADDRESSES) - 5;
    let last = *card.way(ROOT, deep).last().unwrap();
    let outside = |index: u32| {
        let whose = format!("block {index} of the root directory has address {end}");
        format!("{whose}; the main area is blocks {main} to {}", end - 1)
    };
    let twice = format!("the card's block {block} is in the root directory twice");
    vec![
        (root, address, end.into(), outside(5)),
        (last.node.block, last.slot, end.into(), outside(deep)),
        (root, address, block.into(), twice),
    ]
}

/// Nodes of the root directory that aren't there.
fn broken_nodes(scene: &mut Scene) -> Vec<Broken> {
    let root = scene.root_block();
    let card = &mut scene.card;
    let Passage { node, place, .. } = card.way(ROOT, bucket_index(9, 0, 0))[1];
    let double = slots::I_NID.moved(4 * slots::SIZE);
    let past = card.node_numbers;
    let in_root =
        |nid: u32, place: u32| format!("node {nid} (place {place} of the root directory)");
    let number = format!("the block's number is 7, not {}", node.nid);
    let foreign = format!("should be in block {}, but {number}", node.block);
    vec![
        (
            node.block,
            footer::NID,
            7,
            format!("{} {foreign}", in_root(node.nid, place)),
        ),
        (
            root,
            double,
            past.into(),
            format!("{} is out of range", in_root(past, 2041)),
        ),
    ]
}

/// A part of the directory that can't be read: the others are listed.
#[test]
fn damaged_parts() {
    let mut scene = small();
    let parts = [broken_addresses(&mut scene), broken_nodes(&mut scene)].concat();
    for (block, field, value, problem) in parts {
        let mark = scene.card.image.mark();
        scene.card.image.set(block, field, value);
        let disk = OnDisk::new(scene.card.image.clone());
        expect_listing(&disk.path(), vec![road(0, "")], &[problem]);
        scene.card.image.undo(mark);
    }
}

/// Entries before a malformed one are listed, and those of other blocks.
#[test]
fn malformed_entry() {
    let mut scene = small();
    let block = scene.linked.block;
    scene
        .card
        .link(0, 1, &Dentry::new(b"in the second block", scene.ino));
    let image = &mut scene.card.image;
    image.put_dentry(block, 50, &Dentry::new(b"malformed", scene.ino));
    image.set(block, in_slot(NAME_LEN, 50), 0);
    image.put_dentry(block, 60, &Dentry::new(b"behind it", scene.ino));
    let place = format!("slot 50 of the card's block {block} (block 0 of the root directory)");
    let reason = format!("{place} has a name of 0 bytes");
    let expected = vec![
        road(0, ""),
        Expected::new(b"in the second block", 4096, 14, &reason),
    ];
    expect_listing(&OnDisk::new(scene.card.image).path(), expected, &[reason]);
}

/// Fields of the root's inode, what is then missing, and what is listed.
type Root<'a> = (&'a [(Field, u64)], Option<String>, Vec<Expected>);

/// A root that can't be read at all, and roots that a pull refuses but that can be listed.
#[test]
fn roots() {
    let scene = small();
    let root = scene.root_block();
    let not_read = |why: &str| format!("the root directory isn't read: {why}");
    let cases: [Root; 7] = [
        (&[(I_MODE, S_IFREG)], Some(not_read("it is a regular file")), vec![]),
        (
            &[(I_INLINE, EXTRA_ATTR)],
            Some(not_read("its inode has extra attributes")),
            vec![],
        ),
        (
            &[(footer::FLAG, 8)],
            Some(format!(
                "node 3 (the root directory's inode) should be in block {root}, but the block's place is 1, not 0"
            )),
            vec![],
        ),
        (
            &[(I_CURRENT_DEPTH, 64)],
            None,
            vec![road(12, &not_read("its depth is 64, over 63"))],
        ),
        (
            &[(I_DIR_LEVEL, 31)],
            None,
            vec![road(12, &not_read("its directory level is 31, over 30"))],
        ),
        // The name is in the first hash level's first bucket, and not where its hash leads to.
        (&[(I_DIR_LEVEL, 30)], None, vec![road(2, NOT_THERE)]),
        (&[(I_SIZE, 0)], None, vec![road(2, NOT_THERE)]),
    ];
    for (fields, problem, expected) in cases {
        let mut image = scene.card.image.clone();
        image.set_all(root, fields);
        let problems: Vec<String> = problem.into_iter().collect();
        expect_listing(&OnDisk::new(image).path(), expected, &problems);
    }
}

/// A root that claims a terabyte, and one whose nodes lead to more and more that isn't there.
#[test]
fn no_endless_work() {
    let mut scene = small();
    let root = scene.root_block();
    let fields = [(I_SIZE, 1 << 40), (I_CURRENT_DEPTH, 63)];
    scene.card.image.set_all(root, &fields);
    expect_listing(
        &OnDisk::new(scene.card.image.clone()).path(),
        vec![road(0, "")],
        &[],
    );
    let last = tree::last_index(ADDRESSES);
    scene.card.way(ROOT, last);
    let top = scene.card.node(ROOT, 2041).block;
    for slot in 0..1018 {
        let field = slots::ADDR_OR_NID.moved(slot * slots::SIZE);
        scene
            .card
            .image
            .set(top, field, u64::from(scene.card.node_numbers));
    }
    let disk = OnDisk::new(scene.card.image);
    let ran = run(&[&"ls", &disk.path()]).expect(2);
    let lines: Vec<&str> = ran.words().lines().collect();
    assert_eq!(lines.len(), 2 + 16 + 1, "of {ran:?}");
    let end = "names may be missing: the directory wasn't read further";
    assert_eq!(lines.last(), Some(&end), "of {ran:?}");
    let json = listed(
        &run(&[&"ls", &"--json", &disk.path()]).expect(2),
        &disk.path(),
    );
    assert_eq!(json["problems"].list().len(), 16, "in {json:?}");
}

/// A card that doesn't open has no list at all.
#[test]
fn unopened() {
    let mut image = small().card.image;
    image.set_all(0, &[(MAGIC, 0)]);
    image.set_all(1, &[(MAGIC, 0)]);
    let disk = OnDisk::new(image);
    let ran = run(&[&"ls", &disk.path()]).expect(2);
    assert_eq!(ran.words().lines().count(), 1, "of {ran:?}");
    assert!(ran
        .words()
        .contains(&format!(": {} (answer 5): ", meaning("ls", 5))));
    let json = run(&[&"ls", &"--json", &disk.path()]).expect(2).json();
    expect_head(&json, "ls", 5);
    assert!(json.get("names").is_none(), "names in {json:?}");
}

/// A card with names in several blocks and nodes of the root directory.
fn several_blocks() -> Card {
    let mut random = Random::new(34);
    let mut card = Card::new(small_knobs(&mut random), random);
    card.add_root(0, 11);
    let ino = card.add_file(0, 4096);
    for n in 0..40 {
        let name = format!("file {n}");
        card.link(
            [0, 1, 3, 9, 10][n % 5],
            0,
            &Dentry::new(name.as_bytes(), ino),
        );
    }
    card.link(0, 0, &Dentry::new(ROAD, ino));
    card.image.settle("a directory of several blocks");
    card
}

/// The blocks that the listing reads.
fn blocks_of(card: &Card) -> Vec<u32> {
    let nodes = [0, 1, 2].map(|place| card.node(ROOT, place).block);
    card.directory.values().copied().chain(nodes).collect()
}

/// Of each name that is listed the answer is the library's, by the reference; a listing with problems says so; and the
/// sanitizers see nothing.
fn expect_damaged(image: &Image, ran: &Ran, path: &Path) -> usize {
    let json = listed(ran, path);
    for json in json["names"].list() {
        let hex = json["name_hex"].text();
        let byte = |at| u8::from_str_radix(&hex[at..at + 2], 16).expect("a byte");
        let name: Vec<u8> = (0..hex.len()).step_by(2).map(byte).collect();
        let answer = pulled(image, &name, 0).pulled.answer;
        assert_eq!(
            json["answer"].number(),
            u64::from(answer),
            "in {json:?} of {image:?}"
        );
    }
    json["problems"].list().len()
}

#[test]
fn damaged() {
    const ROUNDS: usize = 60;
    let build = SpecialBuild::sanitized();
    let mut random = Random::new(35);
    let card = several_blocks();
    let mut blocks = blocks_of(&card);
    blocks.sort();
    let mut disk = OnDisk::new(card.image.clone());
    let mut incomplete = 0;
    for _ in 0..ROUNDS {
        let strikes = 1 + random.below(4);
        let struck: Vec<u32> = (0..strikes).map(|_| pick(&mut random, &blocks)).collect();
        for &block in &struck {
            strike_block(&mut disk.image, block, &mut random);
        }
        disk.write_blocks(&struck);
        let ran = build.run(&[&"ls", &"--json", &disk.path()]);
        incomplete += usize::from(expect_damaged(&disk.image, &ran, &disk.path()) > 0);
        build.run(&[&"ls", &disk.path()]);
        disk.image.undo(0);
        disk.write_blocks(&struck);
    }
    assert!(
        (10..ROUNDS - 5).contains(&incomplete),
        "{incomplete} incomplete ones"
    );
}

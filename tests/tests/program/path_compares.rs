//! `harptimber compare` of files in folders: what changed on the way is named by its directory.

use harptimber_tests::cards::card::{Node, Passage, ROOT};
use harptimber_tests::cards::directory::Dentry;
use harptimber_tests::cards::folders::Shape;
use harptimber_tests::cards::image::Image;
use harptimber_tests::cards::layout::footer;
use harptimber_tests::cards::layout::inode::{I_DIR_LEVEL, I_SIZE};
use harptimber_tests::cards::layout::nat::BLOCK_ADDR;
use harptimber_tests::cards::on_disk::OnDisk;
use harptimber_tests::cards::random::pick;
use harptimber_tests::cards::random_files::{any_target, RandomFiles, Target};
use harptimber_tests::cards::random_trees::random_trees;
use harptimber_tests::program::card::pulled;
use harptimber_tests::program::compares::Expected;
use harptimber_tests::program::json::Json;
use harptimber_tests::program::page::{expect_head, expect_name, in_words};
use harptimber_tests::program::special_build::SpecialBuild;
use harptimber_tests::program::{run, Ran, Words};
use harptimber_tests::trial::Random;

use crate::check::expect_as_compare;
use crate::paths::{name_in, Stage, EIGHT};

/// What is said to have changed, with what stands before it in words: of block 0, or of a refusal.
fn told(json: &Json) -> (String, &'static str) {
    let (changed, start) = match json["runs"].list().first() {
        Some(run) => (run, "  block 0: "),
        None => (&json["end"], "  "),
    };
    (changed["difference"].text().to_string(), start)
}

/// What a compare of a path says that changed, in words and as JSON.
fn difference(stage: &Stage, fresh: &OnDisk, path: &[u8]) -> String {
    let [kept, new] = [stage.disk.path(), fresh.path()];
    let json = run(&[&"compare", &"--json", &kept, &new, &path]).expect(1);
    let json = json.json();
    expect_head(&json, "compare", 16);
    expect_name(&json, path);
    let (difference, start) = told(&json);
    let ran = run(&[&"compare", &kept, &new, &path]).expect(1);
    let line = format!("\n{start}{difference}\n");
    assert!(ran.words().ends_with(&line), "no '{line}' in {ran:?}");
    expect_as_compare(run, [&stage.disk, fresh], path, 0);
    difference
}

/// A mark in a node's footer, which its place shares a word with.
fn marked(stage: &Stage, block: u32) -> OnDisk {
    stage.changed(|image| image.set(block, footer::FLAG, image.get(block, footer::FLAG) ^ 1))
}

/// A field of an inode or of another node on the way, and where that node is.
#[test]
fn nodes() {
    let stage = Stage::new(EIGHT);
    let path = stage.path();
    for (nth, n) in (0..EIGHT).flat_map(|nth| (0..stage.way(nth).1.len()).map(move |n| (nth, n))) {
        let Passage { node, .. } = stage.way(nth).1[n];
        let whose = match n {
            0 => stage.inode(nth),
            _ => format!("a node of {}", stage.directory(nth)),
        };
        expect_node(&stage, &path, node, &whose);
    }
}

/// A node's mark, and where it is.
fn expect_node(stage: &Stage, path: &[u8], node: Node, whose: &str) {
    let said = difference(stage, &marked(stage, node.block), path);
    let place = format!("(node {}, the card's block {})", node.nid, node.block);
    let end = format!(" changed in {whose} {place}");
    assert!(said.starts_with("place and marks ("), "{said}");
    assert!(said.ends_with(&end), "no '{end}' in '{said}'");
    let (table, at) = stage.folders.card.entry_place(node.nid);
    let moved = u64::from(stage.folders.data);
    let fresh = stage.with_number(table, BLOCK_ADDR.moved(at), moved);
    let start = format!("node {} ({whose}) has another table entry: ", node.nid);
    let said = difference(stage, &fresh, path);
    assert!(said.starts_with(&start), "no '{start}' in '{said}'");
}

/// A file on the way isn't called a directory, nor a directory at the path's end a file.
#[test]
fn other_kinds() {
    let stage = Stage::new(3);
    let below = [&stage.path()[..], b"x"].join(&b'/');
    let inodes = stage.folders.inodes();
    for (path, names) in [
        (stage.folders.path_of(1), 1),
        (stage.folders.path_of(2), 2),
        (below, 3),
    ] {
        let nid = inodes[names];
        let block = stage.folders.card.inode_block(nid);
        expect_node(&stage, &path, Node { nid, block }, &stage.inode(names));
    }
}

/// Where the program's walk doesn't come to a block that the library says differs, nothing is said of what it is.
#[test]
fn library_against_walk() {
    let build = SpecialBuild::with_any_answer();
    let stage = Stage::new(2);
    let (path, fresh) = (stage.path(), stage.changed(|_| ()));
    let [kept, new] = [&stage.disk, &fresh].map(OnDisk::path);
    for answer in ["0", "1", "10"] {
        let variables = [
            ("ANY_ANSWER", answer),
            ("ANY_VERDICT", "16"),
            ("ANY_KIND", "3"),
            ("ANY_NUMBER", "77"),
        ];
        let line: Words = &[&"compare", &"--json", &"--index=0", &kept, &new, &path];
        let ran = build.run_with(&variables, line).expect(1);
        let (difference, start) = told(&ran.json());
        assert_eq!(difference, "the card's block 77 changed");
        let line: Words = &[&"compare", &"--index=0", &kept, &new, &path];
        let ran = build.run_with(&variables, line).expect(1);
        let line = format!("\n{start}{difference}\n");
        assert!(ran.words().ends_with(&line), "no '{line}' in {ran:?}");
    }
}

/// An entry more in each directory, in a block or inline.
#[test]
fn entries() {
    let stage = Stage::new(EIGHT);
    for nth in 0..EIGHT {
        let (linked, way) = stage.way(nth);
        let another = Dentry::new(b"another", 5);
        let fresh = stage.changed(|image| image.put_dentry(linked.of(), 100, &another));
        let (entry, block) = ("an entry is new (another)", linked.block);
        let said = match stage.is_inline(nth) {
            true => {
                let place = format!("(node {}, the card's block {block})", way[0].node.nid);
                format!(
                    "inline contents changed in {} {place}: {entry}",
                    stage.inode(nth)
                )
            }
            false => format!(
                "{entry} in {} (the card's block {block})",
                stage.directory(nth)
            ),
        };
        assert_eq!(difference(&stage, &fresh, &stage.path()), said);
    }
}

/// The file's own things are the file's, however deep it lies.
#[test]
fn file() {
    let stage = Stage::new(EIGHT);
    let inode = stage.folders.card.inode_block(stage.folders.ino);
    let said = difference(&stage, &marked(&stage, inode), &stage.path());
    let end = format!(
        " changed in the file's inode (node {}, the card's block {inode})",
        stage.folders.ino
    );
    assert!(said.ends_with(&end), "no '{end}' in '{said}'");
    let fresh = stage.changed(|image| {
        let old = image.block(stage.folders.data)[7];
        image.put("byte", stage.folders.data, 7, &[old ^ 1]);
    });
    let [kept, new] = [stage.disk.path(), fresh.path()];
    let json = run(&[&"compare", &"--json", &kept, &new, &stage.path()]).expect(1);
    assert_eq!(
        json.json()["runs"].list()[0]["difference"].text(),
        "the file's data changed"
    );
}

/// By dots the path comes to a directory again: what is there in two ways is named by the first.
#[test]
fn first_on_the_path() {
    let names = [Shape::PLAIN, Shape::INLINE].map(|shape| (shape, name_in(shape, 0)));
    let mut stage = Stage::with(&names);
    let folder = stage.folders.folders[1].ino;
    for (slot, dots, to) in [(60, b".".as_slice(), folder), (62, b"..", ROOT)] {
        let slots = stage.folders.folders[1].linked.of();
        let image = &mut stage.folders.card.image;
        image.put_dentry(slots, slot, &Dentry::new(dots, to));
    }
    stage.disk = OnDisk::new(stage.folders.card.image.clone());
    let [first, last] = [0, 1].map(|nth| stage.folders.folders[nth].name.clone());
    let path = [&first[..], b"..", &first, b".", &last].join(&b'/');
    let ran = run(&[&"cat", &stage.disk.path(), &path]).expect(0);
    assert_eq!(ran.out, stage.disk.image.block(stage.folders.data));
    for nth in [0, 1] {
        let inode = stage.folders.inode_block(nth);
        let said = difference(&stage, &marked(&stage, inode), &path);
        let whose = format!(" changed in {} (node ", stage.inode(nth));
        assert!(said.contains(&whose), "no '{whose}' in '{said}'");
    }
    let (linked, _) = stage.way(0);
    let another = Dentry::new(b"another", 5);
    let fresh = stage.changed(|image| image.put_dentry(linked.of(), 100, &another));
    let said = difference(&stage, &fresh, &path);
    assert!(said.contains(" in the root directory ("), "{said}");
}

/// On neither card; where another name is missing on each, both are told.
#[test]
fn missing() {
    let stage = Stage::new(3);
    let same = OnDisk::new(stage.disk.image.clone());
    let words = |fresh: &OnDisk, path: &[u8], status: i32| {
        let words: Words = &[&"compare", &stage.disk.path(), &fresh.path(), &path];
        run(words).expect(status).words().to_string()
    };
    let path = stage.folders.path_with(2, b"missing");
    let answer = "no such name in its directory (answer 2)";
    let [root, last] = [0, 2].map(|nth| stage.directory(nth));
    let shown = in_words(&path);
    assert_eq!(
        words(&same, &path, 4),
        format!("{shown}: on neither card: {answer}: {last} has no missing\n")
    );
    let empty = stage.with_number(stage.folders.inode_block(0), I_SIZE, 0);
    let first = in_words(&stage.folders.folders[0].name);
    let [on_kept, on_new] = [
        format!("on the kept card: {answer}: {last} has no missing"),
        format!("on the new card: {answer}: {root} has no {first}"),
    ];
    assert_eq!(
        words(&empty, &path, 4),
        format!("{shown}: on neither card; {on_kept}; {on_new}\n")
    );
    let gone = words(&empty, &stage.path(), 1);
    let shown = in_words(&stage.path());
    let line = format!("{shown}: gone: 4,096 bytes on the kept card; {on_new}\n");
    assert!(gone.starts_with(&line), "no '{line}' in '{gone}'");
}

/// A folder that isn't read any more: the reason is its own, and it has no size that would be the file's.
#[test]
fn unread_folder() {
    let stage = Stage::new(3);
    let (path, [kept_size, new_size]) = (stage.path(), ["kept_size", "new_size"]);
    let disk = stage.with_number(stage.folders.inode_block(1), I_DIR_LEVEL, 31);
    let [kept, new] = [stage.disk.path(), disk.path()];
    let why = format!(
        "{} isn't read: its directory level is 31, over 30",
        stage.directory(1)
    );
    let answer = "an inode of a kind that isn't read (answer 12)";
    for (cards, size, other, words) in [
        (
            [&kept, &new],
            kept_size,
            new_size,
            "no longer readable: 4,096 bytes on the kept card; on the new card",
        ),
        (
            [&new, &kept],
            new_size,
            kept_size,
            "readable now: 4,096 bytes on the new card; on the kept card",
        ),
    ] {
        let ran = run(&[&"compare", cards[0], cards[1], &path]).expect(1);
        let line = format!("{}: {words}: {answer}: {why}\n", in_words(&path));
        assert!(ran.words().starts_with(&line), "no '{line}' in {ran:?}");
        let json = run(&[&"compare", &"--json", cards[0], cards[1], &path]).expect(1);
        let json = json.json();
        assert_eq!(json[size].number(), 4096, "{json:?}");
        assert!(json.get(other).is_none(), "{json:?}");
    }
}

/// The numbers of the directories on a target's path.
fn directories(image: &Image, target: &Target) -> Vec<u32> {
    let inodes = &target.inodes[..target.inodes.len() - 1];
    let number = |&block: &u32| image.get(block, footer::NID) as u32;
    inodes.iter().map(number).collect()
}

/// Whether a compare of it all takes moments.
fn is_short(cards: [&Image; 2], path: &[u8]) -> bool {
    let is_past = |card| pulled(card, path, 2000).pulled.answer > 1;
    cards.into_iter().all(is_past)
}

/// Cards of random folders, on each of which a block on the way to a file is changed twelve times.
pub(crate) fn with_changes(
    seed: u64,
    cards: usize,
    change: impl Fn(&mut Image, u32, &mut Random),
    mut test: impl FnMut([&OnDisk; 2], &Target),
) {
    let mut random = Random::new(seed);
    for _ in 0..cards {
        let RandomFiles { mut card, targets } = random_trees(&mut random);
        let kept = OnDisk::new(card.image.clone());
        for _ in 0..12 {
            let target = any_target(&targets, &mut random);
            let on_way = pulled(&card.image, &target.name, target.index).blocks();
            let block = pick(&mut random, &on_way);
            change(&mut card.image, block, &mut random);
            test([&kept, &OnDisk::new(card.image.clone())], target);
            card.image.undo(0);
        }
    }
}

/// Compares a target's block.
pub(crate) fn compare_block(
    run: impl Fn(Words) -> Ran,
    cards: [&OnDisk; 2],
    target: &Target,
) -> Ran {
    let [kept, new] = cards.map(OnDisk::path);
    run(&[
        &"compare",
        &"--index",
        &target.index,
        &"--",
        &kept,
        &new,
        &target.name,
    ])
}

/// Random folders with another byte on the way to a file.
#[test]
fn random() {
    let mut statuses = [0; 5];
    let change = |image: &mut Image, block: u32, random: &mut Random| {
        let at = pick(random, &[100, 500, 3000, 4090]);
        let old = image.block(block)[at];
        image.put("byte", block, at, &[old ^ 1]);
    };
    with_changes(74, 6, change, |cards, target| {
        statuses[expect_compared(cards, target) as usize] += 1;
    });
    assert!(statuses[1] > 40, "{statuses:?}");
}

/// Compares a target's block, and all of its file unless that is long. Returns the block's status.
fn expect_compared(cards: [&OnDisk; 2], target: &Target) -> i32 {
    let images = cards.map(|card| &card.image);
    let (path, directories) = (&target.name, directories(images[0], target));
    let expected = Expected::along(images, path, &directories, Some(target.index));
    let ran = compare_block(run, cards, target).expect(expected.status);
    expected.expect_words(ran.words(), true);
    let status = expected.status;
    assert_eq!(expect_as_compare(run, cards, path, target.index), status);
    if is_short(images, path) {
        let expected = Expected::along(images, path, &directories, None);
        let [kept, new] = cards.map(OnDisk::path);
        let line: Words = &[&"compare", &"--json", &"--", &kept, &new, path];
        let json = run(line).expect(expected.status).json();
        expect_head(&json, "compare", expected.answer);
        expected.expect_json(&json);
    }
    status
}

//! `harptimber ls` of a directory on a card, and of a file.

use std::fs;
use std::os::unix::fs::symlink;
use std::process::Command;

use harptimber_tests::cards::card::ROOT;
use harptimber_tests::cards::directory::Dentry;
use harptimber_tests::cards::folders::Shape;
use harptimber_tests::cards::image::Image;
use harptimber_tests::cards::layout::dentry::NAME_LEN;
use harptimber_tests::cards::layout::inode::*;
use harptimber_tests::cards::layout::nat::BLOCK_ADDR;
use harptimber_tests::cards::layout::Field;
use harptimber_tests::cards::on_disk::OnDisk;
use harptimber_tests::cards::walk_damage::strike_block;
use harptimber_tests::program::page::{expect_head, expect_name, in_words, meaning};
use harptimber_tests::program::run;
use harptimber_tests::program::special_build::SpecialBuild;
use harptimber_tests::tools::published::{self, contents, LONGEST_INLINE};
use harptimber_tests::trial::Random;

use crate::ls::{expect_listing_of, published_file, Expected};
use crate::path_compares::{compare_block, with_changes};
use crate::paths::{expect_unlisted, name_in, Stage, EIGHT};

/// A directory as it is listed in the one around it.
fn folder(name: &[u8], size: u64) -> Expected {
    Expected::new(name, size, 12, "it is a directory")
}

/// The one line of what is no directory, in words and as JSON.
fn expect_alone(disk: &OnDisk, path: &[u8], line: &str) {
    let ran = run(&[&"ls", &disk.path(), &path]).expect(0);
    assert_eq!(ran.words(), line);
    let json = run(&[&"ls", &"--json", &disk.path(), &path]).expect(0);
    let json = json.json();
    expect_head(&json, "ls", 0);
    expect_name(&json, path);
    let [row] = json["names"].list() else {
        panic!("one name isn't what is in {json:?}");
    };
    expect_name(row, path);
}

/// Every directory on the way, and the file at its end.
#[test]
fn on_the_way() {
    let stage = Stage::new(EIGHT);
    let size = |nth: usize| stage.disk.image.get(stage.folders.inode_block(nth), I_SIZE);
    for nth in 0..EIGHT {
        let part = stage.folders.path_of(nth);
        let name = &stage.folders.folders[nth].name;
        let expected = match nth + 1 {
            EIGHT => Expected::new(name, 4096, 0, ""),
            below => folder(name, size(below)),
        };
        let directory = (nth > 0).then_some(&part[..]);
        expect_listing_of(&stage.disk.path(), directory, vec![expected], &[]);
    }
    let path = stage.path();
    let line = format!("         4,096  {}: data (answer 0)\n", in_words(&path));
    expect_alone(&stage.disk, &path, &line);
}

/// Something else than a regular file is listed alone too, and so is an inode that can't be read.
#[test]
fn alone() {
    let stage = Stage::new(3);
    let (path, ino) = (stage.path(), stage.folders.ino);
    let inode = stage.folders.card.inode_block(ino);
    let shown = in_words(&path);
    let answer = "an inode of a kind that isn't read (answer 12): it is a symbolic link";
    let disk = stage.with_number(inode, I_MODE, 0xA1FF);
    expect_alone(
        &disk,
        &path,
        &format!("         4,096  {shown}: {answer}\n"),
    );
    let (table, at) = stage.folders.card.entry_place(ino);
    let disk = stage.with_number(table, BLOCK_ADDR.moved(at), 0);
    let answer = "a node number out of range or not in use (answer 9)";
    let reason = format!("node {ino} (the file's inode) isn't in use");
    let line = format!("{:>14}  {shown}: {answer}: {reason}\n", "?");
    expect_alone(&disk, &path, &line);
}

/// Behind eight names there may be a directory. What is in it is listed, but no pull takes its path.
#[test]
fn too_deep() {
    let mut stage = Stage::new(EIGHT);
    let card = &mut stage.folders.card;
    let inode = card.inode_block(stage.folders.ino);
    card.image.set(inode, I_MODE, S_IFDIR);
    card.image.clear_slots(stage.folders.data);
    let inner = Dentry::new(b"inner", stage.folders.folders[0].ino);
    card.image.put_dentry(stage.folders.data, 3, &inner);
    let root_size = card.image.get(card.inode_block(ROOT), I_SIZE);
    let disk = OnDisk::new(card.image.clone());
    let deep = "the path has 9 names; at most 8 are possible";
    let expected = vec![Expected::new(b"inner", root_size, 4, deep)];
    expect_listing_of(&disk.path(), Some(&stage.path()), expected, &[]);
    let below = [&stage.path()[..], b"inner"].join(&b'/');
    expect_unlisted(&disk, &below, 4, deep);
}

/// A directory in a directory in the root, with a file.
fn three() -> Stage {
    let shapes = [Shape::PLAIN, Shape::INLINE, Shape::PLAIN];
    Stage::with(&shapes.map(|shape| (shape, name_in(shape, 1))))
}

/// Dots in one of these directories that lead to these inodes.
fn put_dots(image: &mut Image, stage: &Stage, nth: usize, own: u32, parent: u32) {
    let slots = stage.folders.folders[nth].linked.of();
    image.put_dentry(slots, 100, &Dentry::new(b".", own));
    image.put_dentry(slots, 102, &Dentry::new(b"..", parent));
}

/// A dot is left out where it leads to the directory itself, two where they lead to the one before it. All others are listed.
#[test]
fn dots() {
    let stage = three();
    let inodes = stage.folders.inodes();
    let size = |ino| {
        let inode = stage.folders.card.inode_block(ino);
        stage.disk.image.get(inode, I_SIZE)
    };
    let row = |name: &[u8], ino| match ino == stage.folders.ino {
        true => Expected::new(name, size(ino), 0, ""),
        false => folder(name, size(ino)),
    };
    for nth in 0..3 {
        let part = stage.folders.path_of(nth);
        let (itself, before) = (inodes[nth], inodes[nth.saturating_sub(1)]);
        for (&own, &parent) in inodes
            .iter()
            .flat_map(|own| inodes.iter().map(move |parent| (own, parent)))
        {
            let mut listed = vec![row(&stage.folders.folders[nth].name, inodes[nth + 1])];
            listed.extend((own != itself).then(|| row(b".", own)));
            listed.extend((parent != before).then(|| row(b"..", parent)));
            let disk = stage.changed(|image| put_dots(image, &stage, nth, own, parent));
            expect_listing_of(&disk.path(), (nth > 0).then_some(&part[..]), listed, &[]);
        }
    }
}

/// Behind dots too, those of a directory are left out.
#[test]
fn behind_dots() {
    let stage = three();
    let inodes = stage.folders.inodes();
    let [first, second] = [0, 1].map(|nth| &stage.folders.folders[nth].name[..]);
    let size = stage.disk.image.get(stage.folders.inode_block(2), I_SIZE);
    let disk = stage.changed(|image| {
        put_dots(image, &stage, 1, inodes[1], inodes[0]);
        put_dots(image, &stage, 2, inodes[2], inodes[1]);
    });
    for path in [
        vec![first, b"."],
        vec![first, b".", b"."],
        vec![first, b"..", first],
        vec![first, second, b".."],
        vec![first, second, b"..", b"."],
    ] {
        let listed = vec![folder(second, size)];
        expect_listing_of(&disk.path(), Some(&path.join(&b'/')), listed, &[]);
    }
}

/// A damaged directory, by its name.
#[test]
fn damaged() {
    let stage = Stage::new(3);
    let part = stage.folders.path_of(2);
    let directory = stage.directory(2);
    let (linked, way) = stage.way(2);
    let inode = way[0].node.block;
    let disk = stage.with_number(linked.block, linked.field(NAME_LEN), 0);
    let place = format!("slot {} of the card's block {}", linked.slot, linked.block);
    let ran = run(&[&"ls", &disk.path(), &&part[..]]).expect(2);
    let start = format!(
        "{}: 0 names in {directory}, perhaps not all\n",
        disk.path().display()
    );
    assert!(ran.words().starts_with(&start), "no '{start}' in {ran:?}");
    let line = format!("names may be missing: {place} (block ");
    assert!(ran.words().contains(&line), "no '{line}' in {ran:?}");
    let end = format!(" of {directory}) has a name of 0 bytes\n");
    assert!(ran.words().ends_with(&end), "no '{end}' in {ran:?}");
    let marked = stage.with_number(inode, I_INLINE, INLINE_DATA);
    let why = "it is marked as an inline file (inline data)";
    let problem = format!("{directory} isn't read: {why}");
    expect_listing_of(&marked.path(), Some(&part), vec![], &[problem]);
    let last = &way[way.len() - 1];
    let twice = stage.changed(|image| {
        let beside = Field {
            at: last.slot.at + 4,
            ..last.slot
        };
        image.set(last.node.block, beside, linked.block.into());
    });
    let name = &stage.folders.folders[2].name;
    let problem = format!("the card's block {} is in {directory} twice", linked.block);
    let file = Expected::new(name, 4096, 0, "");
    expect_listing_of(&twice.path(), Some(&part), vec![file], &[problem]);
}

/// Folders of the published tools, and all that is in them.
#[test]
fn published() {
    let scratch = published::Scratch::new();
    let mut random = Random::new(75);
    let (files, image) = (scratch.path("files"), scratch.image_path());
    fs::create_dir_all(files.join("roads/wet")).unwrap();
    let sizes = [0, 1, LONGEST_INLINE, LONGEST_INLINE + 1, 100_000];
    let put = sizes.map(|size| (format!("of {size}"), contents(&mut random, size)));
    for (name, bytes) in &put {
        fs::write(files.join("roads/wet").join(name), bytes).unwrap();
    }
    symlink("wet", files.join("roads/link")).unwrap();
    fs::File::create(&image).unwrap().set_len(64 << 20).unwrap();
    published::run(Command::new("mkfs.f2fs").arg(&image));
    published::run(Command::new("sload.f2fs").arg("-f").args([&files, &image]));
    expect_listing_of(&image, None, vec![folder(b"roads", 4096)], &[]);
    let link = Expected::new(b"link", 3, 12, "it is a symbolic link");
    let listed = vec![folder(b"wet", 4096), link];
    expect_listing_of(&image, Some(b"roads"), listed, &[]);
    let listed = put
        .iter()
        .map(|(name, bytes)| published_file(name.as_bytes(), bytes.len()));
    expect_listing_of(&image, Some(b"roads/wet"), listed.collect(), &[]);
    for (name, bytes) in &put {
        let path = format!("roads/wet/{name}").into_bytes();
        assert_eq!(&run(&[&"cat", &image, &path]).expect(0).out, bytes);
        let dots = format!("roads/wet/../wet/./{name}").into_bytes();
        assert_eq!(&run(&[&"cat", &image, &dots]).expect(0).out, bytes);
    }
}

/// Where the library says something that the walk doesn't come to, that is told, and no reason.
#[test]
fn library_against_walk() {
    let build = SpecialBuild::with_any_answer();
    let stage = Stage::new(2);
    let path = stage.path();
    for answer in [0, 1, 2, 3, 10, 12, 14] {
        let any_answer = [("ANY_ANSWER", &*answer.to_string())];
        let ran = build.run_with(&any_answer, &[&"ls", &stage.disk.path(), &path]);
        let ran = ran.expect(2);
        let line = format!(
            "{}: {} (answer {answer})\n",
            in_words(&path),
            meaning("pull", answer)
        );
        assert_eq!(ran.words(), line);
    }
}

/// Whatever the damage is, the listings and the compares of a path keep to the images' bytes.
#[test]
fn damaged_under_sanitizers() {
    let build = SpecialBuild::sanitized();
    let mut statuses = [0; 5];
    with_changes(76, 3, strike_block, |cards, target| {
        let ends = (0..target.name.len()).filter(|&at| target.name[at] == b'/');
        for end in ends.chain([target.name.len()]) {
            let part = &target.name[..end];
            let ran = build.run(&[&"ls", &"--", &cards[1].path(), &part]);
            statuses[ran.status as usize] += 1;
        }
        let ran = compare_block(|words| build.run(words), cards, target);
        statuses[ran.status as usize] += 1;
    });
    assert!(statuses[..3].iter().all(|&count| count > 5), "{statuses:?}");
    assert_eq!(statuses[3..], [0, 0], "{statuses:?}");
}

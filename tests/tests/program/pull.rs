//! `harptimber pull` as JSON, against the reference and the bytes that were put on the card.

use std::collections::BTreeSet;
use std::fs;

use harptimber_tests::cards::image::Image;
use harptimber_tests::cards::layout::inode::I_SIZE;
use harptimber_tests::cards::layout::BLOCK_SIZE;
use harptimber_tests::cards::on_disk::OnDisk;
use harptimber_tests::cards::versions::CHOSEN;
use harptimber_tests::program::card::{pulled, ProgramCard, ROAD};
use harptimber_tests::program::page::{expect_head, expect_name, status_of};
use harptimber_tests::program::versions::{add_moved_road, RoadAt};
use harptimber_tests::program::{run, Words};
use harptimber_tests::tools::published::{filled_on, File, LONGEST_INLINE};
use harptimber_tests::trial::Random;

/// Pulls a block for its object, which has to be the reference's. Returns the answer.
pub(crate) fn expect_json(disk: &OnDisk, image: &Image, name: &[u8], index: u32) -> u32 {
    let path = disk.path();
    let output = disk.scratch.path("block");
    let outcome = pulled(image, name, index);
    let answer = outcome.pulled.answer;
    let ran = run(&[
        &"pull", &"--json", &"-o", &output, &path, &"--", &name, &index,
    ]);
    let ran = ran.expect(status_of(answer));
    assert_eq!(ran.err, "", "of {ran:?}");
    let json = ran.json();
    expect_head(&json, "pull", answer);
    expect_name(&json, name);
    assert_eq!(json["image"].text(), path.to_str().unwrap());
    assert_eq!(json["index"].number(), u64::from(index));
    let count = outcome.pulled.byte_count;
    assert_eq!(json["byte_count"].number(), u64::from(count));
    assert_eq!(json["nodes"].numbers(), outcome.nodes());
    assert_eq!(json["blocks"].numbers(), outcome.blocks());
    if answer <= 1 {
        let bytes = &outcome.lent.block.bytes()[..count as usize];
        assert!(fs::read(&output).unwrap() == bytes, "bytes of {ran:?}");
        fs::remove_file(&output).unwrap();
    }
    assert!(!output.exists(), "a file by {ran:?}");
    answer
}

/// Each answer from 0 to 3 and from 9 to 14, and names that JSON can't have as they are.
#[test]
fn every_answer() {
    expect_every_answer(&ProgramCard::build());
}

pub(crate) fn expect_every_answer(card: &ProgramCard) {
    expect_answers(card, (0..=3).chain(9..=14).collect());
}

/// These come up, and no others.
pub(crate) fn expect_answers(card: &ProgramCard, all: BTreeSet<u32>) {
    let calls = card.calls().into_iter();
    let answers: BTreeSet<u32> = calls
        .map(|(name, index)| expect_json(&card.disk, &card.card.image, &name, index))
        .collect();
    assert_eq!(answers, all, "answers that came up");
    for (name, index, answer) in &card.refused {
        assert_eq!(card.pulled(name, *index).pulled.answer, *answer);
    }
}

/// By two packs the road has its inode in different blocks, and other bytes. Each command reads it by the pack that the library
/// has in use, whatever the program itself makes of the versions.
#[test]
fn pack_in_use() {
    let mut card = ProgramCard::build();
    let mut image = card.disk.image.clone();
    let mut moved = add_moved_road(&mut card, &mut image, 0);
    moved.road.size -= 1;
    image.set(moved.inode, I_SIZE, moved.road.size);
    let road = card.file(ROAD).clone();
    let inode = card.card.inode_block(road.ino);
    let roads = [RoadAt { road, inode }, moved];
    let mut disk = OnDisk::new(image);
    let path = disk.path();
    for (versions, used) in CHOSEN {
        for (which, version) in versions.into_iter().enumerate() {
            let blocks = disk.image.set_version(which, version);
            disk.write_blocks(&blocks);
        }
        let RoadAt { road, inode } = &roads[used];
        assert_eq!(expect_json(&disk, &disk.image, ROAD, 0), 0);
        let cat = run(&[&"cat", &path, &ROAD]).expect(0);
        assert!(cat.out == road.bytes(&disk.image), "cat by {versions:?}");
        let node = run(&[&"node", &"--json", &path, &road.ino]).expect(0);
        let address = node.json()["address"].number();
        assert_eq!(address, u64::from(*inode), "{versions:?}");
        // Another name on this card is malformed.
        let ls = run(&[&"ls", &"--json", &path]).expect(2).json();
        let mut names = ls["names"].list().iter();
        let listed = names.find(|name| name["name"].text() == "road.bin");
        assert_eq!(listed.unwrap()["size"].number(), road.size, "{versions:?}");
    }
}

/// A file by the published tools that reaches its second direct node, inline ones and one that isn't any more.
#[test]
fn published_files() {
    let mut random = Random::new(6);
    let len = (873 + 1018) * BLOCK_SIZE + 4097;
    let files: [File; 4] = [
        (b"long".to_vec(), random.bytes(len)),
        (b"inline".to_vec(), random.bytes(LONGEST_INLINE)),
        (b"not inline".to_vec(), random.bytes(LONGEST_INLINE + 1)),
        (b"empty".to_vec(), Vec::new()),
    ];
    let image = filled_on(100, 1_700_000_000, &files);
    let disk = OnDisk::new(image.clone());
    for index in [0, 1, 872, 873, 1890, 1891, 1892] {
        assert_eq!(expect_json(&disk, &image, b"long", index), 0);
        let bytes = files[0].1.chunks(BLOCK_SIZE).nth(index as usize).unwrap();
        let output = disk.scratch.path("bytes");
        run(&[&"pull", &"-o", &output, &disk.path(), &"long", &index]).expect(0);
        assert!(
            fs::read(&output).unwrap() == bytes,
            "bytes of block {index}"
        );
    }
    assert_eq!(expect_json(&disk, &image, b"long", 1893), 3);
    assert_eq!(expect_json(&disk, &image, b"missing", 0), 2);
    assert_eq!(expect_json(&disk, &image, b"empty", 0), 3);
    // Of an inline one no block of data is read.
    for ((name, bytes), blocks) in files[1..3].iter().zip([3, 4]) {
        let answers = [0, 1].map(|index| expect_json(&disk, &image, name, index));
        assert_eq!(answers, [0, 3]);
        let output = disk.scratch.path("bytes");
        let words: Words = &[&"pull", &"--json", &"-o", &output, &disk.path(), name, &"0"];
        let json = run(words).expect(0).json();
        assert_eq!(json["blocks"].list().len(), blocks, "in {json:?}");
        assert!(fs::read(&output).unwrap() == *bytes, "bytes of {json:?}");
    }
}

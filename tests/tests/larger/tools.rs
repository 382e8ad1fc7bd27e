//! What these tests rest on: images whose cost is what is written to them, and files that don't stay.

use std::fs::{self, File};
use std::os::unix::fs::MetadataExt;
use std::path::PathBuf;
use std::sync::mpsc::channel;
use std::thread;

use harptimber_tests::cards::image::Image;
use harptimber_tests::cards::knobs::Knobs;
use harptimber_tests::cards::layout::BLOCK_SIZE;
use harptimber_tests::cards::on_disk::OnDisk;
use harptimber_tests::cards::sparse::Sparse;
use harptimber_tests::system::{need_room, sparse_file};
use harptimber_tests::tools::published::Scratch;

/// An image of 16 GiB with some bytes in its first, middle and last blocks, and what these have.
fn image() -> (Image, Vec<(usize, Vec<u8>)>) {
    let mut image = Image::new(&Knobs::largest(2));
    let blocks = [2, 1_048_575, 1_048_576, 4_194_303];
    for block in blocks {
        image.put("last bytes", block, BLOCK_SIZE - 4, &block.to_le_bytes());
    }
    // A block that was written to and has zeros again is as good as one that wasn't.
    image.put("byte", 3_000_000, 7, &[1]);
    image.put("byte", 3_000_000, 7, &[0]);
    let all = copied(image.data());
    let places = blocks.map(|block| block as usize * BLOCK_SIZE);
    assert!(places
        .iter()
        .all(|place| all.iter().any(|(at, _)| at == place)));
    assert!(all.len() < 20, "two superblocks, a pack and four blocks");
    (image, all)
}

fn copied<'a>(data: impl Iterator<Item = (usize, &'a [u8])>) -> Vec<(usize, Vec<u8>)> {
    data.map(|(at, block)| (at, block.to_vec())).collect()
}

/// The same blocks are in a copy, in a file and in what is read from it. The file takes little room.
#[test]
fn images_are_kept() {
    let (image, written) = image();
    let copy = OnDisk::new(image.clone());
    let file = File::open(copy.path()).expect("the image");
    let made = file.metadata().expect("its size");
    assert_eq!(made.len(), 16 << 30);
    assert!(made.blocks() * 512 < 1 << 20, "room for {made:?}");
    let read = Sparse::read(&file);
    assert_eq!(read.len(), 16 << 30);
    for bytes in [&read, &read.clone()] {
        assert!(copied(bytes.data()) == written);
    }
}

/// A test that fails removes its files.
#[test]
fn files_go_with_a_panic() {
    let (sender, receiver) = channel::<PathBuf>();
    let failing = thread::spawn(move || {
        let disk = OnDisk::new(image().0);
        assert!(disk.path().exists());
        sender
            .send(disk.scratch.folder().to_path_buf())
            .expect("a path");
        panic!("as it should");
    });
    let folder = receiver.recv().expect("a path");
    assert!(failing.join().is_err());
    assert!(!folder.exists(), "{folder:?} is still there");
}

/// What a panic says.
fn said(work: impl FnOnce() + Send + 'static) -> String {
    let panic = thread::spawn(work).join().expect_err("a panic");
    panic.downcast_ref::<String>().expect("words").clone()
}

/// Without room for it nothing is written, and the message has both numbers.
#[test]
fn room_is_tested() {
    let scratch = Scratch::new();
    need_room(scratch.folder(), 1);
    let folder = scratch.folder().to_path_buf();
    let words = said(move || need_room(&folder, 1 << 60));
    assert!(
        words.contains(&format!("{} are needed", 1u64 << 60)),
        "{words}"
    );
    assert!(
        numbers(&words).any(|number| (1..1 << 60).contains(&number)),
        "{words}"
    );
    let path = scratch.path("long");
    let words = said(move || drop(sparse_file(&path, 1 << 63)));
    assert!(
        words.contains(&format!("can't have {} bytes", 1u64 << 63)),
        "{words}"
    );
    assert_eq!(fs::metadata(scratch.path("long")).expect("a file").len(), 0);
}

fn numbers(words: &str) -> impl Iterator<Item = u64> + '_ {
    words.split(' ').filter_map(|word| word.parse().ok())
}

//! A card of 16 GiB, of which a reader's blocks are read from a file by their numbers.

use std::fs::File;
use std::os::unix::fs::FileExt;

use harptimber_tests::calls::pulls::{Call, Outcome};
use harptimber_tests::calls::readers::{started, Read};
use harptimber_tests::cards::card::Card;
use harptimber_tests::cards::directory::Dentry;
use harptimber_tests::cards::knobs::Knobs;
use harptimber_tests::cards::layout::{BLOCK_SIZE, SEGMENT_BLOCKS};
use harptimber_tests::cards::on_disk::OnDisk;
use harptimber_tests::cards::one_file::NAME;
use harptimber_tests::trial::{Random, Trial};

/// Behind a direct node of 923 addresses.
const INDEX: u32 = 1000;

/// A file in the last blocks of the largest card.
fn on_disk() -> OnDisk {
    let knobs = Knobs::largest(2);
    let end = knobs.areas().main_end;
    let free = (end - SEGMENT_BLOCKS..end).collect();
    let mut card = Card::within(knobs, Random::new(1), free);
    let ino = card.add_file(0, u64::from(INDEX + 1) * BLOCK_SIZE as u64);
    card.add_block(ino, INDEX);
    card.add_root(0, 1);
    card.link(0, 0, &Dentry::new(NAME, ino));
    OnDisk::new(card.image)
}

#[test]
fn blocks_of_a_file() {
    let mut trial = Trial::new("reader of a file of 16 GiB");
    let disk = on_disk();
    let file = File::open(disk.path()).expect("the image");
    for (name, index) in [(NAME, INDEX), (NAME, 0), (NAME, INDEX + 1), (b"road", 0)] {
        let call = Call::new(&disk.image, name, index);
        let read = Read::fed(started(&call), 1, |block| {
            let mut bytes = [0; BLOCK_SIZE];
            let at = u64::from(block) * BLOCK_SIZE as u64;
            file.read_exact_at(&mut bytes, at).expect("a block");
            bytes
        });
        let pull = Outcome::of(harptimber_tests::pull, &call, call.least());
        trial.compare(&call, read.outcome(call.least()), pull);
        let far = read.asked.iter().filter(|&&block| block > 4_193_000);
        assert!(far.count() >= 2, "{:?}", read.asked);
    }
    trial.finish(4);
}

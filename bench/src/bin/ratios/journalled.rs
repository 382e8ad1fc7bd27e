//! Cards by the number of entries in the NAT journal.

use harptimber_tests::cards::card::{Card, ROOT};
use harptimber_tests::cards::directory::Dentry;
use harptimber_tests::cards::knobs::{Knobs, Pack};
use harptimber_tests::trial::Random;

pub const NAME: &str = "road.bin";

/// A card, and the number of the file's inode.
pub struct Journalled {
    pub image: Vec<u8>,
    pub inode: u32,
}

/// A card of 16 MB with two such packs, the second in use. The entries have different numbers. The root's isn't
/// among them and the file's is the last, so that both are sought through the whole journal.
pub fn journalled(pack: &Pack, entries: usize) -> Journalled {
    let with_version = |version| Pack {
        version,
        ..pack.clone().with_sit()
    };
    let knobs = Knobs {
        packs: [1, 2].map(|version| Some(with_version(version))),
        ..Knobs::sound()
    };
    let mut card = Card::new(knobs, Random::new(1));
    card.add_root(0, 1);
    let inode = card.add_file(0, 4096);
    card.add_block(inode, 0);
    card.link(0, 0, &Dentry::new(NAME.as_bytes(), inode));
    let others = (ROOT + 1..).filter(|&number| number != inode);
    let mut numbers: Vec<u32> = others.take(entries).collect();
    if let Some(last) = numbers.last_mut() {
        *last = inode;
    }
    card.journal(&numbers);
    Journalled {
        image: card.image.bytes().to_vec(),
        inode,
    }
}

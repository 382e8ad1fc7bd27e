//! Pulls and lookups by the versions of both packs. The second one is in use.

use crate::calls::{first_block, lookups, OFTEN};
use harptimber_bench::agreed::Agreed;
use harptimber_bench::grid::Grid;
use harptimber_tests::cards::card;
use harptimber_tests::cards::directory::Dentry;
use harptimber_tests::cards::knobs::{Knobs, Pack};
use harptimber_tests::trial::Random;

const NAME: &str = "road.bin";

/// Plain, wrapped, and without a first pack.
const VERSIONS: [[Option<u64>; 2]; 3] = [
    [Some(1), Some(2)],
    [Some(u64::MAX), Some(0)],
    [None, Some(2)],
];

pub fn heads() -> impl Iterator<Item = String> {
    let head = |version: Option<u64>| version.map_or("none".to_string(), |v| format!("{v:X}"));
    VERSIONS
        .iter()
        .map(move |versions| versions.map(head).join(", "))
}

/// The card of one column, and the number of the file's inode.
struct Card {
    image: Vec<u8>,
    inode: u32,
}

/// Grids of pulls and of lookups.
pub fn by_versions(agreed: &mut Agreed) -> [Grid; 2] {
    let cards = VERSIONS.map(card);
    let (mut pulls, mut found) = (Vec::new(), Vec::new());
    for (Card { image, inode }, head) in cards.iter().zip(heads()) {
        let what = |call| format!("{call} with the versions {head}");
        pulls.push(first_block(image, NAME, &what("a pull"), agreed));
        found.push(lookups(image, *inode, &what("a lookup"), agreed));
    }
    [pulls, found].map(|columns| Grid::of(OFTEN, columns))
}

/// A card of 16 MB, the same in each column but for the versions. The first pack doesn't lead to the file.
fn card(versions: [Option<u64>; 2]) -> Card {
    let pack = |which: usize| {
        let nat_map = vec![[0x00, 0xFF][which]; 64];
        let version = versions[which]?;
        Some(Pack {
            nat_map,
            ..Pack::compact(version)
        })
    };
    let knobs = Knobs {
        packs: [0, 1].map(pack),
        ..Knobs::sound()
    };
    let mut card = card::Card::new(knobs, Random::new(1));
    card.add_root(0, 1);
    let inode = card.add_file(0, 4096);
    card.add_block(inode, 0);
    card.link(0, 0, &Dentry::new(NAME.as_bytes(), inode));
    Card {
        image: card.image.bytes().to_vec(),
        inode,
    }
}

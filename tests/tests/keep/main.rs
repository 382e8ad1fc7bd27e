//! Keep file: writing, reading, and comparing one with a card. That it says what a compare with the kept card says is
//! looked at wherever compares are: `calls::compares` has it beside each.

mod bytes;
mod call;
mod cards;
mod lengths;
mod lists;
mod random;
mod rooms;
mod written;

use harptimber_tests::calls::keep_parts::Parts;
use harptimber_tests::calls::pulls::{Call, Outcome};
use harptimber_tests::cards::card::ROOT;
use harptimber_tests::cards::folders::{Folders, Shape};
use harptimber_tests::cards::image::Image;
use harptimber_tests::cards::stops::INDEX;
use harptimber_tests::sizes::NAMES_MOST;
use harptimber_tests::trial::Random;

const EIGHT: usize = NAMES_MOST as usize;

/// A card, and the file of a pull from it.
struct Source {
    image: Image,
    parts: Parts,
}

impl Source {
    fn new(image: Image, path: &[u8], index: u32) -> Source {
        let call = Call::new(&image, path, index);
        let pull = Outcome::of(harptimber_tests::pull, &call, call.least());
        let parts = Parts::of_pull(&call, &pull);
        Source { image, parts }
    }

    /// It has to have this answer, and as many nodes and blocks.
    fn expect(self, answer: u32, nodes: usize, blocks: usize) -> Source {
        let parts = &self.parts;
        let lists = (parts.nodes.len(), parts.blocks.len());
        assert_eq!((parts.pull[1], lists), (answer, (nodes, blocks)));
        self
    }

    /// Data behind a direct node, in a folder.
    fn data(random: &mut Random) -> Source {
        let folders = Folders::new(random, &[Shape::PLAIN; 2], INDEX);
        let path = folders.path();
        Source::new(folders.card.image, &path, INDEX).expect(0, 4, 7)
    }

    /// A missing name.
    fn missing(random: &mut Random) -> Source {
        let folders = Folders::new(random, &[Shape::PLAIN], INDEX);
        Source::new(folders.card.image, b"missing", 7).expect(2, 1, 2)
    }

    /// The root's number isn't in use: no block is read.
    fn no_blocks(random: &mut Random) -> Source {
        let mut folders = Folders::new(random, &[Shape::PLAIN], INDEX);
        folders.card.set_entry(ROOT, ROOT, 0);
        folders.card.image.settle("no root");
        Source::new(folders.card.image, b"road", 0).expect(9, 1, 0)
    }

    fn all(random: &mut Random) -> [Source; 3] {
        [Source::data, Source::missing, Source::no_blocks].map(|source| source(random))
    }
}

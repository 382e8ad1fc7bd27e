//! A card whose last block is one that a pull reads.

use harptimber_tests::calls::guard_script::Script;
use harptimber_tests::calls::lookups::{distinct_entry, journalled};
use harptimber_tests::calls::pulls::{lists, Call};
use harptimber_tests::cards::card::{Card, ROOT};
use harptimber_tests::cards::damage::HARMS;
use harptimber_tests::cards::directory::{in_slot, Dentry};
use harptimber_tests::cards::knobs::Knobs;
use harptimber_tests::cards::layout::dentry::{NAME_LEN, NR_DENTRY_IN_BLOCK};
use harptimber_tests::cards::layout::inode::ADDRESSES;
use harptimber_tests::cards::layout::journal::MOST_ENTRIES;
use harptimber_tests::cards::layout::{BLOCK_SIZE, SEGMENT_BLOCKS};
use harptimber_tests::trial::Random;

pub(crate) const NAME: &[u8] = b"road.bin";

/// A card that ends with its main area. The file has one block, behind a direct node.
pub(crate) struct Tight {
    pub card: Card,
    ino: u32,
}

/// What of a pull is the image's last block.
#[derive(Clone, Copy, Debug)]
enum Last {
    Root,
    Directory,
    Inode,
    Node,
    Data,
}

impl Tight {
    pub fn new() -> Tight {
        Tight::on(Card::new(Knobs::sound(), Random::new(1)))
    }

    /// A card of the most blocks, all of it in its last segment.
    pub fn largest() -> Tight {
        let knobs = Knobs::largest(2);
        let end = knobs.areas().main_end;
        let free = (end - SEGMENT_BLOCKS..end - 1).collect();
        let tight = Tight::on(Card::within(knobs, Random::new(1), free));
        assert_eq!(tight.last_block(), 4_194_303);
        assert_eq!(tight.card.image.bytes().len(), 16 << 30);
        tight
    }

    fn on(mut card: Card) -> Tight {
        card.add_root(0, 1);
        let ino = card.add_file(0, (u64::from(ADDRESSES) + 1) * BLOCK_SIZE as u64);
        card.add_block(ino, ADDRESSES);
        card.link(0, 0, &Dentry::new(NAME, ino));
        card.image.settle("one block");
        Tight { card, ino }
    }

    fn last_block(&self) -> u32 {
        self.card.image.areas.main_end - 1
    }

    /// Copies a block to the image's end, and leads there.
    fn move_to_end(&mut self, which: Last) {
        let (ino, last) = (self.ino, self.last_block());
        let way = self.card.way(ino, ADDRESSES);
        let node = way[1];
        let (block, nid, of) = match which {
            Last::Root => (self.card.inode_block(ROOT), ROOT, ROOT),
            Last::Inode => (way[0].node.block, ino, ino),
            Last::Node => (node.node.block, node.node.nid, ino),
            Last::Directory => (self.card.directory[&0], 0, 0),
            Last::Data => (self.card.image.get(node.node.block, node.slot) as u32, 0, 0),
        };
        let bytes = self.card.image.block(block).to_vec();
        self.card.image.put("moved block", last, 0, &bytes);
        match which {
            Last::Directory => self.card.set_address(ROOT, 0, last),
            Last::Data => self.card.set_address(ino, ADDRESSES, last),
            _ => self.card.set_entry(nid, of, last),
        }
    }

    /// Pulls with each kind of block at the image's very end.
    fn pulls(&mut self, script: &mut Script) {
        let sound = self.card.image.clone();
        script.card(&sound);
        for last in [
            Last::Root,
            Last::Inode,
            Last::Node,
            Last::Directory,
            Last::Data,
        ] {
            self.move_to_end(last);
            let answer = script.pull(&sound, &self.card.image, NAME, ADDRESSES);
            assert_eq!(answer, 0, "with the {last:?} at the end");
            self.card.image.undo(0);
        }
    }

    /// A pull that reads no block: the root's number isn't in use.
    fn no_blocks(&mut self, script: &mut Script) {
        let sound = self.card.image.clone();
        self.card.set_entry(ROOT, ROOT, 0);
        let (_, blocks) = lists(&Call::new(&self.card.image, NAME, 0));
        assert!(blocks.is_empty(), "{blocks:?}");
        assert_eq!(script.pull(&sound, &self.card.image, NAME, 0), 9);
        self.card.image.undo(0);
    }

    /// Damaged volumes, and a full journal: as it is, and with its first number once more at its end.
    fn damaged(&mut self, script: &mut Script) {
        let sound = self.card.image.clone();
        let image = &mut self.card.image;
        for harm in HARMS {
            harm(image, 0);
            assert_eq!(script.pull(&sound, image, NAME, ADDRESSES), 8);
            image.undo(0);
        }
        let past = self.card.node_numbers;
        let numbers = past..past + MOST_ENTRIES as u32;
        let mut journal: Vec<_> = numbers
            .map(|nid| journalled(nid, distinct_entry(0)))
            .collect();
        for (last, answer) in [(u32::MAX, 0), (past, 8)] {
            journal[MOST_ENTRIES - 1].nid = last;
            image.set_journal(0, &journal);
            assert_eq!(script.pull(&sound, image, NAME, ADDRESSES), answer);
            image.undo(0);
        }
    }

    /// Entries in the last slots of a directory block at the image's end, that fit and that don't.
    fn slots(&mut self, script: &mut Script) {
        let sound = self.card.image.clone();
        let long = [b'x'; 255];
        for (name, len) in [
            (NAME, 8),
            (NAME, 9),
            (NAME, 0),
            (NAME, 65535),
            (&long, 255),
            (&long, 248),
        ] {
            for from_end in [1, 2, 31, 32, 33] {
                self.move_to_end(Last::Directory);
                let (last, image) = (self.last_block(), &mut self.card.image);
                image.clear_slots(last);
                let slot = NR_DENTRY_IN_BLOCK - from_end;
                image.put_dentry(last, slot, &Dentry::new(name, self.ino));
                image.set(last, in_slot(NAME_LEN, slot), len);
                script.pull(&sound, image, name, ADDRESSES);
                image.undo(0);
            }
        }
    }

    /// Numbers at the ends of the table, and images that end inside each area.
    fn ends(&self, script: &mut Script) {
        let image = &self.card.image;
        let numbers = self.card.node_numbers;
        for number in [0, 1, 454, 455, numbers - 1, numbers, u32::MAX] {
            script.node(image, number);
        }
        let areas = image.areas;
        let middles =
            [areas.cp, areas.sit, areas.nat, areas.ssa, areas.main].map(|start| start + 256);
        let blocks = [
            0,
            1,
            2,
            areas.cp,
            areas.cp + 512,
            areas.main,
            areas.main_end - 1,
        ];
        for block in blocks.into_iter().chain(middles) {
            let len = block as usize * BLOCK_SIZE;
            for len in [len, len + 1, len + BLOCK_SIZE - 1] {
                script.cut(image, len, NAME, ADDRESSES);
            }
        }
    }

    pub fn calls(&mut self, script: &mut Script) {
        self.pulls(script);
        self.slots(script);
        self.no_blocks(script);
        self.damaged(script);
        self.ends(script);
    }
}

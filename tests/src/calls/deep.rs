//! Pulls from a deep directory.

use crate::calls::pulls::{Call, Pulls};
use crate::cards::card::ROOT;
use crate::cards::deep::Deep;
use crate::cards::directory::{in_slot, MOST_DEPTH};
use crate::cards::layout::dentry::NAME_LEN;

impl Deep {
    /// Expects this answer after a search of so many blocks.
    pub fn expect_stopped(&self, pulls: &mut Pulls, buckets: usize, answer: u32) {
        let (nodes, blocks) = self.lists(buckets);
        let call = Call::new(&self.card.image, &self.name, 0);
        pulls.expect_lists(&call, answer, &nodes, &blocks);
    }

    /// Expects that the name isn't found in so many blocks.
    pub fn expect_missing(&self, pulls: &mut Pulls, buckets: usize) {
        self.expect_stopped(pulls, buckets, 2);
    }

    /// Expects that the file is found in a block, and its one byte.
    pub fn expect_found(&self, pulls: &mut Pulls, bucket: usize) {
        let (mut nodes, mut blocks) = self.lists(bucket + 1);
        nodes.push(self.ino);
        blocks.extend([self.card.inode_block(self.ino), self.data]);
        let image = &self.card.image;
        let call = Call::new(image, &self.name, 0);
        pulls.expect_lists(&call, 0, &nodes, &blocks);
        pulls.expect_data(image, &self.name, 0, &image.block(self.data)[..1]);
    }

    /// The file in each block to which its name leads, with a depth that reaches it or doesn't.
    pub fn try_every_block(&mut self, pulls: &mut Pulls) {
        for bucket in 0..self.buckets.len() {
            let level = self.buckets[bucket].level;
            self.link(bucket, self.ino);
            self.set_depth(level);
            self.expect_missing(pulls, self.before(level));
            for depth in [level + 1, level + 2, MOST_DEPTH] {
                self.set_depth(depth.min(MOST_DEPTH));
                self.expect_found(pulls, bucket);
            }
            self.card.image.undo(0);
        }
    }

    /// From the first hash level on that is out of reach nothing is looked up or read.
    pub fn try_every_depth(&mut self, pulls: &mut Pulls) {
        for depth in 0..=MOST_DEPTH {
            self.set_depth(depth);
            self.expect_missing(pulls, self.before(depth));
        }
        self.set_depth(MOST_DEPTH + 1);
        self.expect_stopped(pulls, 0, 12);
        self.card.image.undo(0);
    }

    /// Of entries with the name in two blocks the one in the first decides.
    pub fn try_twice(&mut self, pulls: &mut Pulls, [first, second]: [usize; 2]) {
        self.link(second, ROOT);
        self.link(first, self.ino);
        self.expect_found(pulls, first);
        self.link(second, self.ino);
        self.link(first, ROOT);
        self.expect_stopped(pulls, first + 1, 12);
        self.card.image.undo(0);
    }

    /// A hole by each number and by the address on the way to a block. An entry behind it isn't found, one in a later
    /// block is.
    pub fn try_holes(&mut self, pulls: &mut Pulls) {
        let last = self.buckets.len() - 1;
        for bucket in 0..last {
            let way = self.buckets[bucket].way.clone();
            let numbers = way.iter().map(|&passage| (passage, 0));
            let address = (way[way.len() - 1], u64::from(u32::MAX));
            for (passage, value) in numbers.chain([address]) {
                self.card.image.set(passage.node.block, passage.slot, value);
                self.link(bucket, self.ino);
                pulls.expect(&self.card.image, &self.name, 0, 2);
                self.card.image.undo(0);
            }
            let passage = way[way.len() - 1];
            self.card.image.set(passage.node.block, passage.slot, 0);
            self.link(last, self.ino);
            pulls.expect(&self.card.image, &self.name, 0, 0);
            self.card.image.undo(0);
        }
    }

    /// An address outside the main area ends the search; one after the match isn't come by.
    pub fn try_addresses_outside(&mut self, pulls: &mut Pulls, addresses: &[u32]) {
        for bucket in 0..self.buckets.len() - 1 {
            let passage = *self.buckets[bucket].way.last().expect("a node");
            for &address in addresses {
                let (block, slot) = (passage.node.block, passage.slot);
                self.card.image.set(block, slot, u64::from(address));
                self.link(bucket + 1, self.ino);
                pulls.expect(&self.card.image, &self.name, 0, 13);
                if bucket > 0 {
                    self.link(bucket - 1, self.ino);
                    self.expect_found(pulls, bucket - 1);
                }
                self.card.image.undo(0);
            }
        }
    }

    /// A malformed slot ends the search in its block; one after the match isn't come by.
    pub fn try_malformed(&mut self, pulls: &mut Pulls) {
        for bucket in 0..self.buckets.len() {
            let block = self.buckets[bucket].block;
            self.link_in(block, 213, self.ino);
            self.card.image.set(block, in_slot(NAME_LEN, 213), 9);
            if bucket + 1 < self.buckets.len() {
                self.link(bucket + 1, self.ino);
            }
            self.expect_stopped(pulls, bucket + 1, 14);
            if bucket > 0 {
                self.link(bucket - 1, self.ino);
                self.expect_found(pulls, bucket - 1);
            }
            self.card.image.undo(0);
        }
    }
}

//! Decoys on large cards. A reader that counts the bytes before a block in too few bits looks elsewhere for it: there
//! it finds a block that is as good as the right one, so that it answers wrongly instead of failing.

use std::collections::BTreeSet;

use crate::cards::image::Image;
use crate::cards::layout::BLOCK_SIZE;

/// How many bits of a block's number stay: 20 if bytes are counted in 32 bits, 19 in 31, 21 in 33. With 18 every block
/// had its number when 1 GiB was the most that is read.
const BITS_LEFT: [u32; 4] = [18, 19, 20, 21];

/// Where such readers look for a block.
pub fn decoy_places(block: u32) -> BTreeSet<u32> {
    let places = BITS_LEFT.map(|bits| block % (1 << bits));
    places.into_iter().filter(|&place| place != block).collect()
}

impl Image {
    /// Puts decoys from another image, in which they stand where the blocks do that they are for. Returns their places.
    pub fn put_decoys(&mut self, others: &Image) -> BTreeSet<u32> {
        let mut all = BTreeSet::new();
        for (at, bytes) in others.data() {
            for place in decoy_places((at / BLOCK_SIZE) as u32) {
                let free = place > 1 && self.block(place) == [0; BLOCK_SIZE];
                assert!(free, "block {place} is in use");
                self.put("decoy", place, 0, bytes);
                all.insert(place);
            }
        }
        all
    }
}

//! What is said of two checkpoint packs by their versions, and a card that has two.

use crate::cards::image::Image;
use crate::cards::knobs::{Knobs, Pack};
use crate::cards::layout::journal::JournalEntry;
use crate::cards::layout::nat::NatEntry;
use crate::cards::layout::slots::I_ADDR;
use crate::cards::versions::Apart;
use crate::program::card::{ProgramCard, Put, ROAD};

/// What info says behind the version of the pack in use: why, where that is the smaller number.
pub fn words_on_choice(versions: [u64; 2]) -> String {
    match Apart::of(versions) {
        Apart::Newer {
            which,
            wrapped: true,
        } => {
            let steps = versions[which].wrapping_sub(versions[1 - which]);
            format!(
                ", newer than the other's by {steps}: versions go on from 0xffffffffffffffff to 0"
            )
        }
        Apart::Half {
            second_greater: true,
        } => ", exactly 2^63 from the other's: neither is newer, so the first pack is used"
            .to_string(),
        _ => String::new(),
    }
}

/// The road as a pack has it, and its inode's block there.
pub struct RoadAt {
    pub road: Put,
    pub inode: u32,
}

/// So far from the road's start is the byte that differs.
pub const MOVED_BYTE: usize = 17;

/// Adds a second pack to an image of the card: by its journal the road's inode has moved, and there its first block
/// is another one, in which a byte differs.
pub fn add_moved_road(card: &mut ProgramCard, image: &mut Image, version: u64) -> RoadAt {
    let mut road = card.file(ROAD).clone();
    let old_inode = card.card.inode_block(road.ino);
    let [inode, first] = [0; 2].map(|_| card.card.free_block());
    let old_first = road.blocks.insert(0, first).expect("a first block");
    for (from, to) in [(old_inode, inode), (old_first, first)] {
        let bytes = image.block(from).to_vec();
        image.put("moved", to, 0, &bytes);
    }
    let byte = image.block(first)[MOVED_BYTE];
    image.put("byte", first, MOVED_BYTE, &[!byte]);
    image.set(inode, I_ADDR, first.into());
    let entry = NatEntry {
        version: 0,
        ino: road.ino,
        block_addr: inode,
    };
    let pack = Pack {
        version,
        journal: vec![JournalEntry {
            nid: road.ino,
            entry,
        }],
        ..card.card.pack.clone()
    };
    image.add_pack(1, &pack, &Knobs::sound());
    RoadAt { road, inode }
}

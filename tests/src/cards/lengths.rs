//! Lengths of images around the bounds, by the papers' own numbers.

use crate::cards::image::Image;
use crate::cards::knobs::Knobs;
use crate::cards::layout::BLOCK_SIZE;

/// So many blocks `Knobs::sound` has.
const SOUND: u32 = 4098;

/// Numbers of blocks, and whether an image may have so many: "4,194,304 is in shape, one more is 4".
const BLOCKS: [(u32, bool); 17] = [
    // The most that were read before.
    (262_143, true),
    (262_144, true),
    (262_145, true),
    // 2^31 bytes, and 2^32, which are 0 in 32 bits.
    (524_288, true),
    (1_048_575, true),
    (1_048_576, true),
    (1_048_577, true),
    (1_048_578, true),
    (4_194_303, true),
    (4_194_304, true),
    (4_194_305, false),
    // In 32 bits these would be in shape, and a card would open.
    (4_194_306, false),
    (4_194_304 + SOUND, false),
    (8_388_607, false),
    (8_388_608, false),
    (8_388_610, false),
    (LONGEST, false),
];

const LONGEST: u32 = 8_388_608 + SOUND;

/// Bytes by which a length isn't whole.
const LESS: [usize; 7] = [1, 2, 4, 512, 1024, BLOCK_SIZE / 2, BLOCK_SIZE - 1];

/// How many lengths there are below.
pub const LENGTHS: u64 = (BLOCKS.len() * (1 + LESS.len())) as u64;

/// Lengths in bytes, and whether each is in shape.
pub fn lengths() -> impl Iterator<Item = (usize, bool)> {
    BLOCKS.into_iter().flat_map(|(blocks, in_shape)| {
        let whole = blocks as usize * BLOCK_SIZE;
        let less = LESS.map(|less| (whole - less, false));
        [(whole, in_shape)].into_iter().chain(less)
    })
}

impl Image {
    /// As long as the longest of these.
    pub fn to_be_cut(knobs: Knobs) -> Image {
        assert_eq!(knobs.image_blocks(), SOUND);
        Image::new(&knobs.in_image_of(LONGEST))
    }

    /// A sound card without a root and one without a superblock, that are longer than they need to be; each with what a
    /// pull answers to it.
    pub fn rootless_to_be_cut() -> [(Image, u32); 2] {
        let nothing = Knobs {
            copies: [false, false],
            ..Knobs::sound()
        };
        [(Knobs::sound(), 9), (nothing, 5)].map(|(knobs, answer)| (Image::to_be_cut(knobs), answer))
    }
}

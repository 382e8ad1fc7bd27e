//! Cards of three sizes that the published tools write.

use harptimber_bench::agreed::Agreed;
use harptimber_bench::pulls::{self, Lent, Pull, Pulled, BLOCK_SIZE};
use harptimber_tests::cards::sparse::Sparse;
use harptimber_tests::system::mapped;
use harptimber_tests::tools::published::{file_with, File, Scratch, LARGEST};
use harptimber_tests::trial::Random;
use std::fs;

/// By itself mkfs.f2fs holds back so much of 64 MB that sload.f2fs gets no file of some MB onto it.
pub const OPTIONS: &str = "-o 70";
/// 64 MB, 1 GiB and, as large as a card may be, 16 GiB.
const MEGABYTES: [usize; 3] = [64, 1024, LARGEST];

/// The file of a card's copy, beside the card.
pub const COPY: &str = "copy";

/// A file that every card has: blocks in its inode and behind both of its direct nodes.
pub const ROAD: &str = "road.bin";
pub const ROAD_BLOCKS: u32 = 1920;
/// A small one, which sload.f2fs puts into its inode.
pub const TABLE: &str = "friction.tbl";
const TABLE_BYTES: usize = 2560;
/// One of a block, whose path has as many names as one can have.
pub const LAP: &str = "runs/2026/wet/north/left/front/2/lap.bin";
/// One that reaches an indirect node too. It is on the larger cards, which are all but the first.
pub const SURVEY: &str = "survey.bin";
pub const SURVEY_BLOCKS: u32 = 8192;
pub const WITHOUT_SURVEY: usize = 1;
/// The survey's first block behind its indirect node.
pub const FIRST_INDIRECT: u32 = 873 + 2 * 1018;

/// Both sides of a measure, in the order of the table.
pub const ARCHIVE: usize = 0;
pub const REFERENCE: usize = 1;
pub const PULLS: [Pull; 2] = [archive, pulls::reference];
pub const SIDES: [&str; 2] = ["the archive", "reference/"];

fn archive(image: &[u8], name: &[u8], index: u32, lent: &mut Lent) -> Pulled {
    let (block, nodes, blocks) = (&mut lent.block, &mut lent.nodes, &mut lent.blocks);
    let pulled = harptimber_tests::pull(image, name, index, block, nodes, blocks);
    Pulled {
        answer: pulled.answer,
        byte_count: pulled.byte_count,
        node_count: pulled.node_count,
        block_count: pulled.block_count,
    }
}

pub struct Card {
    megabytes: usize,
    /// The image file, and the files that it was filled with.
    pub scratch: Scratch,
    pub image: &'static [u8],
    /// A second file with the same bytes, as the new card of a compare.
    pub copy: &'static [u8],
}

impl Card {
    pub fn new(megabytes: usize, files: &[File]) -> Card {
        let scratch = file_with(megabytes, OPTIONS, files);
        let path = scratch.image_path();
        let copy = scratch.path(COPY);
        let file = fs::File::open(&path).expect("a card");
        Sparse::read(&file).save(&copy);
        Card {
            megabytes,
            scratch,
            image: mapped(&path),
            copy: mapped(&copy),
        }
    }

    pub fn size(&self) -> String {
        match (self.megabytes / 1024, self.megabytes % 1024) {
            (gigabytes @ 1.., 0) => format!("{gigabytes} GiB"),
            _ => format!("{} MB", self.megabytes),
        }
    }

    /// Both sides have to give a file's very bytes.
    fn check(&self, (name, bytes): &File, agreed: &mut Agreed) {
        for (side, pull) in SIDES.into_iter().zip(PULLS) {
            let mut pulled: Vec<u8> = Vec::with_capacity(bytes.len());
            let ended = pulls::whole(pull, self.image, name, |part| pulled.extend(part));
            let what = format!("a whole file by {side} on {}", self.size());
            agreed.see(ended == 3 && pulled == *bytes, &what);
        }
    }
}

/// The survey comes last: the smallest card is without it.
pub fn files() -> [File; 4] {
    let mut random = Random::new(1);
    [
        (ROAD, ROAD_BLOCKS as usize * BLOCK_SIZE),
        (TABLE, TABLE_BYTES),
        (LAP, BLOCK_SIZE),
        (SURVEY, SURVEY_BLOCKS as usize * BLOCK_SIZE),
    ]
    .map(|(name, len)| (name.as_bytes().to_vec(), random.bytes(len)))
}

pub fn cards(files: &[File; 4], agreed: &mut Agreed) -> Vec<Card> {
    let card = |(n, megabytes)| {
        let files = &files[..if n < WITHOUT_SURVEY { 3 } else { 4 }];
        let card = Card::new(megabytes, files);
        files.iter().for_each(|file| card.check(file, agreed));
        card
    };
    MEGABYTES.into_iter().enumerate().map(card).collect()
}

//! A card for the program's tests: files with data and holes, and one for each answer that refuses a
//! pull after opening.

use std::collections::BTreeMap;
use std::ops::Range;
use std::sync::Arc;

use reference::hash::raw_hash;

use crate::calls::pulls::{reference_pull, Call, Outcome};
use crate::cards::card::Card;
use crate::cards::directory::{Dentry, DirLevel};
use crate::cards::image::Image;
use crate::cards::knobs::{Knobs, Pack};
use crate::cards::layout::inode::{ADDRESSES, I_MODE, S_IFDIR};
use crate::cards::layout::inode::{
    INLINE_AT, INLINE_DENTRY, INLINE_ROOM, INLINE_ROOM_WITH_XATTR, INLINE_XATTR,
};
use crate::cards::layout::nat::MAP_BYTES_PER_SEGMENT;
use crate::cards::layout::sit::SitEntry;
use crate::cards::layout::{footer, BLOCK_SIZE, SEGMENT_BLOCKS};
use crate::cards::on_disk::{OnDisk, Shared};
use crate::cards::one_file::small_knobs;
use crate::cards::random::shuffle;
use crate::program::inline::put_inline;
use crate::trial::Random;

pub const ROAD: &[u8] = b"road.bin";
pub const EMPTY: &[u8] = b"empty";
/// Reaches behind its inode, into the first direct node.
pub const LONG: &[u8] = b"long";
/// Has lines of 16 bytes that repeat.
pub const REPEATING: &[u8] = b"repeating";
/// Its third block has an address outside the main area.
pub const OUTSIDE: &[u8] = b"outside";
/// Inline, of 100 bytes; as long as there is room, beside attributes too; and empty.
pub const INLINE: &[u8] = b"inline";
pub const FULL: &[u8] = b"inline, full";
pub const FULL_BESIDE_XATTR: &[u8] = b"inline, full beside attributes";
pub const INLINE_EMPTY: &[u8] = b"inline, empty";
/// One byte longer than there is room, and the same beside attributes; and marked as an inline directory.
pub const TOO_LONG: &[u8] = b"inline, too long";
pub const TOO_LONG_BESIDE_XATTR: &[u8] = b"inline, too long beside attributes";
pub const MARKED: &[u8] = b"marked";

/// Other names of the road, some of which JSON can't have as they are.
pub const NAMES: [&[u8]; 9] = [
    b"say \"so\"",
    b"back\\slash\\",
    b"\x01\x02\x1B\x1Ftab\tline\nreturn\rback\x08form\x0C\x7F",
    "Stra\u{DF}e \u{2603} \u{1D11E}".as_bytes(),
    b"caf\xE9",
    // Cut short, too long a form, a surrogate, past the last character, and no first bytes.
    b"\xE2\x98|\xC0\x80|\xED\xA0\x80|\xF4\x90\x80\x80|\x80\xFF",
    b"-o",
    b"12",
    b"' ; exit 9 '",
];

/// Numbers of blocks around what the program pulls in one run, and in two.
pub const AROUND_RUNS: [u32; 6] = [511, 512, 513, 1023, 1024, 1025];

/// As many as mkfs.f2fs gives a card of 16 GiB.
const FAR_NAT_SEGMENTS: u32 = 36;

/// A file as it was put on a card.
#[derive(Clone, Debug)]
pub struct Put {
    pub name: Vec<u8>,
    pub ino: u32,
    pub size: u64,
    /// By index; what is missing is a hole.
    pub blocks: BTreeMap<u32, u32>,
    /// The inode's block, if that has the file's bytes.
    pub inline: Option<u32>,
}

impl Put {
    pub fn block_count(&self) -> u32 {
        self.size.div_ceil(BLOCK_SIZE as u64) as u32
    }

    /// How many of its blocks are holes.
    pub fn hole_count(&self) -> u32 {
        match self.inline {
            Some(_) => 0,
            None => self.block_count() - self.blocks.len() as u32,
        }
    }

    /// The bytes of a block that are the file's.
    pub fn block(&self, image: &Image, index: u32) -> Vec<u8> {
        let block = self.blocks.get(&index).map(|&block| image.block(block));
        let inline = self.inline.map(|inode| &image.block(inode)[INLINE_AT..]);
        let mut bytes = inline.or(block).map_or(vec![0; BLOCK_SIZE], <[u8]>::to_vec);
        let rest = self.size - u64::from(index) * BLOCK_SIZE as u64;
        bytes.truncate(rest as usize);
        bytes
    }

    pub fn bytes(&self, image: &Image) -> Vec<u8> {
        let indexes = 0..self.block_count();
        indexes.flat_map(|index| self.block(image, index)).collect()
    }
}

/// A pull that is refused after opening: the name, the index and the answer.
pub type Refused = (Vec<u8>, u32, u32);

pub struct ProgramCard {
    pub card: Card,
    pub disk: OnDisk,
    /// Files that can be read whole.
    pub files: Vec<Put>,
    pub outside: Put,
    pub refused: Vec<Refused>,
    /// Node numbers that aren't in use: without an inode, and with one.
    pub unused: [u32; 2],
}

impl ProgramCard {
    pub fn build() -> ProgramCard {
        ProgramCard::leveled(0)
    }

    /// The same with a directory level, at which each of the names has a block.
    pub fn leveled(level: u8) -> ProgramCard {
        ProgramCard::small(level, 0)
    }

    /// The same with an inline root directory, which has these flags besides. It has no malformed slot: that would end each
    /// search that comes to it.
    pub fn in_inline_root(flags: u64) -> ProgramCard {
        ProgramCard::small(0, INLINE_DENTRY | flags)
    }

    /// The same with files that end around where a run of pulls does, and with longer ones that are refused there.
    pub fn around_runs() -> ProgramCard {
        let mut built = ProgramCard::build();
        let outside = built.card.image.areas.main_end;
        for blocks in AROUND_RUNS {
            let size = u64::from(blocks) * BLOCK_SIZE as u64;
            let mut data = vec![0, 510, 511, 512, blocks - 1];
            data.sort();
            data.dedup();
            data.retain(|&index| index < blocks);
            for (name, size) in [("blocks", size), ("blocks less a byte", size - 1)] {
                let name = format!("{blocks} {name}").into_bytes();
                built.files.push(put(&mut built.card, &name, size, &data));
            }
            let name = format!("refused at {blocks}").into_bytes();
            let longer = size + 3 * BLOCK_SIZE as u64;
            let cut = put(&mut built.card, &name, longer, &[blocks - 1, blocks + 1]);
            built.card.set_address(cut.ino, blocks, outside);
            built.refused.push((name, blocks, 13));
        }
        built.card.image.settle("files around runs");
        built.disk = OnDisk::new(built.card.image.clone());
        built
    }

    fn small(level: u8, inline: u64) -> ProgramCard {
        let mut random = Random::new(11);
        let knobs = with_sit(small_knobs(&mut random));
        let segments = 0..knobs.main_segments;
        ProgramCard::on(Card::new(knobs, random), segments, level, inline)
    }

    /// The same on a card of the most blocks: all that its files have is in its last two segments, with the root's inode in
    /// the very last block.
    pub fn far() -> ProgramCard {
        let mut random = Random::new(12);
        let pack = Pack {
            nat_map: random.bytes((FAR_NAT_SEGMENTS * MAP_BYTES_PER_SEGMENT) as usize),
            ..Pack::compact(1)
        };
        let knobs = with_sit(Knobs::largest(FAR_NAT_SEGMENTS).with_pack(0, pack));
        let end = knobs.areas().main_end;
        let mut blocks: Vec<u32> = (end - 2 * SEGMENT_BLOCKS..end - 1).collect();
        shuffle(&mut random, &mut blocks);
        // The last of the list is used first.
        blocks.push(end - 1);
        let segments = knobs.main_segments - 2..knobs.main_segments;
        ProgramCard::on(Card::within(knobs, random, blocks), segments, 0, 0)
    }

    /// These segments have valid blocks, and the root directory this level and these inline flags.
    fn on(mut card: Card, segments: Range<u32>, level: u8, inline: u64) -> ProgramCard {
        card.add_root_with(DirLevel(level.into()), inline, 2);
        let files = readable(&mut card);
        let (outside, refused) = unreadable(&mut card);
        let unused = [0, 77].map(|ino| {
            let nid = card.free_number();
            card.set_entry(nid, ino, 0);
            nid
        });
        for segno in segments {
            card.image.set_sit_entry(segno, 0, &SitEntry::filled(300));
        }
        card.image.settle("a card for the program");
        ProgramCard {
            disk: OnDisk::new(card.image.clone()),
            card,
            files,
            outside,
            refused,
            unused,
        }
    }

    pub fn file(&self, name: &[u8]) -> &Put {
        let mut files = self.files.iter();
        files.find(|file| file.name == name).expect("a file")
    }

    /// A pull by the reference.
    pub fn pulled(&self, name: &[u8], index: u32) -> Outcome {
        pulled(&self.card.image, name, index)
    }

    /// Pulls of data, holes and what is refused, each answer from 0 to 3 and from 9 to 14 among them.
    pub fn calls(&self) -> Vec<(Vec<u8>, u32)> {
        let road = (0..=7).chain([u32::MAX]).map(|index| (ROAD, index));
        let long = [0, 1, 922, 923, 924, 925, 926].map(|index| (LONG, index));
        let inline = [(INLINE, 0), (INLINE, 1), (FULL, 0), (FULL_BESIDE_XATTR, 0)];
        let empty = [EMPTY, INLINE_EMPTY].map(|name| (name, 0));
        let found = road.chain(long).chain(inline).chain(empty);
        let found = found.map(|(name, index)| (name.to_vec(), index));
        let named = NAMES.map(|name| (name.to_vec(), 0));
        let refused = self
            .refused
            .iter()
            .map(|(name, index, _)| (name.clone(), *index));
        found.chain(named).chain(refused).collect()
    }
}

/// What its segments are judged by isn't junk.
fn with_sit(knobs: Knobs) -> Knobs {
    let packs = knobs.packs.map(|pack| pack.map(Pack::with_sit));
    Knobs { packs, ..knobs }
}

/// The card that the tests of a file share.
pub fn shared_card() -> Arc<ProgramCard> {
    static CARD: Shared<ProgramCard> = Shared::empty();
    CARD.get(ProgramCard::build)
}

/// A pull by the reference.
pub fn pulled(image: &Image, path: &[u8], index: u32) -> Outcome {
    let call = Call::new(image, path, index);
    Outcome::of(reference_pull, &call, call.least())
}

/// Adds a file with data at these indexes.
pub fn put(card: &mut Card, name: &[u8], size: u64, data: &[u32]) -> Put {
    let ino = card.add_file(0, size);
    let blocks = data
        .iter()
        .map(|&index| (index, card.add_block(ino, index)));
    let blocks = blocks.collect();
    card.link(0, 0, &Dentry::new(name, ino));
    Put {
        name: name.to_vec(),
        ino,
        size,
        blocks,
        inline: None,
    }
}

/// A block of zeros, and one of zeros and other lines, each of them several times.
fn put_repeating(card: &mut Card) -> Put {
    let repeating = put(card, REPEATING, 2 * BLOCK_SIZE as u64 - 5, &[0, 1]);
    let zeros = [0; BLOCK_SIZE];
    let mut mixed = zeros;
    mixed[160..1600].fill(b'|');
    mixed[1607] = 7;
    mixed[4000..].fill(b' ');
    for (index, bytes) in [(0, zeros), (1, mixed)] {
        card.image.put("bytes", repeating.blocks[&index], 0, &bytes);
    }
    repeating
}

fn readable(card: &mut Card) -> Vec<Put> {
    let block = BLOCK_SIZE as u64;
    let road = put(card, ROAD, 5 * block + 100, &[0, 1, 3, 5]);
    // A hole by its other address.
    card.set_address(road.ino, 4, u32::MAX);
    let longest = [b'n'; 255];
    let mut files = vec![
        put(card, b"one byte", 1, &[0]),
        put(card, b"4095", block - 1, &[0]),
        put(card, b"4096", block, &[0]),
        put(card, b"4097", block + 1, &[0, 1]),
        put(card, b"a hole", 2 * block - 1, &[]),
        put(card, EMPTY, 0, &[]),
        put(card, LONG, 926 * block - 3, &[0, 1, 922, 923, 925]),
        put(card, &longest, block, &[0]),
        put_inline(card, INLINE, 0, 100),
        put_inline(card, FULL, 0, INLINE_ROOM as u64),
        put_inline(
            card,
            FULL_BESIDE_XATTR,
            INLINE_XATTR,
            INLINE_ROOM_WITH_XATTR as u64,
        ),
        put_inline(card, INLINE_EMPTY, 0, 0),
    ];
    files.push(put_repeating(card));
    for name in NAMES {
        card.link(0, 0, &Dentry::new(name, road.ino));
        files.push(Put {
            name: name.to_vec(),
            ..road.clone()
        });
    }
    files.push(road);
    files
}

/// A file with an address outside, and every pull that is refused.
fn unreadable(card: &mut Card) -> (Put, Vec<Refused>) {
    let outside = put(card, OUTSIDE, 5 * BLOCK_SIZE as u64, &[0, 1, 3, 4]);
    let behind_main = card.image.areas.main_end;
    card.set_address(outside.ino, 2, behind_main);
    put_refused_nodes(card);
    put_inline(card, TOO_LONG, 0, INLINE_ROOM as u64 + 1);
    let size = INLINE_ROOM_WITH_XATTR as u64 + 1;
    put_inline(card, TOO_LONG_BESIDE_XATTR, INLINE_XATTR, size);
    let marked = card.add_file(INLINE_DENTRY, 100);
    card.link(0, 0, &Dentry::new(MARKED, marked));
    let folder = put(card, b"folder", 100, &[0]);
    let inode = card.inode_block(folder.ino);
    card.image.set(inode, I_MODE, S_IFDIR | 0o755);
    card.link(0, 0, &Dentry::new(b"no inode", 0));
    let [missing, malformed] = malformed_level(card);
    let refused: [(&[u8], u32, u32); 11] = [
        (missing.as_bytes(), 0, 2),
        (b"unused node", ADDRESSES, 9),
        (b"no inode", 0, 9),
        (b"far node", ADDRESSES, 10),
        (b"foreign node", ADDRESSES, 11),
        (TOO_LONG, 0, 12),
        (TOO_LONG_BESIDE_XATTR, 0, 12),
        (MARKED, 0, 12),
        (b"folder", 0, 12),
        (OUTSIDE, 2, 13),
        (malformed.as_bytes(), 0, 14),
    ];
    let refused = refused.map(|(name, index, answer)| (name.to_vec(), index, answer));
    let is_inline = card.inline_slots().is_some();
    let there = refused.len() - usize::from(is_inline);
    (outside, refused[..there].to_vec())
}

/// Files with a node that isn't in use, one behind the main area, and one that is another's.
fn put_refused_nodes(card: &mut Card) {
    let of_a_node = |card: &mut Card, name: &str| {
        let size = u64::from(ADDRESSES + 2) * BLOCK_SIZE as u64;
        let ino = put(card, name.as_bytes(), size, &[0, ADDRESSES]).ino;
        card.node(ino, 1)
    };
    let unused = of_a_node(card, "unused node");
    card.set_entry(unused.nid, 0, 0);
    let far = of_a_node(card, "far node");
    card.set_entry(far.nid, 0, card.image.areas.main_end);
    let foreign = of_a_node(card, "foreign node");
    card.image.set(foreign.block, footer::NID, 77);
}

/// Puts a malformed slot into a bucket of the second hash level, the second one if there is no directory level. Returns a
/// name that is sought in another, and one that is sought in this. An inline directory has no buckets, and gets no such slot.
fn malformed_level(card: &mut Card) -> [String; 2] {
    let names = [0, 1].map(|bucket| {
        let mut names = (0..).map(|n| format!("missing {n}"));
        names
            .find(|name| raw_hash(name.as_bytes()) % 2 == bucket)
            .unwrap()
    });
    if card.inline_slots().is_none() {
        let too_long = Dentry::new(b"123456789", 5).under_hash_of(names[1].as_bytes());
        let block = card.bucket_block(1, raw_hash(names[1].as_bytes()), 0);
        card.image.put_dentry(block, 213, &too_long);
    }
    names
}

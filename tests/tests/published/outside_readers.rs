//! Outside opinions: GRUB's reader and dump.f2fs give each file in the root directory as `harptimber cat` does, and all
//! of them as it was put on the card.

use harptimber_tests::calls::pulls::Pulls;
use harptimber_tests::cards::card::{slot_field, ROOT};
use harptimber_tests::cards::image::Image;
use harptimber_tests::cards::layout::checkpoint::*;
use harptimber_tests::cards::layout::inode::{ADDRESSES, ADDRESSES_WITH_XATTR, INLINE_XATTR};
use harptimber_tests::cards::layout::inode::{I_CURRENT_DEPTH, I_INLINE, I_SIZE};
use harptimber_tests::cards::layout::journal::{self, JournalEntry};
use harptimber_tests::cards::layout::nat::NatEntry;
use harptimber_tests::cards::layout::{slots, Field, BLOCK_SIZE};
use harptimber_tests::cards::names::good_name;
use harptimber_tests::cards::tree;
use harptimber_tests::cards::versions::{CHOSEN, PAIRS};
use harptimber_tests::node_lookup;
use harptimber_tests::tools::outside::{inode_number, CardFile, Opinions, Reader};
use harptimber_tests::tools::published::{
    contents, filled_in_turn, filled_with, File, LARGEST, LONGEST_INLINE,
};
use harptimber_tests::trial::Random;

pub const ALL: [Reader; 4] = [
    Reader::Harptimber,
    Reader::GrubCat,
    Reader::GrubCp,
    Reader::Dump,
];
pub const FIRST: [Reader; 3] = [Reader::Harptimber, Reader::GrubCat, Reader::Dump];
pub const WITHOUT_GRUB: [Reader; 2] = [Reader::Harptimber, Reader::Dump];

/// Expects all files of an image from these readers.
fn expect_files(opinions: &mut Opinions, readers: &[Reader], image: &Image, files: &[File]) {
    let card = CardFile::of(image);
    for (name, bytes) in files {
        opinions.expect(readers, &card, (name, bytes));
    }
}

fn least(readers: &[Reader], files: usize) -> Vec<(Reader, u64)> {
    readers
        .iter()
        .map(|&reader| (reader, files as u64))
        .collect()
}

fn file(random: &mut Random, name: &str, size: usize) -> File {
    (name.as_bytes().to_vec(), contents(random, size))
}

/// The sizes at which a file needs one more block or node, and one byte more.
#[test]
fn sizes() {
    let mut random = Random::new(1);
    let in_inode = ADDRESSES_WITH_XATTR as usize;
    let blocks = [
        1,
        2,
        in_inode,
        in_inode + 1018,
        in_inode + 2 * 1018,
        in_inode + 3 * 1018,
    ];
    let mut sizes = vec![
        LONGEST_INLINE + 1,
        BLOCK_SIZE - 1,
        2 * BLOCK_SIZE - 1,
        1_000_000,
    ];
    sizes.extend(
        blocks
            .iter()
            .flat_map(|n| [n * BLOCK_SIZE, n * BLOCK_SIZE + 1]),
    );
    let files: Vec<File> = sizes
        .iter()
        .map(|&size| file(&mut random, &format!("{size} bytes"), size))
        .collect();
    let image = filled_with(512, "", &files);
    let mut opinions = Opinions::new("outside readers, files of many sizes");
    expect_files(&mut opinions, &ALL, &image, &files);
    opinions.finish(&least(&ALL, 16));
}

/// Names of every length with any bytes, so many that they need several levels.
#[test]
fn names() {
    let mut random = Random::new(2);
    let mut files: Vec<File> = Vec::new();
    for len in (1..=254).chain(9..=200) {
        let name = good_name(&mut random, len);
        let taken = files.iter().any(|(other, _)| *other == name);
        if !taken && name != b"." && name != b".." {
            let size = LONGEST_INLINE + 1 + 3 * files.len();
            files.push((name, contents(&mut random, size)));
        }
    }
    let image = filled_with(200, "", &files);
    let root = node_lookup(image.bytes(), ROOT).address;
    let depth = image.get(root, I_CURRENT_DEPTH);
    assert!(
        depth > 3,
        "so many names need levels, not a depth of {depth}"
    );
    let mut opinions = Opinions::new("outside readers, names of every length");
    expect_files(&mut opinions, &FIRST, &image, &files);
    opinions.finish(&least(&FIRST, 440));
}

/// Cards of other sizes and sections.
#[test]
fn cards() {
    let mut random = Random::new(3);
    let mut opinions = Opinions::new("outside readers, several cards");
    let cards = [
        (64, ""),
        (100, "-s 2"),
        (200, "-z 2 -s 3"),
        (1024, ""),
        (LARGEST, ""),
        (LARGEST, "-a 1"),
    ];
    for (megabytes, options) in cards {
        let files = [3_345, 4_097, 50_000, 700_000]
            .map(|size| file(&mut random, &format!("{size} on {megabytes}"), size));
        let image = filled_with(megabytes, options, &files);
        expect_files(&mut opinions, &ALL, &image, &files);
    }
    opinions.finish(&least(&ALL, 6 * 4));
}

/// What isn't read, by the library and by the program.
fn expect_not_read(pulls: &mut Pulls, card: &CardFile, image: &Image, name: &[u8]) {
    pulls.expect(image, name, 0, 12);
    let json = card.pull_json(name).expect(2).json();
    assert_eq!(json["answer"].number(), 12, "{json:?}");
}

/// A card that was filled twice. What isn't read, a folder, stands beside what is: it is refused with 12.
#[test]
fn others_beside() {
    let mut random = Random::new(4);
    let mut files = |names: [&str; 6]| {
        let mut sizes = [5_000, 3_345, 70_000, 3_344, 0, 5_000].into_iter();
        names.map(|name| file(&mut random, name, sizes.next().expect("a size")))
    };
    let first = files(["a", "b", "c", "inline", "empty", "folder/below"]);
    let second = files(["d", "e", "f", "inline 2", "empty 2", "folder 2/below"]);
    let image = filled_in_turn(100, "", &[&first, &second]);
    let card = CardFile::of(&image);
    let mut opinions = Opinions::new("outside readers, a card filled twice");
    let mut pulls = Pulls::new("what isn't read, beside what outside readers read");
    for (files, folder) in [(first, b"folder".as_slice()), (second, b"folder 2")] {
        expect_files(&mut opinions, &ALL, &image, &files[..5]);
        expect_not_read(&mut pulls, &card, &image, folder);
    }
    opinions.finish(&least(&ALL, 2 * 5));
    pulls.finish(2, &[12]);
}

/// GRUB ends its search of a directory block at a name of 255 bytes, so that such a card isn't for it.
#[test]
fn longest_names() {
    let mut random = Random::new(5);
    let mut file = |len| {
        (
            good_name(&mut random, len),
            contents(&mut random, 5000 + len),
        )
    };
    let files = [255, 254, 255, 8].map(&mut file);
    let image = filled_with(64, "", &files);
    let mut opinions = Opinions::new("outside readers, the longest names");
    expect_files(&mut opinions, &WITHOUT_GRUB, &image, &files);
    opinions.finish(&least(&WITHOUT_GRUB, 4));
}

const LONG: &[u8] = b"long";
/// So long that it has two nodes below the first indirect one.
const LONG_BLOCKS: u32 = ADDRESSES_WITH_XATTR + 3 * 1018 + 2;

/// A card with one long file, and its bytes.
fn long_file(random: &mut Random) -> (Image, Vec<u8>) {
    let long = contents(random, LONG_BLOCKS as usize * BLOCK_SIZE - 100);
    let files = [(LONG.to_vec(), long.clone())];
    (filled_with(100, "", &files), long)
}

/// For each node on the way to a block of the long file: its block, and the slot that leads on.
fn way(image: &Image, index: u32) -> Vec<(u32, Field)> {
    let steps = tree::way(ADDRESSES_WITH_XATTR, index);
    let mut number = inode_number(image, LONG);
    let mut slots = Vec::new();
    for (n, step) in steps.iter().enumerate() {
        let block = node_lookup(image.bytes(), number).address;
        let slot = slot_field(step, n + 1 == steps.len());
        number = image.get(block, slot) as u32;
        slots.push((block, slot));
    }
    slots
}

/// The first and the last block of the inode and of each node that the long file has.
fn ends() -> Vec<u32> {
    let first = (0..4).map(|node| ADDRESSES_WITH_XATTR + 1018 * node);
    let last = first.clone().map(|index| index - 1);
    first.chain(last).chain([0, 5, LONG_BLOCKS - 1]).collect()
}

/// The file with zeros in these blocks.
fn with_holes(bytes: &[u8], holes: impl IntoIterator<Item = u32>) -> Vec<u8> {
    let mut bytes = bytes.to_vec();
    for hole in holes {
        let start = hole as usize * BLOCK_SIZE;
        let end = bytes.len().min(start + BLOCK_SIZE);
        bytes[start..end].fill(0);
    }
    bytes
}

/// Addresses that say hole. GRUB takes FFFFFFFF for an address, outside the card, so it isn't asked.
#[test]
fn holes() {
    let (mut image, long) = long_file(&mut Random::new(6));
    let holed = with_holes(&long, ends());
    let mut opinions = Opinions::new("outside readers, holes");
    for (address, readers) in [(0, &ALL[..]), (u32::MAX, &WITHOUT_GRUB)] {
        for index in ends() {
            let way = way(&image, index);
            let (block, slot) = way[way.len() - 1];
            image.set(block, slot, u64::from(address));
        }
        let files = [(LONG.to_vec(), holed.clone())];
        expect_files(&mut opinions, readers, &image, &files);
        image.undo(0);
    }
    opinions.finish(&[
        (Reader::Harptimber, 2),
        (Reader::GrubCat, 1),
        (Reader::Dump, 2),
    ]);
}

/// Node numbers that are 0, so that all below is a hole. GRUB looks number 0 up and takes bytes of the
/// superblock for addresses, so it isn't asked.
#[test]
fn holes_for_nodes() {
    let (mut image, long) = long_file(&mut Random::new(7));
    let first = |node: u32| ADDRESSES_WITH_XATTR + 1018 * node;
    let mut opinions = Opinions::new("outside readers, nodes that are holes");
    // The node's number is one step, or two, above the slot with the address.
    for (node, above, nodes) in [(0, 1, 1), (1, 1, 1), (2, 1, 1), (3, 1, 1), (2, 2, 2)] {
        let way = way(&image, first(node));
        let (block, slot) = way[way.len() - 1 - above];
        image.set(block, slot, 0);
        let holed = with_holes(&long, first(node)..LONG_BLOCKS.min(first(node + nodes)));
        let files = [(LONG.to_vec(), holed)];
        expect_files(&mut opinions, &WITHOUT_GRUB, &image, &files);
        image.undo(0);
    }
    opinions.finish(&least(&WITHOUT_GRUB, 5));
}

/// An inode with more addresses: sload.f2fs writes none, but the 50 behind its 873 are 0, so holes, once
/// the bit is cleared.
#[test]
fn more_addresses() {
    let (mut image, long) = long_file(&mut Random::new(8));
    let (inode, _) = way(&image, 0)[0];
    let more = (ADDRESSES - ADDRESSES_WITH_XATTR) as usize * BLOCK_SIZE;
    image.set(inode, I_INLINE, image.get(inode, I_INLINE) & !INLINE_XATTR);
    image.set(inode, I_SIZE, (long.len() + more) as u64);
    let (in_inode, behind) = long.split_at(ADDRESSES_WITH_XATTR as usize * BLOCK_SIZE);
    let files = [(LONG.to_vec(), [in_inode, &vec![0; more], behind].concat())];
    let mut opinions = Opinions::new("outside readers, an inode with 923 addresses");
    expect_files(&mut opinions, &ALL, &image, &files);
    opinions.finish(&least(&ALL, 1));
}

/// Leads the table's answers for the nodes of the long file astray, in its first copy, and returns the
/// right ones.
fn lead_astray(image: &mut Image) -> Vec<JournalEntry> {
    let inode = inode_number(image, LONG);
    let (block, _) = way(image, 0)[0];
    let below = [0, 1].map(|n| image.get(block, slots::I_NID.moved(n * slots::SIZE)) as u32);
    let mut entries = Vec::new();
    for nid in [inode, below[0], below[1]] {
        let entry = image.nat_entry(nid, 0);
        entries.push(JournalEntry { nid, entry });
        let block_addr = node_lookup(image.bytes(), ROOT).address;
        let astray = NatEntry {
            block_addr,
            ..entry
        };
        image.set_nat_entry(nid, 0, astray);
    }
    entries
}

/// Writes the journal of a pack with plain summaries, as sload.f2fs leaves it.
fn put_plain(image: &mut Image, which: usize, entries: &[JournalEntry]) {
    let block = image.last_block(which) + 1 - 7;
    image.put_journal(block, journal::IN_PLAIN_BLOCK, entries);
}

/// Makes the second pack one version newer than the first.
fn make_second_newer(image: &mut Image) {
    let version = image.get(image.first_block(0), CHECKPOINT_VER) + 1;
    image.set_version(1, version);
}

/// Copies the first pack over the second, and makes that one newer.
fn copy_to_newer(image: &mut Image) {
    image.copy_pack(0);
    make_second_newer(image);
}

/// The second copy of the first table block has these entries, and the second pack's map says so.
fn use_second_copy(image: &mut Image, right: &[JournalEntry]) {
    image.copy_nat_block(0, 0);
    for &JournalEntry { nid, entry } in right {
        image.set_nat_entry(nid, 1, entry);
    }
    image.put_nat_map(1, &[0x80]);
}

/// The table is wrong about some nodes. What is right stands in the journal of the first pack, in that
/// of a newer second one with plain or compact summaries, or in the table's second copy.
#[test]
fn tables() {
    let (mut image, long) = long_file(&mut Random::new(9));
    let files = [(LONG.to_vec(), long)];
    let changes: [fn(&mut Image, &[JournalEntry]); 4] = [
        |image, right| put_plain(image, 0, right),
        |image, right| {
            copy_to_newer(image);
            put_plain(image, 1, right);
        },
        |image, right| {
            // The second pack is as mkfs.f2fs wrote it.
            make_second_newer(image);
            let compact =
                image.first_block(1) + image.get(image.first_block(1), CP_PACK_START_SUM) as u32;
            image.put_journal(compact, journal::IN_COMPACT_BLOCK, right);
        },
        |image, right| {
            copy_to_newer(image);
            use_second_copy(image, right);
        },
    ];
    let mut opinions =
        Opinions::new("outside readers, journals, second pack and second table copy");
    for change in changes {
        let right = lead_astray(&mut image);
        change(&mut image, &right);
        expect_files(&mut opinions, &ALL, &image, &files);
        image.undo(0);
    }
    opinions.finish(&least(&ALL, 4));
}

const ROAD: &[u8] = b"road.bin";

/// Writes other bytes of the file behind everything on the card, under an inode of their own there. Returns
/// the table's entry for that.
fn write_anew(image: &mut Image, bytes: &[u8]) -> JournalEntry {
    let nid = inode_number(image, ROAD);
    let entry = image.nat_entry(nid, 0);
    let mut free = (image.areas.main..image.areas.main_end).rev();
    let block_addr = free.next().expect("a block");
    let inode = image.block(entry.block_addr).to_vec();
    image.put("inode", block_addr, 0, &inode);
    for (index, part) in bytes.chunks(BLOCK_SIZE).enumerate() {
        let block = free.next().expect("a block");
        image.put("data", block, 0, part);
        let slot = slots::I_ADDR.moved(index * slots::SIZE);
        image.set(block_addr, slot, block.into());
    }
    let entry = NatEntry {
        block_addr,
        ..entry
    };
    JournalEntry { nid, entry }
}

/// The last blocks of the largest card have the file.
#[test]
fn at_the_end_of_the_largest_card() {
    let mut random = Random::new(11);
    let [near, far] = [(); 2].map(|_| file(&mut random, "road.bin", 3_000_000));
    let mut image = filled_with(LARGEST, "", &[near]);
    let JournalEntry { nid, entry } = write_anew(&mut image, &far.1);
    image.set_nat_entry(nid, 0, entry);
    assert_eq!(entry.block_addr, 4_194_303);
    let mut opinions = Opinions::new("outside readers, the end of 16 GiB");
    expect_files(&mut opinions, &ALL, &image, &[far]);
    opinions.finish(&least(&ALL, 1));
}

/// Two packs that differ in where the file is, by their maps, and in their versions, which alone decide. To
/// GRUB (2.06) the greater number is the newer version, so it isn't asked where that isn't chosen.
#[test]
fn versions() {
    let mut random = Random::new(10);
    let files = [0, 1].map(|_| [(ROAD.to_vec(), contents(&mut random, 50_000))]);
    let mut image = filled_with(64, "", &files[0]);
    let anew = write_anew(&mut image, &files[1][0].1);
    image.copy_pack(0);
    use_second_copy(&mut image, &[anew]);
    image.settle("the file written anew for the second pack");
    let mut opinions = Opinions::new("outside readers, versions of two packs");
    for (versions, chosen) in CHOSEN {
        let greater = usize::from(versions[1] > versions[0]);
        let readers = if chosen == greater {
            &ALL[..]
        } else {
            &WITHOUT_GRUB
        };
        image.set_versions(versions);
        expect_files(&mut opinions, readers, &image, &files[chosen]);
        image.undo(0);
    }
    let by_grub = least(&[Reader::GrubCat, Reader::GrubCp], 17);
    opinions.finish(&[least(&WITHOUT_GRUB, PAIRS as usize), by_grub].concat());
}

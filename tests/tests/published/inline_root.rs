//! Inline root directories. No tool writes one, so that the root of a card by sload.f2fs is made one by hand. fsck.f2fs
//! finds nothing to complain of then.

use harptimber_tests::calls::compares::{changed, Compares, Kept, SAME};
use harptimber_tests::calls::pulls::{lists, Call, Pulls};
use harptimber_tests::cards::card::ROOT;
use harptimber_tests::cards::directory::{Dentry, Linked, Slots};
use harptimber_tests::cards::image::Image;
use harptimber_tests::cards::layout::checkpoint::VALID_BLOCK_COUNT;
use harptimber_tests::cards::layout::dentry::*;
use harptimber_tests::cards::layout::inode::*;
use harptimber_tests::cards::layout::sit::{VALID_MAP, VBLOCKS, VBLOCKS_SHIFT};
use harptimber_tests::cards::layout::{slots, Field, SEGMENT_BLOCKS};
use harptimber_tests::cards::one_file::INLINE_ROOTS;
use harptimber_tests::cards::segments::SegmentCard;
use harptimber_tests::tools::fsck::{fsck, inline_entries};
use harptimber_tests::tools::outside::{CardFile, Opinions};
use harptimber_tests::tools::published::{contents, filled_with, root_block, File};
use harptimber_tests::trial::Random;

use crate::files::expect_file;
use crate::outside_readers::FIRST;

/// How many blocks an inode has, itself included.
const I_BLOCKS: Field = Field {
    name: "I_BLOCKS",
    at: 24,
    size: 8,
};

/// How many segments are free by a pack's own count.
const FREE_SEGMENT_COUNT: Field = Field {
    name: "FREE_SEGMENT_COUNT",
    at: 32,
    size: 4,
};

/// An entry and its type.
type Typed = (Dentry, u64);

/// The entries of a directory block.
fn entries(image: &Image, block: u32) -> Vec<Typed> {
    let entry = |linked: &Linked| {
        let number = |field| image.get(block, linked.field(field));
        let len = number(NAME_LEN) as usize;
        let name = &image.block(block)[linked.layout.name_at(linked.slot)..][..len];
        let dentry = Dentry::new(name, number(INO) as u32);
        assert_eq!(u64::from(dentry.hash), number(HASH_CODE));
        (dentry, number(FILE_TYPE))
    };
    image.entries_in(block).iter().map(entry).collect()
}

/// Makes a block of the main area one that isn't valid, in its segment's entry and in the pack's counts. The root's
/// block is the only one of its segment, which is free then.
fn free(card: &mut SegmentCard, block: u32) {
    let main = block - card.image.areas.main;
    let (table, at) = card.entry_place(main / SEGMENT_BLOCKS);
    let vblocks = VBLOCKS.moved(at);
    let vblocks_now = card.image.get(table, vblocks) - 1;
    card.image.set(table, vblocks, vblocks_now);
    let freed = u64::from(vblocks_now % (1 << VBLOCKS_SHIFT) == 0);
    let nth = (main % SEGMENT_BLOCKS) as usize;
    let byte = at + VALID_MAP + nth / 8;
    let map = card.image.block(table)[byte] & !(0x80 >> (nth % 8));
    card.image.put("valid map", table, byte, &[map]);
    let which = card.image.pack_in_use();
    for block in [card.image.first_block(which), card.image.last_block(which)] {
        let valid = card.image.get(block, VALID_BLOCK_COUNT);
        card.image.set(block, VALID_BLOCK_COUNT, valid - 1);
        let free = card.image.get(block, FREE_SEGMENT_COUNT);
        card.image
            .set_sealed(block, FREE_SEGMENT_COUNT, free + freed);
    }
}

/// Moves all entries of the root, one behind the other, into its inode, and frees its blocks. Returns how many slots
/// they take.
fn move_to_inode(card: &mut SegmentCard, inline: u64) -> usize {
    let root = root_block(&card.image);
    let address = |nth: usize| slots::I_ADDR.moved(nth * slots::SIZE);
    let addresses = (0..ADDRESSES as usize).map(|nth| card.image.get(root, address(nth)) as u32);
    let blocks: Vec<u32> = addresses.filter(|&block| block != 0).collect();
    let moved: Vec<Typed> = blocks
        .iter()
        .flat_map(|&block| entries(&card.image, block))
        .collect();
    for &block in &blocks {
        free(card, block);
    }
    let image = &mut card.image;
    let zeros = vec![0; slots::I_NID.at - slots::I_ADDR.at];
    image.put("addresses", root, slots::I_ADDR.at, &zeros);
    let fields = [(I_INLINE, inline), (I_SIZE, 3488), (I_BLOCKS, 1)];
    image.set_all(root, &fields);
    let place = Slots {
        block: root,
        layout: IN_INODE,
    };
    let mut slot = 0;
    for (dentry, file_type) in &moved {
        image.put_dentry(place, slot, dentry);
        image.set(root, IN_INODE.in_slot(FILE_TYPE, slot), *file_type);
        slot += dentry.slots();
    }
    slot
}

/// A card with these files, its root made inline.
fn inline_card(inline: u64, files: &[File]) -> (Image, usize) {
    let mut card = SegmentCard::read(filled_with(64, "", files));
    let slots = move_to_inode(&mut card, inline);
    card.image.settle("the root's entries moved to its inode");
    let checked = fsck(&card.image);
    assert!(checked.sound, "{checked:?} on {:?}", card.image);
    assert_eq!(inline_entries(&card.image), [files.len() as u32, 182]);
    (card.image, slots)
}

/// Files of these names, some of them inline.
fn files(random: &mut Random, names: impl IntoIterator<Item = String>) -> Vec<File> {
    let sizes = [0, 1, 3000, 3344, 3345, 4097, 20_000];
    let named = names.into_iter().zip(sizes.into_iter().cycle());
    let file = |(name, size): (String, usize)| (name.into_bytes(), contents(random, size));
    named.map(file).collect()
}

/// Each file, and names that aren't there.
fn expect_files(pulls: &mut Pulls, image: &Image, files: &[File]) {
    for file in files {
        expect_file(pulls, image, file);
        let missing = [&file.0, b"x".as_slice()].concat();
        let call = Call::new(image, &missing, 0);
        pulls.expect_lists(&call, 2, &[ROOT], &[root_block(image)]);
    }
    for dots in [b".".as_slice(), b".."] {
        pulls.expect(image, dots, 0, 12);
    }
}

/// Names of many lengths, up to the longest that GRUB reads behind others.
#[test]
fn names() {
    let mut pulls = Pulls::new("published files in an inline root");
    let mut opinions = Opinions::new("outside readers, an inline root");
    for inline in INLINE_ROOTS {
        let lens = [1, 2, 7, 8, 9, 15, 16, 17, 31, 64, 100, 200, 254];
        let names = lens.map(|len: usize| format!("{len:x}").repeat(len)[..len].to_string());
        let files = files(&mut pulls.trial.random, names);
        let (image, slots) = inline_card(inline, &files);
        assert!(slots > 90, "{slots} slots");
        expect_files(&mut pulls, &image, &files);
        let card = CardFile::of(&image);
        for (name, bytes) in &files {
            opinions.expect(&FIRST, &card, (name, bytes));
        }
    }
    opinions.finish(&FIRST.map(|reader| (reader, 2 * 13)));
    pulls.finish(2 * (13 * 5 + 2), &[0, 2, 3, 12]);
}

/// As many names as there are slots, the two dots included: GRUB and fsck.f2fs find the last one too.
#[test]
fn full() {
    let mut pulls = Pulls::new("published files in a full inline root");
    let mut opinions = Opinions::new("outside readers, a full inline root");
    for inline in INLINE_ROOTS {
        let names = (0..180).map(|n| format!("file.{n}"));
        let files = files(&mut pulls.trial.random, names);
        let (image, slots) = inline_card(inline, &files);
        assert_eq!(slots, 182);
        expect_files(&mut pulls, &image, &files);
        let card = CardFile::of(&image);
        for (name, bytes) in files.iter().step_by(30).chain(files.last()) {
            opinions.expect(&FIRST, &card, (name, bytes));
        }
    }
    opinions.finish(&FIRST.map(|reader| (reader, 2 * 7)));
    pulls.finish(2 * (180 * 5 + 2), &[0, 2, 3, 12]);
}

/// A small friction table in an inline root: a byte of it makes it another, and the road beside it stays the same.
#[test]
fn compares() {
    let mut compares = Compares::new("compare of cards with an inline root");
    let names = ["table", "road"].map(String::from);
    let mut random = Random::new(1);
    let mut files = files(&mut random, names);
    files[0].1 = contents(&mut random, 3000);
    let (kept, _) = inline_card(INLINE_DENTRY, &files);
    let mut fresh = kept.clone();
    let (_, blocks) = lists(&Call::new(&kept, b"table", 0));
    let inode = blocks.into_iter().find(|&block| block != root_block(&kept));
    let inode = inode.expect("the table's inode");
    for at in [364, 364 + 1500, 364 + 2999] {
        let byte = !fresh.block(inode)[at];
        fresh.put("byte of the table", inode, at, &[byte]);
        compares.expect(&Kept::new(&kept, b"table", 0), &fresh, changed(3, inode));
        compares.expect(&Kept::new(&kept, b"road", 0), &fresh, SAME);
        fresh.undo(0);
    }
    compares.finish(3 * 2, &[(15, 0, 0), (16, 0, 3)]);
}

//! Small files, which sload.f2fs puts into their inodes, and what other readers make of them.

use harptimber_tests::calls::pulls::{Call, Pulls};
use harptimber_tests::cards::card::ROOT;
use harptimber_tests::cards::image::Image;
use harptimber_tests::cards::layout::inode::*;
use harptimber_tests::cards::layout::slots::I_ADDR;
use harptimber_tests::node_lookup;
use harptimber_tests::tools::fsck::fsck;
use harptimber_tests::tools::outside::{inode_number, CardFile, Opinions, Reader};
use harptimber_tests::tools::published::{contents, filled_with, root_block, File, LONGEST_INLINE};
use harptimber_tests::trial::Random;

use crate::files::expect_file;
use crate::outside_readers::{ALL, WITHOUT_GRUB};

fn files(random: &mut Random, sizes: &[usize]) -> Vec<File> {
    let file = |(n, &size): (usize, &usize)| {
        let name = format!("{n} with {size} bytes").into_bytes();
        (name, contents(random, size))
    };
    sizes.iter().enumerate().map(file).collect()
}

/// The number and the block of a file's inode.
fn inode(image: &Image, name: &[u8]) -> (u32, u32) {
    let number = inode_number(image, name);
    (number, node_lookup(image.bytes(), number).address)
}

fn is_inline(image: &Image, name: &[u8]) -> bool {
    let (_, block) = inode(image, name);
    image.get(block, I_INLINE) & INLINE_DATA != 0
}

/// Expects an inline file's bytes, and that its inode's block is all that was read of it.
fn expect_inline(pulls: &mut Pulls, image: &Image, file: &File) {
    let (name, bytes) = file;
    let (number, block) = inode(image, name);
    // The root's first block has all names: the directory is small.
    let root = root_block(image);
    let directory = image.get(root, I_ADDR) as u32;
    let call = Call::new(image, name, 0);
    let answer = if bytes.is_empty() { 3 } else { 0 };
    pulls.expect_lists(&call, answer, &[ROOT, number], &[root, directory, block]);
    expect_file(pulls, image, file);
}

/// Sizes around those at which something changes: sload.f2fs leaves more room than it has to.
#[test]
fn sizes() {
    const SIZES: [usize; 20] = [
        0, 1, 2, 3, 4, 5, 8, 100, 1000, 2048, 3343, 3344, 3345, 3487, 3488, 3489, 3687, 3688, 3689,
        4096,
    ];
    let mut pulls = Pulls::new("published inline files");
    let mut opinions = Opinions::new("outside readers, small files");
    let files = files(&mut pulls.trial.random, &SIZES);
    let image = filled_with(100, "", &files);
    assert!(fsck(&image).sound, "{image:?}");
    let card = CardFile::of(&image);
    for file in &files {
        let (name, bytes) = file;
        let inline = bytes.len() <= LONGEST_INLINE;
        assert_eq!(is_inline(&image, name), inline, "{} bytes", bytes.len());
        match inline {
            true => expect_inline(&mut pulls, &image, file),
            false => expect_file(&mut pulls, &image, file),
        }
        opinions.expect(&ALL, &card, (name, bytes));
    }
    opinions.finish(&ALL.map(|reader| (reader, 20)));
    pulls.finish(12 + 19 + 20 * 4, &[0, 3]);
}

/// So many that they need several hash levels.
#[test]
fn many() {
    let mut pulls = Pulls::new("many published inline files");
    let mut opinions = Opinions::new("outside readers, many small files");
    let random = &mut pulls.trial.random;
    let most = LONGEST_INLINE as u64 + 1;
    let sizes: Vec<usize> = (0..600).map(|_| random.below(most) as usize).collect();
    let files = files(random, &sizes);
    let image = filled_with(100, "", &files);
    let depth = image.get(root_block(&image), I_CURRENT_DEPTH);
    assert!(depth > 1, "so many names need levels");
    for file in &files {
        expect_file(&mut pulls, &image, file);
    }
    let card = CardFile::of(&image);
    for (name, bytes) in files.iter().step_by(60) {
        opinions.expect(&ALL, &card, (name, bytes));
    }
    opinions.finish(&ALL.map(|reader| (reader, 10)));
    pulls.finish(600 * 4, &[0, 3]);
}

/// Inline files that are made longer by hand, up to all the room that the paper gives them. fsck.f2fs finds nothing to
/// complain of. GRUB (2.06) takes an inline file for 3,488 bytes at most, so it isn't asked for longer ones.
#[test]
fn made_longer() {
    let mut pulls = Pulls::new("published inline files, made longer");
    let mut opinions = Opinions::new("outside readers, inline files made longer");
    let mut image = filled_with(64, "", &files(&mut pulls.trial.random, &[LONGEST_INLINE]));
    let name = format!("0 with {LONGEST_INLINE} bytes").into_bytes();
    let (_, block) = inode(&image, &name);
    let inline = image.get(block, I_INLINE);
    assert_eq!(inline & INLINE_XATTR, INLINE_XATTR);
    for (attributes, size) in [
        (1, 3345),
        (1, 3487),
        (1, 3488),
        (0, 3487),
        (0, 3488),
        (0, 3489),
        (0, 3687),
        (0, 3688),
    ] {
        let longer = contents(&mut pulls.trial.random, size);
        image.set(block, I_INLINE, inline & !INLINE_XATTR | attributes);
        image.set(block, I_SIZE, size as u64);
        image.put("longer", block, INLINE_AT, &longer);
        assert!(fsck(&image).sound, "{size} bytes in {image:?}");
        let readers = if size > 3488 { &WITHOUT_GRUB } else { &ALL[..] };
        let card = CardFile::of(&image);
        opinions.expect(readers, &card, (&name, &longer));
        expect_inline(&mut pulls, &image, &(name.clone(), longer));
        image.undo(0);
    }
    opinions.finish(&[
        (Reader::Harptimber, 8),
        (Reader::GrubCat, 5),
        (Reader::Dump, 8),
    ]);
    pulls.finish(8 * (1 + 5), &[0, 3]);
}

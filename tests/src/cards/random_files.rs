//! Random cards with files, and pulls that get somewhere in them.

use reference::hash::raw_hash;

use crate::cards::card::{addresses_by, inline_room_by, Card, Passage, ROOT};
use crate::cards::directory::{Dentry, DirLevel, Linked, BUCKET_BLOCKS};
use crate::cards::knobs::Knobs;
use crate::cards::layout::inode::{INLINE_DATA, INLINE_DENTRY, INLINE_XATTR, I_INLINE};
use crate::cards::layout::{slots, BLOCK_SIZE};
use crate::cards::names::good_name;
use crate::cards::random::{between, large_knobs, pick, shuffle, sound_knobs};
use crate::cards::tree::last_index;
use crate::trial::Random;

const FILES: usize = 8;
const DEEPEST: u32 = 12;
const MOST_JOURNALLED: u32 = 6;

/// A pull, of a name or a path, and what it passes on a sound card.
pub struct Target {
    pub name: Vec<u8>,
    pub index: u32,
    /// Nodes with the slots that lead on, in the directories' trees and the file's.
    pub passages: Vec<Passage>,
    /// The blocks of the inodes, the root's first and the file's last.
    pub inodes: Vec<u32>,
    /// Entries in the buckets that the names lead to, or in inline directories.
    pub entries: Vec<Linked>,
}

impl Target {
    /// A name and an index to pull: mostly its own.
    pub fn any_call(&self, random: &mut Random) -> (Vec<u8>, u32) {
        let any = random.number() as u32;
        let beside = self.index.wrapping_add(1);
        let index = match random.below(16) {
            0 => pick(random, &[0, any, beside, u32::MAX]),
            _ => self.index,
        };
        let mut name = self.name.clone();
        match random.below(32) {
            0 => name.push(b'x'),
            1 => name = good_name(random, 5),
            2 => name.clear(),
            3 => name[0] = pick(random, b"\0/"),
            4..8 if name.contains(&b'/') => name = other_path(&name, random),
            _ => {}
        }
        (name, index)
    }
}

/// Mostly the same names: one of them is there twice, is missing, or has dots or a slash before it.
fn other_path(path: &[u8], random: &mut Random) -> Vec<u8> {
    let mut names: Vec<&[u8]> = path.split(|&byte| byte == b'/').collect();
    let at = random.below(names.len() as u64) as usize;
    let name = names[at];
    let instead = [
        vec![name, name],
        vec![],
        vec![b".", name],
        vec![b"..", name],
        vec![name, b"..", name],
        vec![b"", name],
    ];
    names.splice(at..=at, instead[random.below(6) as usize].iter().copied());
    names.join(&b'/')
}

pub fn any_target<'a>(targets: &'a [Target], random: &mut Random) -> &'a Target {
    &targets[random.below(targets.len() as u64) as usize]
}

pub struct RandomFiles {
    pub card: Card,
    pub targets: Vec<Target>,
}

/// A file to be built, with a few of its blocks.
pub(super) struct File {
    pub name: Vec<u8>,
    pub ino: u32,
    level: u32,
    pub indexes: Vec<u32>,
}

/// A directory, and a name that is sought in it.
pub(super) struct Sought<'a> {
    pub folder: u32,
    pub depth: u32,
    pub name: &'a [u8],
}

pub fn random_files(random: &mut Random) -> RandomFiles {
    let knobs = small_knobs(random);
    let root = any_root(random);
    files_on(random, knobs, root)
}

/// In a directory with blocks and this level.
pub fn random_files_with(random: &mut Random, dir_level: DirLevel) -> RandomFiles {
    let knobs = small_knobs(random);
    files_on(random, knobs, Root::with_blocks(dir_level))
}

pub(super) fn small_knobs(random: &mut Random) -> Knobs {
    Knobs {
        main_segments: between(random, 1, 2),
        ..sound_knobs(random)
    }
}

/// On a card of more than 1 GiB.
pub fn large_random_files(random: &mut Random) -> RandomFiles {
    loop {
        let knobs = large_knobs(random);
        if knobs.main_segments > 0 {
            let root = any_root(random);
            return files_on(random, knobs, root);
        }
    }
}

/// A root directory: its level, and the inline bit if its entries stand in its inode.
#[derive(Clone, Copy)]
pub(super) struct Root {
    pub dir_level: DirLevel,
    pub inline: u64,
}

impl Root {
    fn with_blocks(dir_level: DirLevel) -> Root {
        Root {
            dir_level,
            inline: 0,
        }
    }
}

/// Every other time without a level, as most cards have it, and every fourth time inline.
pub(super) fn any_root(random: &mut Random) -> Root {
    let any = random.below(31) as u32;
    Root {
        dir_level: DirLevel(pick(random, &[0, any])),
        inline: pick(random, &[0, 0, 0, INLINE_DENTRY]),
    }
}

fn files_on(random: &mut Random, knobs: Knobs, root: Root) -> RandomFiles {
    let mut card = Card::new(knobs, Random::new(random.number()));
    let depth = between(random, 1, DEEPEST);
    let Root { dir_level, inline } = root;
    card.add_root_with(dir_level, any_inline(random) | inline, depth);
    let files: Vec<File> = (0..FILES)
        .map(|_| add_file(&mut card, random, depth))
        .collect();
    add_entries_aside(&mut card, random, &files);
    let numbers = files.iter().map(|file| file.ino).chain([ROOT]);
    journal_some(&mut card, random, numbers.collect());
    let mut targets = Vec::new();
    for file in &files {
        let (folder, name) = (ROOT, &file.name);
        let sought = [Sought {
            folder,
            depth,
            name,
        }];
        targets.extend(targets_of(&mut card, &sought, file));
    }
    card.image.settle("random files");
    RandomFiles { card, targets }
}

/// The bit that decides over the addresses, and bits that decide nothing.
pub(super) fn any_inline(random: &mut Random) -> u64 {
    pick(random, &[0, INLINE_XATTR]) | pick(random, &[0, 0x08, 0x10, 0x40, 0x80])
}

/// So long that a block, or an inode, has room for two of each file.
const LONGEST_NAME: u32 = 88;

fn any_name(random: &mut Random) -> Vec<u8> {
    let most = pick(random, &[8, 9, 20, LONGEST_NAME]);
    let len = between(random, 1, most) as usize;
    good_name(random, len)
}

/// A file under a name of its own, one in four an inline one.
pub(super) fn add_file(card: &mut Card, random: &mut Random, depth: u32) -> File {
    let (ino, indexes) = match random.below(4) {
        0 => add_inline(card, random),
        _ => add_with_blocks(card, random),
    };
    let (name, level, nth) = any_place(card, random, depth);
    card.link(level, nth, &Dentry::new(&name, ino));
    File {
        name,
        ino,
        level,
        indexes,
    }
}

/// A file whose bytes stand in its inode, and the indexes of its block and of the one behind it.
fn add_inline(card: &mut Card, random: &mut Random) -> (u32, Vec<u32>) {
    let inline = any_inline(random) | INLINE_DATA;
    let size = between(random, 1, inline_room_by(inline) as u32);
    (card.add_file(inline, size.into()), vec![0, 1])
}

/// A file with some blocks, and indexes around them.
fn add_with_blocks(card: &mut Card, random: &mut Random) -> (u32, Vec<u32>) {
    let inline = any_inline(random);
    let indexes = any_indexes(random, inline);
    let past = indexes.iter().max().expect("an index") + between(random, 0, 2);
    let less = between(random, 0, BLOCK_SIZE as u32 - 1);
    let size = (u64::from(past) + 1) * BLOCK_SIZE as u64 - u64::from(less);
    let ino = card.add_file(inline, size);
    for &index in indexes.iter().filter(|_| random.below(8) > 0) {
        card.add_block(ino, index);
    }
    (ino, indexes)
}

/// A name with a hash level and the block of a bucket there, if it isn't past the last index.
pub(super) fn any_place(card: &Card, random: &mut Random, depth: u32) -> (Vec<u8>, u32, u32) {
    loop {
        let name = any_name(random);
        let level = random.below(u64::from(depth)) as u32;
        let nth = random.below(u64::from(BUCKET_BLOCKS)) as u32;
        if has_block(card, level, &name, nth) {
            return (name, level, nth);
        }
    }
}

/// Whether a directory can have a block of the bucket that a name leads to, or needs none.
fn has_block(card: &Card, level: u32, name: &[u8], nth: u32) -> bool {
    let index = card.dir_level().index(level, raw_hash(name), nth);
    card.inline_slots().is_some() || index <= u64::from(last_index(card.addresses(card.folder)))
}

/// Indexes around one at which the way changes its nodes.
fn any_indexes(random: &mut Random, inline: u64) -> Vec<u32> {
    let addresses = addresses_by(inline);
    let per_node = slots::PER_NODE as u32;
    let indirect = addresses + 2 * per_node;
    let borders = [
        1,
        addresses,
        addresses + per_node,
        indirect,
        indirect + per_node * per_node,
        indirect + 2 * per_node * per_node,
        indirect + 3 * per_node * per_node,
        last_index(addresses),
    ];
    let border = pick(random, &borders);
    (border - 1..=border).collect()
}

/// Entries that a search has to pass: other names under a file's hash, and files that were deleted.
pub(super) fn add_entries_aside(card: &mut Card, random: &mut Random, files: &[File]) {
    for file in files {
        let level = random.below(u64::from(file.level) + 1) as u32;
        let nth = random.below(u64::from(BUCKET_BLOCKS)) as u32;
        let ino = pick(random, &[file.ino, ROOT, 0]);
        if !has_block(card, level, &file.name, nth) {
            continue;
        }
        if random.below(2) == 0 {
            let deleted = Dentry::new(&file.name, ino);
            let linked = card.link(level, nth, &deleted);
            card.image
                .set_slot_bits(linked.of(), linked.slot, deleted.slots(), false);
        } else {
            let other = Dentry::new(&any_name(random), ino);
            card.link(level, nth, &other.under_hash_of(&file.name));
        }
    }
}

/// Moves the table's entries for some of these numbers to the journal.
pub(super) fn journal_some(card: &mut Card, random: &mut Random, mut numbers: Vec<u32>) {
    let count = between(random, 0, MOST_JOURNALLED) as usize;
    shuffle(random, &mut numbers);
    card.journal(&numbers[..count]);
}

/// Pulls of a file's blocks, by what is sought on the way.
pub(super) fn targets_of(card: &mut Card, sought: &[Sought], file: &File) -> Vec<Target> {
    let indexes = file.indexes.iter();
    indexes
        .map(|&index| target(card, sought, file, index))
        .collect()
}

fn target(card: &mut Card, sought: &[Sought], file: &File, index: u32) -> Target {
    let names: Vec<&[u8]> = sought.iter().map(|sought| sought.name).collect();
    let mut target = Target {
        name: names.join(&b'/'),
        index,
        passages: Vec::new(),
        inodes: Vec::new(),
        entries: Vec::new(),
    };
    for &Sought {
        folder,
        depth,
        name,
    } in sought
    {
        card.enter(folder);
        let (passages, entries) = match card.inline_slots() {
            Some(slots) => (card.inline_way(folder), card.image.entries_in(slots)),
            None => in_buckets(card, name, depth),
        };
        target.passages.extend(passages);
        target.entries.extend(entries);
        target.inodes.push(card.inode_block(folder));
    }
    let inode = card.inode_block(file.ino);
    target.inodes.push(inode);
    let passages = match card.image.get(inode, I_INLINE) & INLINE_DATA {
        0 => card.way(file.ino, index),
        _ => card.inline_way(file.ino),
    };
    target.passages.extend(passages);
    target
}

/// The ways to the buckets that a name leads to, and their entries.
fn in_buckets(card: &mut Card, name: &[u8], depth: u32) -> (Vec<Passage>, Vec<Linked>) {
    let hash = raw_hash(name);
    let dir_level = card.dir_level();
    let (mut passages, mut entries) = (Vec::new(), Vec::new());
    for level in 0..depth {
        for nth in 0..BUCKET_BLOCKS {
            let index = dir_level.index(level, hash, nth);
            if let Some((bucket, block)) = card.block_at(index) {
                passages.extend(card.way(card.folder, bucket));
                entries.extend(card.image.entries_in(block));
            }
        }
    }
    (passages, entries)
}

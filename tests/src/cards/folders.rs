//! A file at the end of a path, and the folders on the way there.

use crate::cards::card::{addresses_by, Card, Passage, ROOT};
use crate::cards::directory::{Dentry, DirLevel, Linked};
use crate::cards::layout::inode::{INLINE_DENTRY, INLINE_XATTR};
use crate::cards::layout::BLOCK_SIZE;
use crate::cards::names::name_with;
use crate::cards::one_file::small_knobs;
use crate::cards::random::pick;
use crate::cards::tree::last_index;
use crate::trial::Random;

/// What a directory's inode says of it.
#[derive(Clone, Copy, Debug)]
pub struct Shape {
    pub dir_level: DirLevel,
    pub inline: u64,
    pub depth: u32,
}

impl Shape {
    pub const PLAIN: Shape = Shape::of(0, 0);
    pub const INLINE: Shape = Shape::of(0, INLINE_DENTRY);
    /// Kinds of folders, with blocks near and far out and without.
    pub const ALL: [Shape; 7] = [
        Shape::PLAIN,
        Shape::INLINE,
        Shape::of(0, INLINE_XATTR),
        Shape::of(0, INLINE_DENTRY | INLINE_XATTR),
        Shape::of(10, 0),
        Shape::of(17, INLINE_XATTR),
        Shape::of(30, 0),
    ];

    const fn of(level: u32, inline: u64) -> Shape {
        Shape {
            dir_level: DirLevel(level),
            inline,
            depth: 1,
        }
    }

    pub fn any(random: &mut Random) -> Shape {
        pick(random, &Shape::ALL)
    }

    /// So many, one kind after the other.
    pub fn in_turn(count: usize) -> Vec<Shape> {
        Shape::ALL.into_iter().cycle().take(count).collect()
    }

    fn has_blocks(self) -> bool {
        self.inline & INLINE_DENTRY == 0
    }

    /// A name that such a folder can have, in its first hash level.
    pub fn name(self, random: &mut Random, len: usize) -> Vec<u8> {
        let last = u64::from(last_index(addresses_by(self.inline)));
        name_with(random, len, |hash| self.dir_level.index(0, hash, 1) <= last)
    }

    fn any_name(self, random: &mut Random) -> Vec<u8> {
        let len = 4 + random.below(20) as usize;
        self.name(random, len)
    }
}

/// A directory, and the name in it that leads on.
pub struct Folder {
    pub ino: u32,
    pub name: Vec<u8>,
    pub linked: Linked,
    /// To the block with the name, or to the inode that has it.
    pub way: Vec<Passage>,
}

/// A file in the last of some folders. It has one block, which is behind nodes if the index says so.
pub struct Folders {
    pub card: Card,
    /// The root first.
    pub folders: Vec<Folder>,
    pub ino: u32,
    pub index: u32,
    pub data: u32,
}

impl Folders {
    /// Of these shapes, the root first.
    pub fn new(random: &mut Random, shapes: &[Shape], index: u32) -> Folders {
        let named = |shape: &Shape| (*shape, shape.any_name(random));
        let named: Vec<_> = shapes.iter().map(named).collect();
        Folders::with(random, &named, index)
    }

    /// Of any shapes, with names of so many bytes.
    pub fn of_len(random: &mut Random, names: usize, len: usize) -> Folders {
        let named = |_| {
            let shape = Shape::any(random);
            (shape, shape.name(random, len))
        };
        let named: Vec<_> = (0..names).map(named).collect();
        Folders::with(random, &named, 0)
    }

    /// Of any shapes.
    pub fn any(random: &mut Random, names: usize, index: u32) -> Folders {
        let shapes: Vec<Shape> = (0..names).map(|_| Shape::any(random)).collect();
        Folders::new(random, &shapes, index)
    }

    /// With these names, each in the folder of its shape.
    pub fn with(random: &mut Random, named: &[(Shape, Vec<u8>)], index: u32) -> Folders {
        let mut card = Card::new(small_knobs(random), Random::new(random.number()));
        let mut inodes: Vec<u32> = Vec::new();
        for (shape, _) in named {
            inodes.push(add_folder(&mut card, *shape, inodes.is_empty()));
        }
        let size = (u64::from(index) + 1) * BLOCK_SIZE as u64;
        let ino = card.add_file(0, size);
        let data = card.add_block(ino, index);
        let mut folders = Vec::new();
        for (n, (shape, name)) in named.iter().enumerate() {
            let to = inodes.get(n + 1).copied().unwrap_or(ino);
            folders.push(link(&mut card, inodes[n], *shape, name, to));
        }
        let shapes: Vec<Shape> = named.iter().map(|(shape, _)| *shape).collect();
        card.image.settle(&format!("folders {shapes:?}"));
        Folders {
            card,
            folders,
            ino,
            index,
            data,
        }
    }

    /// The first so many names, with slashes between them.
    pub fn path_of(&self, names: usize) -> Vec<u8> {
        let names = self.folders[..names].iter();
        let names: Vec<&[u8]> = names.map(|folder| folder.name.as_slice()).collect();
        names.join(&b'/')
    }

    pub fn path(&self) -> Vec<u8> {
        self.path_of(self.folders.len())
    }

    /// The path with another name for one.
    pub fn path_with(&self, nth: usize, name: &[u8]) -> Vec<u8> {
        let mut names: Vec<&[u8]> = Vec::new();
        for (n, folder) in self.folders.iter().enumerate() {
            names.push(if n == nth { name } else { &folder.name });
        }
        names.join(&b'/')
    }

    /// The folders' numbers and the file's.
    pub fn inodes(&self) -> Vec<u32> {
        let folders = self.folders.iter().map(|folder| folder.ino);
        folders.chain([self.ino]).collect()
    }

    pub fn inode_block(&self, nth: usize) -> u32 {
        self.card.inode_block(self.folders[nth].ino)
    }

    /// What is listed by searches in the first so many folders, each of which found its name.
    pub fn lists(&self, folders: usize) -> (Vec<u32>, Vec<u32>) {
        let (mut nodes, mut blocks) = (Vec::new(), Vec::new());
        for folder in &self.folders[..folders] {
            list(&folder.way, &mut nodes, &mut blocks);
            blocks.push(folder.linked.block);
        }
        (nodes, blocks)
    }

    /// What the pull of the file's block lists.
    pub fn whole_lists(&mut self) -> (Vec<u32>, Vec<u32>) {
        let (mut nodes, mut blocks) = self.lists(self.folders.len());
        list(
            &self.card.way(self.ino, self.index),
            &mut nodes,
            &mut blocks,
        );
        blocks.push(self.data);
        (nodes, blocks)
    }
}

/// The root, or a folder that isn't linked yet.
pub fn add_folder(card: &mut Card, shape: Shape, is_root: bool) -> u32 {
    let Shape {
        dir_level,
        inline,
        depth,
    } = shape;
    match is_root {
        true => {
            card.add_root_with(dir_level, inline, depth);
            ROOT
        }
        false => card.add_folder(dir_level, inline, depth),
    }
}

/// Links a name in the first block in which it is sought.
fn link(card: &mut Card, folder: u32, shape: Shape, name: &[u8], ino: u32) -> Folder {
    card.enter(folder);
    let dentry = Dentry::new(name, ino);
    let linked = card.link(0, 0, &dentry);
    let way = match shape.has_blocks() {
        true => card.way(folder, shape.dir_level.index(0, dentry.hash, 0) as u32),
        false => card.inline_way(folder),
    };
    Folder {
        ino: folder,
        name: name.to_vec(),
        linked,
        way,
    }
}

/// Adds the nodes of a way to lists.
pub fn list(way: &[Passage], nodes: &mut Vec<u32>, blocks: &mut Vec<u32>) {
    nodes.extend(way.iter().map(|passage| passage.node.nid));
    blocks.extend(way.iter().map(|passage| passage.node.block));
}

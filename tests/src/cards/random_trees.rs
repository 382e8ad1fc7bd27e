//! Random cards with files in folders, and pulls that get somewhere in them.

use crate::cards::card::{Card, ROOT};
use crate::cards::directory::Dentry;
use crate::cards::knobs::Knobs;
use crate::cards::random::{between, pick};
use crate::cards::random_files::*;
use crate::sizes::NAMES_MOST;
use crate::trial::Random;

const FOLDERS: usize = 9;
const FILES: usize = 10;
/// Of a folder.
const DEEPEST: u32 = 6;

/// A directory: its depth, and where it is if it isn't the root.
struct Folder {
    ino: u32,
    depth: u32,
    above: Option<(usize, Vec<u8>)>,
}

struct Tree {
    card: Card,
    /// The root first, and each behind the one that it is in.
    folders: Vec<Folder>,
    /// Each with the folder that it is in.
    files: Vec<(usize, File)>,
}

pub fn random_trees(random: &mut Random) -> RandomFiles {
    let knobs = Knobs {
        main_segments: between(random, 2, 3),
        ..small_knobs(random)
    };
    let card = Card::new(knobs, Random::new(random.number()));
    let mut tree = Tree {
        card,
        folders: Vec::new(),
        files: Vec::new(),
    };
    for _ in 0..FOLDERS {
        tree.add_folder(random);
    }
    for _ in 0..FILES {
        tree.add_file(random);
    }
    let folders = tree.folders.iter().map(|folder| folder.ino);
    let files = tree.files.iter().map(|(_, file)| file.ino);
    journal_some(&mut tree.card, random, folders.chain(files).collect());
    let targets = (0..FILES).flat_map(|nth| tree.targets(nth)).collect();
    let mut card = tree.card;
    card.enter(ROOT);
    card.image.settle("random folders");
    RandomFiles { card, targets }
}

impl Tree {
    /// How many names lead to a folder.
    fn names(&self, folder: usize) -> u32 {
        match &self.folders[folder].above {
            None => 0,
            Some((above, _)) => 1 + self.names(*above),
        }
    }

    /// The root, or a folder in one that is there, mostly in the last.
    fn add_folder(&mut self, random: &mut Random) {
        let last = self.folders.len().saturating_sub(1) as u64;
        let any = random.below(last + 1);
        let above = pick(random, &[last, last, last, any]) as usize;
        let Root { dir_level, inline } = any_root(random);
        let inline = inline | any_inline(random);
        let depth = between(random, 1, DEEPEST);
        if self.folders.is_empty() {
            self.card.add_root_with(dir_level, inline, depth);
            self.entered(ROOT, depth, None);
        } else if self.names(above) + 1 < NAMES_MOST {
            let ino = self.card.add_folder(dir_level, inline, depth);
            let name = self.link(random, above, ino);
            self.entered(ino, depth, Some((above, name)));
            self.link_dots(random, above, ino);
        }
    }

    fn entered(&mut self, ino: u32, depth: u32, above: Option<(usize, Vec<u8>)>) {
        self.folders.push(Folder { ino, depth, above });
        self.card.enter(ino);
    }

    /// Links a number in a folder, under any name.
    fn link(&mut self, random: &mut Random, folder: usize, ino: u32) -> Vec<u8> {
        let Folder {
            ino: folder, depth, ..
        } = self.folders[folder];
        self.card.enter(folder);
        let (name, level, nth) = any_place(&self.card, random, depth);
        self.card.link(level, nth, &Dentry::new(&name, ino));
        name
    }

    /// Most folders have the two dots, in their first block.
    fn link_dots(&mut self, random: &mut Random, above: usize, ino: u32) {
        let above = self.folders[above].ino;
        if random.below(4) > 0 {
            for (dots, to) in [(".", ino), ("..", above)] {
                self.card.link(0, 0, &Dentry::new(dots.as_bytes(), to));
            }
        }
    }

    /// A file in any folder, and an entry that a search for it passes.
    fn add_file(&mut self, random: &mut Random) {
        let last = self.folders.len() as u64 - 1;
        let any = random.below(last + 1);
        let folder = pick(random, &[last, any, any]) as usize;
        let Folder { ino, depth, .. } = self.folders[folder];
        self.card.enter(ino);
        let file = add_file(&mut self.card, random, depth);
        add_entries_aside(&mut self.card, random, std::slice::from_ref(&file));
        self.files.push((folder, file));
    }

    fn targets(&mut self, nth: usize) -> Vec<Target> {
        let (folder, file) = &self.files[nth];
        let mut sought = Vec::new();
        let (mut at, mut name) = (*folder, &file.name);
        loop {
            let Folder { ino, depth, above } = &self.folders[at];
            sought.insert(
                0,
                Sought {
                    folder: *ino,
                    depth: *depth,
                    name,
                },
            );
            match above {
                None => break,
                Some((above, of_folder)) => (at, name) = (*above, of_folder),
            }
        }
        targets_of(&mut self.card, &sought, file)
    }
}

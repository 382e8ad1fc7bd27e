//! Folders in each other that have every block in which a name is sought, and a file at its last index: as much as a
//! pull comes to list.

use std::collections::BTreeSet;

use crate::cards::card::{addresses_by, Card};
use crate::cards::deep::sought;
use crate::cards::directory::{Dentry, DirLevel, MOST_DEPTH};
use crate::cards::folders::{add_folder, list, Shape};
use crate::cards::knobs::Knobs;
use crate::cards::layout::BLOCK_SIZE;
use crate::cards::names::good_name;
use crate::cards::one_file::small_knobs;
use crate::cards::tree::{self, last_index};
use crate::trial::Random;

/// So many names are tried for one whose blocks are behind many nodes.
const TRIED: usize = 2000;
const NAME_LEN: usize = 12;
/// Blocks in which a name is sought that leads to a whole bucket in each hash level in reach.
pub const SOUGHT: usize = 58;

pub struct DeepFolders {
    pub card: Card,
    pub path: Vec<u8>,
    pub ino: u32,
    /// The file's one block.
    pub index: u32,
    pub data: u32,
    /// Nodes and blocks on the way through the folders, each once for each block sought.
    nodes: Vec<u32>,
    blocks: Vec<u32>,
    of_file: (Vec<u32>, Vec<u32>),
    /// The last folder's last block, which has the file's name.
    pub last: u32,
}

impl DeepFolders {
    pub fn new(random: &mut Random, names: usize, inline: u64) -> DeepFolders {
        let shape = Shape {
            dir_level: DirLevel(0),
            inline,
            depth: MOST_DEPTH,
        };
        let knobs = Knobs {
            main_segments: 3,
            ..small_knobs(random)
        };
        let mut card = Card::new(knobs, Random::new(random.number()));
        let mut inodes: Vec<u32> = Vec::new();
        for _ in 0..names {
            inodes.push(add_folder(&mut card, shape, inodes.is_empty()));
        }
        let index = last_index(addresses_by(inline));
        let size = (u64::from(index) + 1) * BLOCK_SIZE as u64;
        let ino = card.add_file(inline, size);
        let data = card.add_block(ino, index);
        let mut of_file = (Vec::new(), vec![data]);
        list(&card.way(ino, index), &mut of_file.0, &mut of_file.1);
        let mut deep = DeepFolders {
            card,
            path: Vec::new(),
            ino,
            index,
            data,
            nodes: Vec::new(),
            blocks: Vec::new(),
            of_file,
            last: 0,
        };
        for (nth, &folder) in inodes.iter().enumerate() {
            let to = inodes.get(nth + 1).copied().unwrap_or(ino);
            deep.fill(random, folder, inline, to);
        }
        deep.card.image.settle(&format!("{names} deep folders"));
        deep
    }

    /// A name in the last block in which it is sought.
    fn fill(&mut self, random: &mut Random, folder: u32, inline: u64, to: u32) {
        let name = wide_name(random, inline);
        self.card.enter(folder);
        for (_, index) in sought(DirLevel(0), inline, &name) {
            self.last = self.card.directory_block(index);
            let way = self.card.way(folder, index);
            list(&way, &mut self.nodes, &mut self.blocks);
            self.blocks.push(self.last);
        }
        let dentry = Dentry::new(&name, to);
        self.card.image.put_dentry(self.last, 170, &dentry);
        if !self.path.is_empty() {
            self.path.push(b'/');
        }
        self.path.extend(name);
    }

    /// The lists of a search through all folders, the last name found or not.
    pub fn searched(&self) -> (Vec<u32>, Vec<u32>) {
        (self.nodes.clone(), self.blocks.clone())
    }

    /// The lists of a pull of the file's block.
    pub fn lists(&self) -> (Vec<u32>, Vec<u32>) {
        let (nodes, blocks) = &self.of_file;
        (
            [&self.nodes[..], nodes].concat(),
            [&self.blocks[..], blocks].concat(),
        )
    }
}

/// Of many names that have all blocks in reach, the one whose blocks are behind the most nodes.
fn wide_name(random: &mut Random, inline: u64) -> Vec<u8> {
    let names = (0..TRIED).map(|_| good_name(random, NAME_LEN));
    let wide = names.max_by_key(|name| {
        let blocks = sought(DirLevel(0), inline, name);
        (blocks.len(), nodes_to(inline, &blocks))
    });
    wide.expect("a name")
}

/// How many nodes are on the ways to these blocks.
fn nodes_to(inline: u64, blocks: &[(u32, u32)]) -> usize {
    let ways = blocks
        .iter()
        .flat_map(|&(_, index)| tree::way(addresses_by(inline), index));
    let places: BTreeSet<u32> = ways.map(|step| step.place).collect();
    places.len()
}

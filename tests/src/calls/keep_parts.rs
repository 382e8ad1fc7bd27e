//! Keep files by their parts, which are laid out as the paper lists them.

use std::ops::Range;

use crate::calls::compares::stored;
use crate::calls::lent::NUMBER_SIZE;
use crate::calls::pulls::{Call, Outcome};
use crate::cards::layout::BLOCK_SIZE;
use crate::{node_lookup, Entry, KeepFields};

/// Six numbers: "name length, node count, block count, offsets of nodes, blocks and end".
pub const HEADER_SIZE: usize = 6 * NUMBER_SIZE;
/// Index, answer and count of a pull.
const PULL_SIZE: usize = 3 * NUMBER_SIZE;
/// A listed node: its number, and the three numbers of its table answer.
pub const NODE_SIZE: usize = 4 * NUMBER_SIZE;
/// A listed block: its number, and all its bytes.
pub const CONTENT_SIZE: usize = NUMBER_SIZE + BLOCK_SIZE;

#[derive(Clone, Debug, PartialEq, Eq)]
pub struct Parts {
    pub path: Vec<u8>,
    /// Index, answer and count.
    pub pull: [u32; 3],
    pub block: Vec<u8>,
    /// Of the main area.
    pub bounds: [u32; 2],
    pub nodes: Vec<[u32; 4]>,
    pub blocks: Vec<(u32, Vec<u8>)>,
}

/// What some bytes of a keep file are.
#[derive(Clone, Copy, Debug, PartialEq, Eq)]
pub enum Place {
    Header,
    Path,
    /// Index, answer or count.
    Pull(usize),
    /// What the pull gave.
    Block,
    Bounds,
    Node,
    BlockNumber,
    /// The bytes of this listed block.
    Content(u32),
}

impl Place {
    /// Whether it is one number, and not the bytes of a path or block.
    pub fn is_number(self) -> bool {
        !matches!(self, Place::Path | Place::Block | Place::Content(_))
    }
}

impl Parts {
    /// Of a pull that came past opening: by its own lists, lookups of the nodes and the bytes of the image.
    pub fn of_pull(call: &Call, outcome: &Outcome) -> Parts {
        let opened = reference::open::open(call.bytes).expect("a card that opens");
        let pulled = &outcome.pulled;
        let node = |nid| {
            let Entry {
                answer,
                inode,
                address,
            } = node_lookup(call.bytes, nid);
            [nid, answer, inode, address]
        };
        let content = |block| {
            let at = block as usize * BLOCK_SIZE;
            (block, call.bytes[at..at + BLOCK_SIZE].to_vec())
        };
        Parts {
            path: call.name.to_vec(),
            pull: [call.index, pulled.answer, pulled.byte_count],
            block: match pulled.answer {
                0 => outcome.lent.block.bytes().to_vec(),
                _ => vec![0; BLOCK_SIZE],
            },
            bounds: [opened.main_start, opened.main_end],
            nodes: outcome.nodes().into_iter().map(node).collect(),
            blocks: outcome.blocks().into_iter().map(content).collect(),
        }
    }

    /// Of a file, by what reading it gave.
    pub fn of_file(file: &[u8], fields: &KeepFields) -> Parts {
        let part = |at: u32, len: usize| &file[at as usize..][..len];
        let nodes = part(fields.nodes_at, fields.node_count as usize * NODE_SIZE);
        let blocks = part(fields.blocks_at, fields.block_count as usize * CONTENT_SIZE);
        let content = |entry: &[u8]| {
            let ([number], bytes) = (numbers(entry), &entry[NUMBER_SIZE..]);
            (number, bytes.to_vec())
        };
        Parts {
            path: part(fields.path_at, fields.path_len as usize).to_vec(),
            pull: [fields.index, fields.pull_answer, fields.byte_count],
            block: part(fields.block_at, BLOCK_SIZE).to_vec(),
            bounds: [fields.main_start, fields.main_end],
            nodes: nodes.chunks(NODE_SIZE).map(numbers).collect(),
            blocks: blocks.chunks(CONTENT_SIZE).map(content).collect(),
        }
    }

    /// The same with something changed.
    pub fn with(&self, change: impl FnOnce(&mut Parts)) -> Parts {
        let mut parts = self.clone();
        change(&mut parts);
        parts
    }

    /// What stands behind the header: all up to the nodes, the nodes, and the blocks.
    fn sections(&self) -> [Vec<u8>; 3] {
        let [pull, bounds] = [&self.pull[..], &self.bounds].map(stored);
        let content = |(number, bytes): &(u32, Vec<u8>)| [&stored(&[*number])[..], bytes].concat();
        let contents: Vec<Vec<u8>> = self.blocks.iter().map(content).collect();
        [
            [&self.path[..], &pull, &self.block, &bounds].concat(),
            stored(self.nodes.as_flattened()),
            contents.concat(),
        ]
    }

    /// Three lengths and counts, and where the sections after the first start and the last ends.
    fn header(&self, sections: &[Vec<u8>; 3]) -> [u32; 6] {
        let mut end = HEADER_SIZE;
        let [nodes_at, blocks_at, length] = sections.each_ref().map(|section| {
            end += section.len();
            end as u32
        });
        let counts = [self.path.len(), self.nodes.len(), self.blocks.len()];
        let [path_len, node_count, block_count] = counts.map(|count| count as u32);
        [
            path_len,
            node_count,
            block_count,
            nodes_at,
            blocks_at,
            length,
        ]
    }

    /// The file, without gaps.
    pub fn laid_out(&self) -> Vec<u8> {
        let sections = self.sections();
        let header = stored(&self.header(&sections));
        [header, sections.concat()].concat()
    }

    /// What reading the file gives, if it isn't refused.
    pub fn fields(&self) -> KeepFields {
        let header = self.header(&self.sections());
        let [path_len, node_count, block_count, nodes_at, blocks_at, length] = header;
        let [index, pull_answer, byte_count] = self.pull;
        let [main_start, main_end] = self.bounds;
        KeepFields {
            answer: 0,
            path_len,
            index,
            pull_answer,
            byte_count,
            main_start,
            main_end,
            node_count,
            block_count,
            path_at: HEADER_SIZE as u32,
            block_at: (HEADER_SIZE + PULL_SIZE) as u32 + path_len,
            nodes_at,
            blocks_at,
            length,
        }
    }

    /// All numbers and bytes of the file, in order: each number by itself, and the bytes of a path or block together.
    pub fn places(&self) -> Vec<(Range<usize>, Place)> {
        use Place::*;
        let mut sizes = vec![(NUMBER_SIZE, Header); HEADER_SIZE / NUMBER_SIZE];
        sizes.push((self.path.len(), Path));
        sizes.extend([0, 1, 2].map(|nth| (NUMBER_SIZE, Pull(nth))));
        sizes.push((BLOCK_SIZE, Block));
        sizes.extend([(NUMBER_SIZE, Bounds); 2]);
        let node_numbers = self.nodes.len() * NODE_SIZE / NUMBER_SIZE;
        sizes.extend(vec![(NUMBER_SIZE, Node); node_numbers]);
        for (number, bytes) in &self.blocks {
            sizes.push((NUMBER_SIZE, BlockNumber));
            sizes.push((bytes.len(), Content(*number)));
        }
        let mut start = 0;
        let place = |(size, place)| {
            start += size;
            (start - size..start, place)
        };
        sizes.into_iter().map(place).collect()
    }
}

/// The first numbers of some bytes.
pub fn numbers<const N: usize>(bytes: &[u8]) -> [u32; N] {
    std::array::from_fn(|nth| {
        let stored = &bytes[nth * NUMBER_SIZE..][..NUMBER_SIZE];
        u32::from_le_bytes(stored.try_into().unwrap())
    })
}

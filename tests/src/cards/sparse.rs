//! The bytes of an image. Most of a large card is zeros that nothing is ever written to: they take neither memory nor
//! time, whatever the card's size.

use std::fs::File;
use std::ops::{Deref, DerefMut, Index, IndexMut, Range};
use std::os::unix::fs::FileExt;
use std::path::Path;

use crate::cards::layout::BLOCK_SIZE;
use crate::system::{need_room, next_data, sparse_file, Zeros};

/// So many bytes of a file are read at once.
const AT_ONCE: usize = 256 * BLOCK_SIZE;

/// Up to here an image is in a Vec, whose allocator gives out again what it got back: that is faster than fresh pages.
const IN_VEC: usize = 32 << 20;

pub struct Sparse {
    bytes: Box<dyn DerefMut<Target = [u8]> + Send + Sync>,
    /// A bit for each block, from the bottom of a word on: whether it was ever lent for writing.
    written: Vec<u64>,
}

impl Sparse {
    pub fn zeros(len: usize) -> Sparse {
        let blocks = len.div_ceil(BLOCK_SIZE);
        Sparse {
            bytes: match len {
                ..=IN_VEC => Box::new(vec![0; len]),
                _ => Box::new(Zeros::new(len)),
            },
            written: vec![0; blocks.div_ceil(64)],
        }
    }

    /// The bytes of a file, of which holes aren't read.
    pub fn read(file: &File) -> Sparse {
        let len = file.metadata().expect("a file's length").len();
        let mut bytes = Sparse::zeros(len as usize);
        let mut part = vec![0; AT_ONCE];
        let mut end = 0;
        while let Some(data) = next_data(file, end) {
            for at in data.clone().step_by(AT_ONCE) {
                let part = &mut part[..AT_ONCE.min((data.end - at) as usize)];
                file.read_exact_at(part, at).expect("a file's bytes");
                bytes.put(at as usize, part);
            }
            end = data.end;
        }
        bytes
    }

    /// Writes those blocks of some bytes that aren't zeros.
    fn put(&mut self, at: usize, bytes: &[u8]) {
        for (n, block) in bytes.chunks(BLOCK_SIZE).enumerate() {
            if !is_zeros(block) {
                let start = at + n * BLOCK_SIZE;
                self[start..start + block.len()].copy_from_slice(block);
            }
        }
    }

    /// The blocks that aren't zeros, each with its place.
    pub fn data(&self) -> impl Iterator<Item = (usize, &[u8])> {
        let words = self.written.iter().enumerate();
        let words = words.filter(|(_, &word)| word != 0);
        let blocks = words.flat_map(|(n, word)| {
            let bits = (0..64).filter(move |bit| word >> bit & 1 == 1);
            bits.map(move |bit| 64 * n + bit)
        });
        let placed = blocks.map(|block| {
            let start = block * BLOCK_SIZE;
            let end = self.bytes.len().min(start + BLOCK_SIZE);
            (start, &self.bytes[start..end])
        });
        placed.filter(|(_, block)| !is_zeros(block))
    }

    /// Writes them to a file, in which blocks of zeros take no room.
    pub fn save(&self, path: &Path) {
        let written: u32 = self.written.iter().map(|word| word.count_ones()).sum();
        let room = u64::from(written) * BLOCK_SIZE as u64;
        need_room(path.parent().expect("a folder"), room);
        let file = sparse_file(path, self.bytes.len() as u64);
        for (at, block) in self.data() {
            let written = file.write_all_at(block, at as u64);
            written.expect("an image's bytes");
        }
    }
}

fn is_zeros(block: &[u8]) -> bool {
    *block == [0; BLOCK_SIZE][..block.len()]
}

impl Deref for Sparse {
    type Target = [u8];

    fn deref(&self) -> &[u8] {
        &self.bytes
    }
}

impl Index<Range<usize>> for Sparse {
    type Output = [u8];

    fn index(&self, place: Range<usize>) -> &[u8] {
        &self.bytes[place]
    }
}

impl IndexMut<Range<usize>> for Sparse {
    fn index_mut(&mut self, place: Range<usize>) -> &mut [u8] {
        for block in place.start / BLOCK_SIZE..place.end.div_ceil(BLOCK_SIZE) {
            self.written[block / 64] |= 1 << (block % 64);
        }
        &mut self.bytes[place]
    }
}

impl Clone for Sparse {
    fn clone(&self) -> Sparse {
        let mut copy = Sparse::zeros(self.bytes.len());
        for (at, block) in self.data() {
            copy[at..at + block.len()].copy_from_slice(block);
        }
        copy
    }
}

//! An entry of a directory, and where a block has it.

use reference::hash::raw_hash;

use crate::cards::layout::dentry::*;
use crate::cards::layout::Field;
use crate::trial::Random;

/// An entry as it is stored; it needn't be as it should.
#[derive(Clone, Debug)]
pub struct Dentry {
    pub hash: u32,
    pub ino: u32,
    pub len: usize,
    pub name: Vec<u8>,
}

impl Dentry {
    pub fn new(name: &[u8], ino: u32) -> Dentry {
        Dentry {
            hash: raw_hash(name),
            ino,
            len: name.len(),
            name: name.to_vec(),
        }
    }

    /// An entry for another name that has the hash of this one.
    pub fn under_hash_of(self, name: &[u8]) -> Dentry {
        Dentry {
            hash: raw_hash(name),
            ..self
        }
    }

    pub fn slots(&self) -> usize {
        self.len.div_ceil(SLOT_LEN)
    }

    /// Entries that differ from this one in the hash, in one bit of the name or in the length.
    pub fn near(&self, random: &mut Random) -> Vec<Dentry> {
        let with_name = |name: Vec<u8>| Dentry {
            len: name.len(),
            name,
            ..self.clone()
        };
        let mut near = Vec::new();
        for bit in 0..32 {
            let hash = self.hash ^ 1 << bit;
            near.push(Dentry {
                hash,
                ..self.clone()
            });
        }
        for place in 0..self.len {
            let mut name = self.name.clone();
            name[place] ^= 1 << random.below(8);
            near.push(with_name(name));
        }
        for len in [self.len - 1, self.len + 1] {
            if (1..=LONGEST_NAME).contains(&len) {
                let mut name = self.name.clone();
                name.resize(len, b'x');
                near.push(with_name(name));
            }
        }
        near
    }
}

/// A field of a slot's entry in a directory block.
pub fn in_slot(field: Field, slot: usize) -> Field {
    IN_BLOCK.in_slot(field, slot)
}

/// The byte of a directory block's map that has a slot's bit.
pub fn map_byte(slot: usize) -> Field {
    IN_BLOCK.map_byte(slot)
}

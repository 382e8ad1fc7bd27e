//! Where the numbers stand that the library consults, under their names in the Linux header
//! f2fs_fs.h. All are little-endian; places count from the start of a block.

pub const BLOCK_SIZE: usize = 4096;
pub const SEGMENT_BLOCKS: u32 = 512;

/// A number in a block: its first byte there, and how many bytes it has.
#[derive(Clone, Copy, Debug, PartialEq, Eq)]
pub struct Field {
    pub name: &'static str,
    pub at: usize,
    pub size: usize,
}

impl Field {
    /// The same field where its structure starts `by` bytes later.
    pub const fn moved(self, by: usize) -> Field {
        Field {
            at: self.at + by,
            ..self
        }
    }

    /// The greatest number that it holds.
    pub fn greatest(self) -> u64 {
        u64::MAX >> (64 - 8 * self.size)
    }
}

/// Constants of fields, `NAME: size at place`, for a structure that starts at a byte of its block;
/// `ALL` has them all.
macro_rules! fields {
    (from $start:literal: $($name:ident: $size:literal at $at:literal,)*) => {
        $(pub const $name: $crate::cards::layout::Field = $crate::cards::layout::Field {
            name: stringify!($name),
            at: $start + $at,
            size: $size,
        };)*
        pub const ALL: &[$crate::cards::layout::Field] = &[$($name),*];
    };
}

/// The superblock, of which block 0 and block 1 have a copy each.
pub mod superblock {
    fields! { from 1024:
        MAGIC: 4 at 0,
        LOG_SECTORSIZE: 4 at 8,
        LOG_SECTORS_PER_BLOCK: 4 at 12,
        LOG_BLOCKSIZE: 4 at 16,
        LOG_BLOCKS_PER_SEG: 4 at 20,
        SEGS_PER_SEC: 4 at 24,
        SECS_PER_ZONE: 4 at 28,
        BLOCK_COUNT: 8 at 36,
        SEGMENT_COUNT: 4 at 48,
        SEGMENT_COUNT_CKPT: 4 at 52,
        SEGMENT_COUNT_SIT: 4 at 56,
        SEGMENT_COUNT_NAT: 4 at 60,
        SEGMENT_COUNT_SSA: 4 at 64,
        SEGMENT_COUNT_MAIN: 4 at 68,
        SEGMENT0_BLKADDR: 4 at 72,
        CP_BLKADDR: 4 at 76,
        SIT_BLKADDR: 4 at 80,
        NAT_BLKADDR: 4 at 84,
        SSA_BLKADDR: 4 at 88,
        MAIN_BLKADDR: 4 at 92,
        ROOT_INO: 4 at 96,
        NODE_INO: 4 at 100,
        META_INO: 4 at 104,
        CP_PAYLOAD: 4 at 1664,
        FEATURE: 4 at 2180,
    }

    /// Where the areas start, in their order on the card.
    pub const STARTS: [super::Field; 6] = [
        SEGMENT0_BLKADDR,
        CP_BLKADDR,
        SIT_BLKADDR,
        NAT_BLKADDR,
        SSA_BLKADDR,
        MAIN_BLKADDR,
    ];

    /// The bytes 10 20 F5 F2.
    pub const F2FS_SUPER_MAGIC: u64 = 0xF2F5_2010;
}

/// A checkpoint block: the first or the last of a pack.
pub mod checkpoint {
    fields! { from 0:
        CHECKPOINT_VER: 8 at 0,
        CKPT_FLAGS: 4 at 132,
        CP_PACK_TOTAL_BLOCK_COUNT: 4 at 136,
        CP_PACK_START_SUM: 4 at 140,
        SIT_VER_BITMAP_BYTESIZE: 4 at 156,
        NAT_VER_BITMAP_BYTESIZE: 4 at 160,
        CHECKSUM_OFFSET: 4 at 164,
        CHECKSUM: 4 at 4092,
    }

    /// How many valid blocks a pack has by its own count, which no call consults.
    pub const VALID_BLOCK_COUNT: super::Field = super::Field {
        name: "VALID_BLOCK_COUNT",
        at: 16,
        size: 8,
    };

    /// Where the SIT map starts. The NAT map follows it.
    pub const SIT_NAT_VERSION_BITMAP: usize = 192;

    pub const CP_UMOUNT_FLAG: u32 = 0x1;
    pub const CP_COMPACT_SUM_FLAG: u32 = 0x4;
    pub const CP_ERROR_FLAG: u32 = 0x8;
    pub const CP_FSCK_FLAG: u32 = 0x10;
    pub const CP_FASTBOOT_FLAG: u32 = 0x20;
    pub const CP_LARGE_NAT_BITMAP_FLAG: u32 = 0x400;

    /// With any of these a pack isn't read.
    pub const UNREAD: [u32; 3] = [CP_ERROR_FLAG, CP_FSCK_FLAG, CP_LARGE_NAT_BITMAP_FLAG];
    pub const ALL_UNREAD: u32 = CP_ERROR_FLAG | CP_FSCK_FLAG | CP_LARGE_NAT_BITMAP_FLAG;
    /// These say where the journals are; and each mix of them.
    pub const PLACING: u32 = CP_UMOUNT_FLAG | CP_COMPACT_SUM_FLAG | CP_FASTBOOT_FLAG;
    pub const PLACINGS: [u32; 8] = [
        0,
        CP_UMOUNT_FLAG,
        CP_FASTBOOT_FLAG,
        CP_UMOUNT_FLAG | CP_FASTBOOT_FLAG,
        CP_COMPACT_SUM_FLAG,
        CP_COMPACT_SUM_FLAG | CP_UMOUNT_FLAG,
        CP_COMPACT_SUM_FLAG | CP_FASTBOOT_FLAG,
        CP_COMPACT_SUM_FLAG | CP_UMOUNT_FLAG | CP_FASTBOOT_FLAG,
    ];
}

/// The node address table.
pub mod nat {
    pub const ENTRIES_PER_BLOCK: u32 = 455;
    /// Table blocks of a segment: half of its blocks, as each has two copies.
    pub const BLOCKS_PER_SEGMENT: u32 = 256;
    pub const ENTRY_SIZE: usize = 9;
    /// Bytes of a map for each segment of its area.
    pub const MAP_BYTES_PER_SEGMENT: u32 = 32;

    // The numbers of a block's first entry.
    fields! { from 0:
        VERSION: 1 at 0,
        INO: 4 at 1,
        BLOCK_ADDR: 4 at 5,
    }

    /// What the table says of a node number.
    #[derive(Clone, Copy, Debug, PartialEq, Eq)]
    pub struct NatEntry {
        pub version: u8,
        pub ino: u32,
        pub block_addr: u32,
    }

    impl NatEntry {
        pub fn stored(self) -> Vec<u8> {
            let numbers = [self.ino.to_le_bytes(), self.block_addr.to_le_bytes()];
            [&[self.version], numbers.as_flattened()].concat()
        }

        pub fn read(stored: &[u8]) -> NatEntry {
            let number = |at: usize| u32::from_le_bytes(stored[at..at + 4].try_into().unwrap());
            NatEntry {
                version: stored[0],
                ino: number(1),
                block_addr: number(5),
            }
        }
    }
}

/// The NAT journal, wherever in its block it starts.
pub mod journal {
    use std::collections::BTreeSet;

    use super::nat::NatEntry;

    // The count, and the numbers of the first entry.
    fields! { from 0:
        N_NATS: 2 at 0,
        NID: 4 at 2,
        INO: 4 at 7,
        BLOCK_ADDR: 4 at 11,
    }

    pub const ENTRY_SIZE: usize = 13;
    /// The most entries that are read.
    pub const MOST_ENTRIES: usize = 38;
    /// Where a journal starts in a compact summary block, and in a plain one.
    pub const IN_COMPACT_BLOCK: usize = 0;
    pub const IN_PLAIN_BLOCK: usize = 3584;

    /// Whether two entries have the same number.
    pub fn names_one_twice(journal: &[JournalEntry]) -> bool {
        let numbers: BTreeSet<u32> = journal.iter().map(|entry| entry.nid).collect();
        numbers.len() < journal.len()
    }

    /// A table entry that stands in the journal.
    #[derive(Clone, Copy, Debug, PartialEq, Eq)]
    pub struct JournalEntry {
        pub nid: u32,
        pub entry: NatEntry,
    }

    impl JournalEntry {
        pub fn stored(self) -> Vec<u8> {
            [&self.nid.to_le_bytes(), self.entry.stored().as_slice()].concat()
        }

        pub fn read(stored: &[u8]) -> JournalEntry {
            let (nid, entry) = stored.split_at(NID.size);
            JournalEntry {
                nid: u32::from_le_bytes(nid.try_into().unwrap()),
                entry: NatEntry::read(entry),
            }
        }
    }
}

/// The segment information table.
pub mod sit {
    pub const ENTRIES_PER_BLOCK: u32 = 55;
    pub const ENTRY_SIZE: usize = 74;
    /// Where the map of valid blocks stands in an entry, and its bytes.
    pub const VALID_MAP: usize = 2;
    pub const MAP_SIZE: usize = 64;
    /// The count has the bits below it, the segment's type those from it on.
    pub const VBLOCKS_SHIFT: u32 = 10;
    /// Enough of the map between the table's copies: no card has more than 149 table blocks in use.
    pub const VER_BITMAP_BYTES: usize = 19;

    // The numbers of a block's first entry.
    fields! { from 0:
        VBLOCKS: 2 at 0,
        MTIME: 8 at 66,
    }

    /// What the table says of a segment.
    #[derive(Clone, Copy, Debug, PartialEq, Eq)]
    pub struct SitEntry {
        pub count: u16,
        pub seg_type: u16,
        pub valid_map: [u8; MAP_SIZE],
        pub mtime: u64,
    }

    impl SitEntry {
        /// Sound, with this map. Type and time, by which nothing is judged, aren't zeros.
        pub fn of(valid_map: [u8; MAP_SIZE]) -> SitEntry {
            let mut entry = SitEntry {
                count: 0,
                seg_type: 5,
                valid_map,
                mtime: u64::MAX,
            };
            entry.count = entry.ones() as u16;
            entry
        }

        /// Sound, with as many valid blocks at the segment's start.
        pub fn filled(blocks: u32) -> SitEntry {
            let mut map = [0; MAP_SIZE];
            for block in 0..blocks as usize {
                map[block / 8] |= 0x80 >> (block % 8);
            }
            SitEntry::of(map)
        }

        /// With as many, and any count.
        pub fn counted(count: u16, blocks: u32) -> SitEntry {
            SitEntry {
                count,
                ..SitEntry::filled(blocks)
            }
        }

        /// How many valid blocks its map marks.
        pub fn ones(&self) -> u32 {
            self.valid_map.iter().map(|byte| byte.count_ones()).sum()
        }

        pub fn is_off(&self) -> bool {
            u32::from(self.count) != self.ones()
        }

        pub fn stored(&self) -> Vec<u8> {
            let vblocks = self.seg_type << VBLOCKS_SHIFT | self.count;
            let [vblocks, mtime] = [&vblocks.to_le_bytes()[..], &self.mtime.to_le_bytes()];
            [vblocks, &self.valid_map, mtime].concat()
        }

        pub fn read(stored: &[u8]) -> SitEntry {
            let vblocks = u16::from_le_bytes(stored[..VALID_MAP].try_into().unwrap());
            let (map, rest) = stored[VALID_MAP..].split_at(MAP_SIZE);
            SitEntry {
                count: vblocks % (1 << VBLOCKS_SHIFT),
                seg_type: vblocks >> VBLOCKS_SHIFT,
                valid_map: map.try_into().unwrap(),
                mtime: u64::from_le_bytes(rest[..MTIME.size].try_into().unwrap()),
            }
        }
    }
}

/// The SIT journal, wherever in its block it starts.
pub mod sit_journal {
    use super::sit::SitEntry;

    // The count, and the number of the first entry.
    fields! { from 0:
        N_SITS: 2 at 0,
        SEGNO: 4 at 2,
    }

    pub const ENTRY_SIZE: usize = 78;
    /// The most entries that are read.
    pub const MOST_ENTRIES: usize = 6;
    /// In a compact pack it stands behind the NAT journal, in the same block.
    pub const IN_COMPACT_BLOCK: usize = 507;
    pub const IN_PLAIN_BLOCK: usize = super::journal::IN_PLAIN_BLOCK;
    /// In a plain pack it is in the summary of cold data; the NAT journal is in that of hot data.
    pub const BLOCKS_AFTER_NAT: u32 = 2;

    /// A table entry that stands in the journal.
    #[derive(Clone, Copy, Debug, PartialEq, Eq)]
    pub struct SitJournalEntry {
        pub segno: u32,
        pub entry: SitEntry,
    }

    impl SitJournalEntry {
        pub fn stored(&self) -> Vec<u8> {
            [&self.segno.to_le_bytes(), self.entry.stored().as_slice()].concat()
        }
    }
}

/// The end of a node block.
pub mod footer {
    fields! { from 4072:
        NID: 4 at 0,
        INO: 4 at 4,
        FLAG: 4 at 8,
    }

    /// The flag word has the node's place number from this bit on.
    pub const OFFSET_BIT_SHIFT: u32 = 3;
}

/// An inode, at the start of its node block.
pub mod inode {
    fields! { from 0:
        I_MODE: 2 at 0,
        I_INLINE: 1 at 3,
        I_SIZE: 8 at 16,
        I_CURRENT_DEPTH: 4 at 72,
        I_DIR_LEVEL: 1 at 347,
    }

    // Numbers that only the program's words speak of.
    pub const I_ADVISE: super::Field = super::Field {
        name: "I_ADVISE",
        at: 2,
        size: 1,
    };
    pub const I_FLAGS: super::Field = super::Field {
        name: "I_FLAGS",
        at: 80,
        size: 4,
    };
    pub const ADVISE_ENCRYPT: u64 = 0x04;
    pub const FLAG_COMPRESSED: u64 = 0x04;

    /// The file's name as the tools note it here too: its length, and the place of its bytes.
    pub const I_NAMELEN: super::Field = super::Field {
        name: "I_NAMELEN",
        at: 88,
        size: 4,
    };
    pub const I_NAME: usize = 92;

    pub const S_IFREG: u64 = 0x8000;
    pub const S_IFDIR: u64 = 0x4000;

    /// With it the inode has fewer addresses, and less room for a file's bytes.
    pub const INLINE_XATTR: u64 = 0x01;
    /// A file's bytes or a directory's entries stand in the inode.
    pub const INLINE_DATA: u64 = 0x02;
    pub const INLINE_DENTRY: u64 = 0x04;
    /// A kind that isn't read: the addresses start further on.
    pub const EXTRA_ATTR: u64 = 0x20;

    pub const ADDRESSES: u32 = 923;
    pub const ADDRESSES_WITH_XATTR: u32 = 873;

    /// Where contents start that stand in the inode, and the room for a file's.
    pub const INLINE_AT: usize = 364;
    pub const INLINE_ROOM: usize = 3688;
    pub const INLINE_ROOM_WITH_XATTR: usize = 3488;
    /// The room for a directory's, with that bit or without.
    pub const INLINE_DIRECTORY_ROOM: usize = 3488;
}

/// The first of the slots in a node block that lead on: addresses and node numbers in an inode, and
/// one or the other in every other node.
pub mod slots {
    fields! { from 0:
        I_ADDR: 4 at 360,
        I_NID: 4 at 4052,
        ADDR_OR_NID: 4 at 0,
    }

    pub const SIZE: usize = 4;
    pub const NIDS_PER_INODE: usize = 5;

    /// The node numbers of an inode.
    pub fn node_numbers() -> impl Iterator<Item = super::Field> {
        (0..NIDS_PER_INODE).map(|nth| I_NID.moved(nth * SIZE))
    }

    /// In a node that isn't an inode.
    pub const PER_NODE: u64 = 1018;
}

/// The slots of a directory.
pub mod dentry {
    // The numbers of the first slot's entry in a block.
    fields! { from 30:
        HASH_CODE: 4 at 0,
        INO: 4 at 4,
        NAME_LEN: 2 at 8,
        FILE_TYPE: 1 at 10,
    }

    pub const NR_DENTRY_IN_BLOCK: usize = 214;
    pub const MAP_BYTES: usize = 27;
    pub const ENTRY_SIZE: usize = 11;
    /// Bytes of a name in one slot.
    pub const SLOT_LEN: usize = 8;
    pub const FILENAMES: usize = 2384;
    pub const LONGEST_NAME: usize = 255;
    /// From the map's first byte to the first entry.
    pub const BEFORE_ENTRIES: usize = 30;

    /// Where the slots stand in 4,096 bytes.
    #[derive(Clone, Copy, Debug, PartialEq, Eq)]
    pub struct Layout {
        pub name: &'static str,
        /// The first byte of the map.
        pub start: usize,
        pub map_bytes: usize,
        pub slots: usize,
        /// From there to the first name.
        pub filenames: usize,
    }

    /// A block of a directory.
    pub const IN_BLOCK: Layout = Layout {
        name: "in a block",
        start: 0,
        map_bytes: MAP_BYTES,
        slots: NR_DENTRY_IN_BLOCK,
        filenames: FILENAMES,
    };
    /// A directory that stands in its inode.
    pub const IN_INODE: Layout = Layout {
        name: "in an inode",
        start: super::inode::INLINE_AT,
        map_bytes: 23,
        slots: 182,
        filenames: 2032,
    };
    pub const LAYOUTS: [Layout; 2] = [IN_BLOCK, IN_INODE];

    impl Layout {
        /// A field of a slot's entry.
        pub fn in_slot(self, field: super::Field, slot: usize) -> super::Field {
            field.moved(self.start + slot * ENTRY_SIZE)
        }

        /// The byte of the map that has a slot's bit.
        pub fn map_byte(self, slot: usize) -> super::Field {
            super::Field {
                name: "directory map",
                at: self.start + slot / 8,
                size: 1,
            }
        }

        /// The first byte of a slot's name.
        pub fn name_at(self, slot: usize) -> usize {
            self.start + self.filenames + slot * SLOT_LEN
        }
    }
}

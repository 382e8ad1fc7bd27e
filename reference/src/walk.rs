//! The walk through an opened volume: down the directories, then to the file's block.

use std::collections::BTreeSet;

use crate::hash::raw_hash;
use crate::inode::{DirectorySlots, FileBlock, Inode};
use crate::levels::HashLevel;
use crate::lookup::lookup_in;
use crate::node::{expect_node_address, onward, Onward, Sought};
use crate::open::Volume;
use crate::place::{directory_place, Place, Way};
use crate::slots::{search_block, search_inline};

pub const ROOT: u32 = 3;

/// The file's block that was asked for: data, or a hole without.
pub struct Found<'a> {
    /// 1 to 4,096.
    pub count: u32,
    pub data: Option<&'a [u8]>,
}

/// The walk through an opened volume, with the node numbers asked of the table and the blocks of
/// the main area read so far. Errors are answer numbers.
pub struct Walk<'a> {
    pub volume: Volume<'a>,
    pub nodes: BTreeSet<u32>,
    pub blocks: BTreeSet<u32>,
}

impl<'a> Walk<'a> {
    pub fn new(volume: Volume<'a>) -> Walk<'a> {
        Walk { volume, nodes: BTreeSet::new(), blocks: BTreeSet::new() }
    }

    /// Document 01: "then walks the root, then the file, and stops at the first of 2, 3, 9 to 14
    /// that it meets"
    pub fn root_then_file(&mut self, name: &[u8], index: u32) -> Result<Found<'a>, u32> {
        let number = self.search_directory(ROOT, name)?;
        self.read_file(number, index)
    }

    /// K7: the root, then the directories on the way, then the file, with the same stops. The lists
    /// go on over all of them, so what is met twice is listed once.
    pub fn path_then_file(&mut self, names: &[&[u8]], index: u32) -> Result<Found<'a>, u32> {
        let mut number = ROOT;
        for name in names {
            number = self.search_directory(number, name)?;
        }
        self.read_file(number, index)
    }

    /// Block `index` of the regular file with this inode number.
    fn read_file(&mut self, number: u32, index: u32) -> Result<Found<'a>, u32> {
        let inode = self.read_inode(number)?;
        let (count, place) = inode.file_block(index)?;
        let data = match place {
            FileBlock::Inline(bytes) => Some(bytes),
            FileBlock::Below(way) => self.read_data(&inode, &way)?,
        };
        Ok(Found { count, data })
    }

    fn read_inode(&mut self, number: u32) -> Result<Inode<'a>, u32> {
        let block = self.read_node(Sought::inode(number))?;
        Ok(Inode { number, block })
    }

    /// "At a node: 9, 10, then the block is read and listed, then 11"
    fn read_node(&mut self, sought: Sought) -> Result<&'a [u8], u32> {
        // A number asked of the table is listed, also if the answer is 9.
        self.nodes.insert(sought.number);
        let (table_inode, address) = lookup_in(&self.volume, sought.number)?;
        expect_node_address(address, self.volume.main_area())?;
        let node = self.read_block(address);
        sought.expect_in(node, table_inode)?;
        Ok(node)
    }

    /// Follows the way from the inode; `None` is a hole.
    fn read_data(&mut self, inode: &Inode<'a>, way: &Way) -> Result<Option<&'a [u8]>, u32> {
        let mut node = inode.block;
        for depth in 0..way.steps().len() {
            match onward(way, depth, node, self.volume.main_area())? {
                Onward::Hole => break,
                Onward::Node { number, place } => {
                    node = self.read_node(Sought { number, inode: inode.number, place })?;
                }
                Onward::Block(address) => return Ok(Some(self.read_block(address))),
            }
        }
        Ok(None)
    }

    /// Reads and lists a block of the main area.
    fn read_block(&mut self, address: u32) -> &'a [u8] {
        self.blocks.insert(address);
        self.volume.block(address)
    }

    /// The inode number under this name in the directory with this inode number. "Each name but
    /// the last must be a directory, else 12": the root and those on the way are tested alike.
    fn search_directory(&mut self, number: u32, name: &[u8]) -> Result<u32, u32> {
        let directory = self.read_inode(number)?;
        let slots = directory.slots_to_search()?;
        let hash = raw_hash(name);
        match slots {
            // "An inline inode is listed with its block and no data block of its own."
            DirectorySlots::Inline => search_inline(directory.block, name, hash)?.ok_or(2),
            DirectorySlots::Blocks(levels) => self.search(&directory, &levels, name, hash),
        }
    }

    /// The name in these hash levels: "in each the bucket hash mod buckets, its blocks in order,
    /// slots rising, stopping at the first match".
    fn search(
        &mut self,
        directory: &Inode<'a>,
        levels: &[HashLevel],
        name: &[u8],
        hash: u32,
    ) -> Result<u32, u32> {
        for index in levels.iter().flat_map(|level| level.searched(hash)) {
            let Some(block) = self.directory_block(directory, index)? else {
                continue;
            };
            if let Some(inode) = search_block(block, name, hash)? {
                return Ok(inode);
            }
        }
        Err(2)
    }

    /// "A hole is an empty block, with only the nodes on the way to it looked up and read; so is
    /// an index past the last place, for which nothing is looked up or read." A hash level may lie
    /// partly before the last place and partly past it, and so may a bucket.
    fn directory_block(
        &mut self,
        directory: &Inode<'a>,
        index: u64,
    ) -> Result<Option<&'a [u8]>, u32> {
        match directory_place(directory.addresses(), index) {
            Place::Way(way) => self.read_data(directory, &way),
            Place::BadAddresses | Place::Past => Ok(None),
        }
    }
}

#[cfg(test)]
mod tests {
    use super::*;
    use crate::open::open;
    use crate::path::{names, MOST_ROOMS};
    use crate::place::ADDRESSES;
    use crate::sample::{directory, numbers, path, with_directories, Lent, Sample, NAME};

    /// The root with this directory level and depth, and no blocks in it.
    fn leveled(level: u8, depth: u32) -> Sample {
        let mut sample = Sample::with_path(1, 4097);
        sample.put_levels(4096, level, depth);
        sample
    }

    /// The outcome of a search in the root for the name under any hash, with nodes and blocks.
    fn searched(sample: &Sample, hash: u32) -> (Result<u32, u32>, Vec<u32>, Vec<u32>) {
        let mut walk = Walk::new(open(&sample.bytes).unwrap());
        let root = walk.read_inode(ROOT).unwrap();
        let levels = root.hash_levels().unwrap();
        let found = walk.search(&root, &levels, NAME, hash);
        (found, walk.nodes.into_iter().collect(), walk.blocks.into_iter().collect())
    }

    /// The buckets around the last index, 1,057,053,438 with 923 addresses and 1,057,053,388 with
    /// 873, at depth 63. Both indexes are the last slot of the last leaf.
    #[test]
    fn part_of_a_hash_level_before_the_last_index() {
        // In hash level 0 of levels 29 and 30 half the last index: 528,526,719 and 528,526,694.
        // With level 23, hash level 6 starts at 2^24 × 63 = 1,056,964,608; half of what is left is
        // 44,415 and 44,390. Hash levels 1 to 5 lead to holes below the double node there.
        for (level, inline, bucket, on_the_way) in [
            (29, 0, 528_526_719, 1),
            (30, 0, 528_526_719, 1),
            (29, 1, 528_526_694, 1),
            (30, 1, 528_526_694, 1),
            (23, 0, 44_415, 2),
            (23, 1, 44_390, 2),
        ] {
            let mut sample = leveled(level, 63);
            sample.put(4096, 3, &[inline]);
            // Double node 2041, its child 2042 + 1019 × 1017, the leaf 2043 + 1019 × 1017 + 1017.
            sample.put32(4096, 4052 + 4 * 4, 20);
            sample.put_node(20, 3, 2041, 4300);
            sample.put32(4300, 4 * 1017, 21);
            sample.put_node(21, 3, 1_038_365, 4301);
            sample.put32(4301, 4 * 1017, 22);
            sample.put_node(22, 3, 1_039_383, 4302);
            sample.put32(4302, 4 * 1017, 4303);
            sample.put_dentry(4303, 0, bucket, 7, NAME);
            let (nodes, blocks) = ([3, 20, 21, 22], [4096, 4300, 4301, 4302, 4303]);
            let full = |found| (found, nodes.to_vec(), blocks.to_vec());
            assert_eq!(searched(&sample, bucket), full(Ok(7)), "level {level}");
            // One bucket earlier: holes below the same leaf.
            let holes = (Err(2), nodes.to_vec(), blocks[..4].to_vec());
            assert_eq!(searched(&sample, bucket - 1), holes, "level {level}");
            // One bucket later: past the last index, so nothing more than on the way to the holes.
            let (some_nodes, some_blocks) = (&nodes[..on_the_way], &blocks[..on_the_way]);
            let past = (Err(2), some_nodes.to_vec(), some_blocks.to_vec());
            assert_eq!(searched(&sample, bucket + 1), past, "level {level}");
            // Without the name there the rest of the bucket and of the levels is past.
            sample.put32(4303, 30, bucket + 1);
            assert_eq!(searched(&sample, bucket), full(Err(2)), "level {level}");
        }
    }

    /// Level 2, hash 5: hash level 31 starts at 2^33 − 8, so its bucket 5 has the blocks 2^33 + 12
    /// to 2^33 + 15. Cut to 32 bits these would be 12 to 15, which no hash level searches for 5:
    /// hash level 0 takes 2 and 3, hash level 1 takes 18 and 19, the others later ones.
    #[test]
    fn indexes_are_not_cut_to_32_bits() {
        let mut sample = leveled(2, 63);
        for index in 12..16 {
            sample.put32(4096, 360 + 4 * index, 4300 + index as u32);
            sample.put_dentry(4300 + index, 0, 5, 7, NAME);
        }
        assert_eq!(searched(&sample, 5), (Err(2), vec![3], vec![4096]));
        sample.put32(4096, 360 + 4 * 19, 4312);
        assert_eq!(searched(&sample, 5), (Ok(7), vec![3], vec![4096, 4312]));
    }

    /// Answer, nodes and blocks of a walk.
    type Walked = (u32, Vec<u32>, Vec<u32>);

    /// The walk to block 0 of the file under this path.
    fn walked(sample: &Sample, path: &[u8]) -> Walked {
        let mut walk = Walk::new(open(&sample.bytes).unwrap());
        let answer = match walk.path_then_file(&names(path).unwrap(), 0) {
            Ok(found) => u32::from(found.data.is_none()),
            Err(answer) => answer,
        };
        let walked = (answer, walk.nodes.into_iter().collect(), walk.blocks.into_iter().collect());
        assert_eq!(pulled(sample, path), walked, "{path:?}");
        walked
    }

    /// The same by the pull, and so by a reader too.
    fn pulled(sample: &Sample, path: &[u8]) -> Walked {
        let mut lent = Lent::with_buffer(4096, MOST_ROOMS);
        let pulled = lent.pull(sample, path, 0);
        let nodes = numbers(&lent.nodes, pulled.node_count);
        (pulled.answer, nodes, numbers(&lent.blocks, pulled.block_count))
    }

    /// With so many directories read whole, and these nodes and blocks besides.
    fn after(directories: usize, answer: u32, nodes: &[u32], blocks: &[u32]) -> Walked {
        let (nodes, blocks) = with_directories(directories, nodes, blocks);
        (answer, nodes, blocks)
    }

    /// Every directory of every path of one to eight names: how many names, and its depth.
    fn all_directories() -> impl Iterator<Item = (usize, usize)> {
        (1..=8).flat_map(|k| (0..k).map(move |depth| (k, depth)))
    }

    #[test]
    fn one_to_eight_names() {
        for k in 1..=8 {
            let mut sample = Sample::with_path(k, 4097);
            assert_eq!(walked(&sample, &path(k)), after(k, 1, &[7], &[4098]), "{k} names");
            sample.put32(4098, 360, 4200);
            assert_eq!(walked(&sample, &path(k)), after(k, 0, &[7], &[4098, 4200]), "{k} names");
            sample.put32(4098, 360, 4095);
            assert_eq!(walked(&sample, &path(k)), after(k, 13, &[7], &[4098]), "{k} names");
            sample.put64(4098, 16, 0);
            assert_eq!(walked(&sample, &path(k)), after(k, 3, &[7], &[4098]), "{k} names");
        }
    }

    /// The same walk as document 01's, whatever the name leads to.
    #[test]
    fn one_name_is_sought_in_the_root() {
        let sample = Sample::with_path(2, 4097);
        for name in [&b"d1"[..], b"file", b".", b"..", b"other"] {
            let mut walk = Walk::new(open(&sample.bytes).unwrap());
            let answer = walk.root_then_file(name, 0).err().unwrap();
            let lists = (walk.nodes.into_iter().collect(), walk.blocks.into_iter().collect());
            assert_eq!(walked(&sample, name), (answer, lists.0, lists.1));
        }
    }

    /// "no such name" at each depth: the directories behind it are not met.
    #[test]
    fn names_that_are_missing() {
        for (k, depth) in all_directories() {
            let sample = Sample::with_path(k, 4097);
            let path = path(k);
            let mut names = names(&path).unwrap();
            for other in [&b"other"[..], b"d", b"d11", b"fil", b"files", &[b'n'; 255]] {
                names[depth] = other;
                let path = names.join(&b'/');
                assert_eq!(walked(&sample, &path), after(depth + 1, 2, &[], &[]), "{path:?}");
            }
        }
        // Names further down or further up are no names here.
        let sample = Sample::with_path(3, 4097);
        assert_eq!(walked(&sample, b"d2/file"), after(1, 2, &[], &[]));
        assert_eq!(walked(&sample, b"file"), after(1, 2, &[], &[]));
        assert_eq!(walked(&sample, b"d1/file"), after(2, 2, &[], &[]));
        assert_eq!(walked(&sample, b"d1/d1/d2/file"), after(2, 2, &[], &[]));
    }

    /// "Each name but the last must be a directory, else 12." The last must be regular.
    #[test]
    fn kinds_on_the_way() {
        for (k, depth) in all_directories() {
            let mut sample = Sample::with_path(k, 4097);
            let (number, block) = directory(depth);
            for kind in 0..16 {
                sample.put16(block, 0, kind << 12 | 0x1ED);
                let expected = if kind == 4 {
                    after(k, 1, &[7], &[4098])
                } else {
                    after(depth, 12, &[number], &[block as u32])
                };
                assert_eq!(walked(&sample, &path(k)), expected, "kind {kind} at {depth} of {k}");
            }
        }
        for k in 1..=7 {
            let file = after(k, 12, &[7], &[4098]);
            for more in [&b"/more"[..], b"/.", b"/..", b"/file"] {
                let path = [&path(k), more].concat();
                assert_eq!(walked(&Sample::with_path(k, 4097), &path), file, "{path:?}");
            }
        }
        // A folder at the end of the path.
        let sample = Sample::with_path(3, 4097);
        assert_eq!(walked(&sample, b"d1"), after(1, 12, &[39], &[4298]));
        assert_eq!(walked(&sample, b"d1/d2"), after(2, 12, &[38], &[4296]));
    }

    /// How far a directory was read: its number, its inode, its block.
    #[derive(Clone, Copy, PartialEq)]
    enum Read {
        Number,
        Inode,
        Block,
    }

    /// A damage to the directory with this number and inode block, whose own block is the next one;
    /// then the answer and how far the directory is read.
    type Damage = (fn(&mut Sample, u32, usize), u32, Read);

    fn inline_above_its_room(sample: &mut Sample, _: u32, block: usize) {
        sample.put(block, 3, &[4]);
        sample.put64(block, 16, 3489);
    }

    /// In the order in which they are met, so an earlier one decides over a later one.
    const DAMAGES: [Damage; 27] = [
        (|sample, number, _| sample.put_nat(2560, number as usize, number, 0), 9, Read::Number),
        (|sample, number, _| sample.put_nat(2560, number as usize, 0, 0), 9, Read::Number),
        (|sample, number, _| sample.put_nat(2560, number as usize, number, 1), 10, Read::Number),
        (|sample, number, _| sample.put_nat(2560, number as usize, number, 4095), 10, Read::Number),
        (|sample, number, _| sample.put_nat(2560, number as usize, number, 4608), 10, Read::Number),
        (|sample, number, _| sample.put_nat(2560, number as usize, 0, u32::MAX), 10, Read::Number),
        (|sample, number, at| sample.put_nat(2560, number as usize, 7, at as u32), 11, Read::Inode),
        (|sample, _, block| sample.put32(block, 4072, 7), 11, Read::Inode),
        (|sample, _, block| sample.put32(block, 4076, 7), 11, Read::Inode),
        (|sample, _, block| sample.put32(block, 4080, 8), 11, Read::Inode),
        (|sample, _, block| sample.put16(block, 0, 0x81A4), 12, Read::Inode),
        (|sample, _, block| sample.put16(block, 0, 0xA1FF), 12, Read::Inode),
        (|sample, _, block| sample.put(block, 3, &[2]), 12, Read::Inode),
        (|sample, _, block| sample.put(block, 3, &[6]), 12, Read::Inode),
        (|sample, _, block| sample.put(block, 3, &[0x20]), 12, Read::Inode),
        (inline_above_its_room, 12, Read::Inode),
        (|sample, _, block| sample.put32(block, 72, 64), 12, Read::Inode),
        (|sample, _, block| sample.put(block, 347, &[31]), 12, Read::Inode),
        (|sample, _, block| sample.put64(block, 16, 0), 2, Read::Inode),
        (|sample, _, block| sample.put32(block, 72, 0), 2, Read::Inode),
        (|sample, _, block| sample.put32(block, 360, 0), 2, Read::Inode),
        (|sample, _, block| sample.put32(block, 360, u32::MAX), 2, Read::Inode),
        (|sample, _, block| sample.put32(block, 360, 4095), 13, Read::Inode),
        (|sample, _, block| sample.put32(block, 360, 4608), 13, Read::Inode),
        (|sample, _, block| sample.put16(block + 1, 30 + 8, 0), 14, Read::Block),
        (|sample, _, block| sample.put16(block + 1, 30 + 8, 256), 14, Read::Block),
        (|sample, _, block| sample.put(block + 1, 0, &[3]), 2, Read::Block),
    ];

    fn after_damage(depth: usize, answer: u32, read: Read) -> Walked {
        let (number, block) = directory(depth);
        let block = block as u32;
        match read {
            Read::Number => after(depth, answer, &[number], &[]),
            Read::Inode => after(depth, answer, &[number], &[block]),
            Read::Block => after(depth + 1, answer, &[], &[]),
        }
    }

    /// Each directory on the way is tested as the root is, and stops the walk where the root does.
    #[test]
    fn damage_at_each_depth() {
        for (k, depth) in all_directories() {
            let (number, block) = directory(depth);
            for (at, (damage, answer, read)) in DAMAGES.iter().enumerate() {
                let mut sample = Sample::with_path(k, 4097);
                damage(&mut sample, number, block);
                let expected = after_damage(depth, *answer, *read);
                assert_eq!(walked(&sample, &path(k)), expected, "damage {at} at {depth} of {k}");
            }
        }
    }

    /// "At a node: 9, 10, then the block is read and listed, then 11, then 12, then 2": of two
    /// damages with different answers the one met first decides.
    #[test]
    fn the_root_s_order_at_depth_2() {
        let (number, block) = directory(1);
        for (first, &(damage, answer, read)) in DAMAGES.iter().enumerate() {
            for &(later, later_answer, _) in &DAMAGES[first + 1..] {
                let mut sample = Sample::with_path(3, 4097);
                // The earlier one comes last, so it isn't written over.
                later(&mut sample, number, block);
                damage(&mut sample, number, block);
                let expected = after_damage(1, answer, read);
                assert_eq!(walked(&sample, &path(3)), expected, "{answer} and {later_answer}");
            }
        }
    }

    /// "stops at the first of 2, 3, 9 to 14 that it meets": a damage further down is not met.
    #[test]
    fn damage_behind_a_damage() {
        for (damage, answer, read) in DAMAGES {
            for (behind, _, _) in DAMAGES {
                let mut sample = Sample::with_path(3, 4097);
                let [(number, block), (number_behind, block_behind)] = [1, 2].map(directory);
                damage(&mut sample, number, block);
                behind(&mut sample, number_behind, block_behind);
                assert_eq!(walked(&sample, &path(3)), after_damage(1, answer, read));
            }
        }
    }

    /// "inode number 0 in a directory entry is looked up, so listed, and is 9", and so is every
    /// number out of range, for a folder and for the file.
    #[test]
    fn numbers_out_of_range_in_entries() {
        for (k, depth) in all_directories() {
            let (_, block) = directory(depth);
            for number in [0, 455 * 512, u32::MAX] {
                let mut sample = Sample::with_path(k, 4097);
                sample.put32(block + 1, 30 + 11 * 2 + 4, number);
                let expected = after(depth + 1, 9, &[number], &[]);
                assert_eq!(walked(&sample, &path(k)), expected, "{number} at {depth} of {k}");
            }
        }
    }

    /// A folder's size is only asked whether it is 0, and its other footer bits aren't asked.
    #[test]
    fn what_is_not_consulted_of_a_folder() {
        for (k, depth) in all_directories() {
            let (_, block) = directory(depth);
            let mut sample = Sample::with_path(k, 4097);
            for size in [1, 4095, 1 << 32, u64::MAX] {
                sample.put64(block, 16, size);
                assert_eq!(walked(&sample, &path(k)), after(k, 1, &[7], &[4098]), "size {size}");
            }
            sample.put32(block, 4080, 7);
            sample.put(block, 4084, &[0xFF; 12]);
            // The type byte of the entry says regular file, and nothing.
            for kind in [1, 0] {
                sample.put(block + 1, 30 + 11 * 2 + 10, &[kind]);
                assert_eq!(walked(&sample, &path(k)), after(k, 1, &[7], &[4098]));
            }
        }
    }

    /// "." and ".." are names like others, so they go where their entries lead, and what is met
    /// twice is listed once.
    #[test]
    fn folders_met_twice() {
        let sample = Sample::with_path(2, 4097);
        let found = after(2, 1, &[7], &[4098]);
        for path in [
            &b"d1/file"[..], b"./d1/file", b"../d1/file", b"d1/./file", b"d1/../d1/file",
            b"././././././d1/file", b"d1/../d1/../d1/../d1/file", b"d1/././././././file",
        ] {
            assert_eq!(walked(&sample, path), found, "{path:?}");
        }
        assert_eq!(walked(&sample, b"d1/../file"), after(2, 2, &[], &[]));
        assert_eq!(walked(&sample, b"."), after(1, 12, &[], &[]));
        assert_eq!(walked(&sample, b"./.."), after(1, 12, &[], &[]));
        assert_eq!(walked(&sample, b"d1/."), after(2, 12, &[], &[]));
        assert_eq!(walked(&sample, b"d1/.."), after(2, 12, &[], &[]));
        assert_eq!(walked(&sample, b"d1/../d1"), after(2, 12, &[], &[]));
        assert_eq!(walked(&sample, b"..."), after(1, 2, &[], &[]));
    }

    /// They are looked up as entries with hash 0, and may be missing or lead anywhere.
    #[test]
    fn dots_are_entries() {
        let mut sample = Sample::with_path(2, 4097);
        // "." of the root leads to the folder, ".." of the folder to the file.
        sample.put32(4097, 30 + 4, 39);
        sample.put32(4299, 30 + 11 + 4, 7);
        assert_eq!(walked(&sample, b"./file"), after(2, 1, &[7], &[4098]));
        assert_eq!(walked(&sample, b"d1/.."), after(2, 1, &[7], &[4098]));
        assert_eq!(walked(&sample, b"d1/../file"), after(2, 12, &[7], &[4098]));
        // With a hash, and then without the map's bit.
        let mut sample = Sample::with_path(2, 4097);
        sample.put32(4299, 30, 1);
        assert_eq!(walked(&sample, b"d1/./file"), after(2, 2, &[], &[]));
        sample.put(4299, 0, &[0b101]);
        assert_eq!(walked(&sample, b"d1/../d1/file"), after(2, 2, &[], &[]));
        assert_eq!(walked(&sample, b"d1/file"), after(2, 1, &[7], &[4098]));
    }

    /// Two directories with the same block, so with the same names.
    #[test]
    fn a_block_met_twice() {
        let mut sample = Sample::with_path(3, 4097);
        sample.put32(4298, 360, 4097);
        let twice = (12, vec![3, 39], vec![4096, 4097, 4298]);
        assert_eq!(walked(&sample, b"d1/d1"), twice);
        assert_eq!(walked(&sample, b"d1/d1/d1/d1/d1/d1/d1/d1"), twice);
        assert_eq!(walked(&sample, b"d1/d1/d1/d1/d1/d1/d1/d2"), (2, twice.1, twice.2));
        // The file's data may be the block of a directory, or an inode.
        for data in [4096, 4097, 4098, 4294, 4295, 4296, 4299] {
            let mut sample = Sample::with_path(4, 4097);
            sample.put32(4098, 360, data);
            assert_eq!(walked(&sample, &path(4)), after(4, 0, &[7], &[4098]), "data {data}");
        }
    }

    /// K4 on the way: "An inline inode is listed with its block and no data block of its own."
    #[test]
    fn inline_folders() {
        for (k, depth) in all_directories() {
            let (number, block) = directory(depth);
            let found = after(k, 1, &[7], &[4098]);
            let mut blocks = found.2;
            blocks.retain(|&listed| listed != block as u32 + 1);
            let mut sample = Sample::with_path(k, 4097);
            let next = if depth + 1 < k { directory(depth + 1).0 } else { 7 };
            let path = path(k);
            let name = names(&path).unwrap()[depth];
            sample.put_inline_dentry(block, 181, raw_hash(name), next, name);
            for bits in [4, 5, 0x0C] {
                sample.put(block, 3, &[bits]);
                // "scanned at any depth up to 63"
                for (size, hash_levels) in [(1, 0), (3488, 1), (3488, 63)] {
                    sample.put64(block, 16, size);
                    sample.put32(block, 72, hash_levels);
                    assert_eq!(walked(&sample, &path), (1, found.1.clone(), blocks.clone()));
                }
            }
            for (at, value, answer) in [
                (16, 0, 2),
                (16, 3489, 12),
                (72, 64, 12),
                // No slot in the map, then a name of 9 bytes in the last slot.
                (364 + 22, 0, 2),
                (394 + 11 * 181 + 8, 9, 14),
            ] {
                let mut sample = Sample { bytes: sample.bytes.clone() };
                sample.put16(block, at, value);
                let expected = after(depth, answer, &[number], &[block as u32]);
                assert_eq!(walked(&sample, &path), expected, "{answer} at {depth} of {k}");
            }
        }
    }

    /// The nodes below a folder belong to the folder, not to the root.
    #[test]
    fn folders_with_nodes_and_levels() {
        for (level, depth) in (10..=28).flat_map(|level| (0..3).map(move |depth| (level, depth))) {
            let (path, (number, block)) = (path(3), directory(depth));
            let name = names(&path).unwrap()[depth];
            let index = 2 * u64::from(raw_hash(name) % (1 << level)) + 1;
            let Place::Way(way) = directory_place(ADDRESSES, index) else {
                panic!("level {level} reaches past the last index");
            };
            let mut sample = Sample::with_path(3, 4097);
            sample.put_levels(block, level, 1);
            sample.put_block_of((number, block), &way, block as u32 + 1);
            let below = way.steps().len() - 1;
            let (nodes, blocks) = ([7, 20, 21, 22], [4098, 4300, 4301, 4302]);
            let expected = after(3, 1, &nodes[..=below], &blocks[..=below]);
            assert_eq!(walked(&sample, &path), expected, "level {level} depth {depth}");
            // The last node of the way belongs to the directory next to this one.
            if below > 0 {
                let other = directory(if depth == 0 { 1 } else { depth - 1 }).0;
                sample.put32(4300 + below - 1, 4076, other);
                let (nodes, blocks) = (&nodes[1..=below], &blocks[1..=below]);
                let nodes = [nodes, &[number]].concat();
                let expected = after(depth, 11, &nodes, &[blocks, &[block as u32]].concat());
                assert_eq!(walked(&sample, &path), expected, "level {level} depth {depth}");
            }
        }
    }

    /// Every index of the file is read as in the root, after the folders.
    #[test]
    fn nodes_below_the_file() {
        for k in 1..=8 {
            let mut sample = Sample::with_path(k, 1 << 40);
            sample.put32(4098, 4052, 8);
            sample.put_node(8, 7, 1, 4099);
            let path = path(k);
            let mut walk = Walk::new(open(&sample.bytes).unwrap());
            let found = walk.path_then_file(&names(&path).unwrap(), 923).ok().unwrap();
            assert_eq!((found.count, found.data), (4096, None));
            let lists = (1, walk.nodes.into_iter().collect(), walk.blocks.into_iter().collect());
            assert_eq!(lists, after(k, 1, &[7, 8], &[4098, 4099]));
        }
    }
}

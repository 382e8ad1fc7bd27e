//! Keep file: what a pull gave and stood on, in one file, to compare without the old image.
//!
//! "a keep file of 32-bit numbers and bytes, without gaps: a header (name length, node count, block
//! count, offsets of nodes, blocks and end), then the name, index, answer and count, 4,096 block
//! bytes (zeros unless 0), main area bounds, each listed node number with its table answer (9, 0, 0
//! or 0, inode, address), each listed block's number with all its bytes". K7: "The keep file
//! carries the path instead of the name".

use std::mem::take;
use std::ops::Range;

use crate::bytes::{le32, BLOCK_SIZE};
use crate::compare::{numbers, refused, strictly_rising, verdict, Compared, OUT_OF_SHAPE};
use crate::lookup::{lookup_in, TableAnswer};
use crate::open::{is_image_length, open};
use crate::path::names;
use crate::pull::hand_out;
use crate::walk::{Found, Walk};

/// "The lent room is refused as too small exactly if the file doesn't fit, with 17"
const ROOM_TOO_SMALL: u32 = 17;
/// "Reading refuses, with 18"
const NO_KEEP_FILE: u32 = 18;

/// The header's six numbers; the path follows.
const HEADER_SIZE: usize = 24;
/// A node's number, then the three numbers of its table answer.
const NODE_SIZE: usize = 16;
/// A block's number, then all its bytes.
const CONTENT_SIZE: usize = 4 + BLOCK_SIZE;

/// The result numbers of writing a keep file: 0 with the length, or 4 to 8 or 17 without.
#[derive(Debug, Clone, Copy, PartialEq, Eq, Default)]
pub struct Kept {
    pub answer: u32,
    pub length: u32,
}

/// The result numbers of reading a keep file. With 18 all but the answer are 0.
#[derive(Debug, Clone, Copy, PartialEq, Eq, Default)]
pub struct KeepFields {
    pub answer: u32,
    pub path_len: u32,
    pub index: u32,
    /// Answer and byte count of the pull, as stored.
    pub pull_answer: u32,
    pub byte_count: u32,
    pub main_start: u32,
    pub main_end: u32,
    pub node_count: u32,
    pub block_count: u32,
    /// Where in the file the path starts, then the pull's 4,096 block bytes, the listed nodes and
    /// the listed blocks.
    pub path_at: u32,
    pub block_at: u32,
    pub nodes_at: u32,
    pub blocks_at: u32,
    pub length: u32,
}

/// Where the parts of a keep file start: what "the first three numbers give".
#[derive(Debug, Clone, Copy)]
struct Layout {
    path_len: u32,
    node_count: u32,
    block_count: u32,
    index_at: u64,
    block_at: u64,
    bounds_at: u64,
    nodes_at: u64,
    blocks_at: u64,
    end: u64,
}

impl Layout {
    /// Sums of any three 32-bit numbers are exact in 64 bits.
    fn new(path_len: u32, node_count: u32, block_count: u32) -> Layout {
        let index_at = HEADER_SIZE as u64 + u64::from(path_len);
        // Behind index, answer and count.
        let block_at = index_at + 3 * 4;
        let bounds_at = block_at + BLOCK_SIZE as u64;
        let nodes_at = bounds_at + 2 * 4;
        let blocks_at = nodes_at + NODE_SIZE as u64 * u64::from(node_count);
        let end = blocks_at + CONTENT_SIZE as u64 * u64::from(block_count);
        Layout {
            path_len,
            node_count,
            block_count,
            index_at,
            block_at,
            bounds_at,
            nodes_at,
            blocks_at,
            end,
        }
    }

    /// "offsets of nodes, blocks and end"
    fn offsets(&self) -> [u64; 3] {
        [self.nodes_at, self.blocks_at, self.end]
    }
}

/// Writes the keep file of the pull of block `index` of the file under `path` into the room, from
/// its first byte on.
pub fn keep(image: &[u8], path: &[u8], index: u32, room: &mut [u8]) -> Kept {
    match written(image, path, index, room) {
        Ok(length) => Kept { answer: 0, length },
        Err(answer) => Kept { answer, length: 0 },
    }
}

/// The file's length, or the answer number of a refusal, which is met before anything is written.
fn written(image: &[u8], path: &[u8], index: u32, room: &mut [u8]) -> Result<u32, u32> {
    // "The writer makes the pull itself; 4 to 8 come first and nothing is written." Opening gives 4
    // for the image's length before 5 to 8.
    let names = names(path).ok_or(4u32)?;
    let mut walk = Walk::new(open(image)?);
    let found = walk.path_then_file(&names, index);
    // A path has at most 2,047 bytes and a walk lists at most 1,404 nodes and 1,869 blocks, so the
    // file has less than 8 MB and all its numbers fit.
    let layout = Layout::new(path.len() as u32, walk.nodes.len() as u32, walk.blocks.len() as u32);
    let file = room.get_mut(..layout.end as usize).ok_or(ROOM_TOO_SMALL)?;
    let mut pen = Pen { rest: file };
    write_pull(&mut pen, &layout, path, index, &found);
    write_grounds(&mut pen, &walk);
    Ok(layout.end as u32)
}

/// The header, then what was asked and what the pull gave.
fn write_pull(
    pen: &mut Pen,
    layout: &Layout,
    path: &[u8],
    index: u32,
    found: &Result<Found, u32>,
) {
    pen.numbers([layout.path_len, layout.node_count, layout.block_count]);
    pen.numbers(layout.offsets().map(|offset| offset as u32));
    pen.bytes(path);
    // "zeros unless 0"
    let mut block = [0; BLOCK_SIZE];
    let (answer, byte_count) = hand_out(found, &mut block);
    pen.numbers([index, answer, byte_count]);
    pen.bytes(&block);
}

/// What the pull stood on: "main area bounds, each listed node number with its table answer [...],
/// each listed block's number with all its bytes".
fn write_grounds(pen: &mut Pen, walk: &Walk) {
    pen.numbers([walk.volume.main_start, walk.volume.main_end]);
    for &node in &walk.nodes {
        pen.numbers([node]);
        pen.numbers(answer_numbers(lookup_in(&walk.volume, node)));
    }
    for &block in &walk.blocks {
        pen.numbers([block]);
        pen.bytes(walk.volume.block(block));
    }
}

/// Writes on where it stopped, without gaps. The room it is given is as long as the file.
struct Pen<'r> {
    rest: &'r mut [u8],
}

impl Pen<'_> {
    fn bytes(&mut self, bytes: &[u8]) {
        let (next, rest) = take(&mut self.rest).split_at_mut(bytes.len());
        next.copy_from_slice(bytes);
        self.rest = rest;
    }

    fn numbers<const N: usize>(&mut self, numbers: [u32; N]) {
        for number in numbers {
            self.bytes(&number.to_le_bytes());
        }
    }
}

/// "its table answer (9, 0, 0 or 0, inode, address)"
fn answer_numbers(answer: TableAnswer) -> [u32; 3] {
    match answer {
        Ok((inode, address)) => [0, inode, address],
        Err(answer) => [answer, 0, 0],
    }
}

/// The same read; `None` is "a table answer of no such kind".
fn table_answer(numbers: [u32; 3]) -> Option<TableAnswer> {
    match numbers {
        [9, 0, 0] => Some(Err(9)),
        [0, inode, address] => Some(Ok((inode, address))),
        _ => None,
    }
}

/// The numbers of a keep file and where its parts are, or 18.
pub fn keep_read(file: &[u8]) -> KeepFields {
    let refused = KeepFields { answer: NO_KEEP_FILE, ..KeepFields::default() };
    KeepFile::read(file).map_or(refused, |kept| kept.fields)
}

/// A file that reading doesn't refuse.
struct KeepFile<'f> {
    fields: KeepFields,
    /// The listed nodes, 16 bytes each.
    nodes: &'f [u8],
    /// The listed blocks, 4,100 bytes each.
    blocks: &'f [u8],
}

impl<'f> KeepFile<'f> {
    /// `None` stands for the 18: "exactly the files with an offset or file length other than the
    /// first three numbers give, a list not strictly rising, a table answer of no such kind, no
    /// node, or a block outside the bounds".
    fn read(file: &'f [u8]) -> Option<KeepFile<'f>> {
        let layout = layout_of(file)?;
        // The layout ends with the file.
        let (before, blocks) = file.split_at_checked(layout.blocks_at as usize)?;
        let nodes = before.get(layout.nodes_at as usize..)?;
        let kept = KeepFile { fields: fields(file, &layout), nodes, blocks };
        kept.lists_in_shape().then_some(kept)
    }

    fn lists_in_shape(&self) -> bool {
        !self.nodes.is_empty()
            && strictly_rising(numbers(self.nodes, NODE_SIZE))
            && strictly_rising(numbers(self.blocks, CONTENT_SIZE))
            && self.nodes.chunks_exact(NODE_SIZE).all(|entry| answer_of(entry).is_some())
            && numbers(self.blocks, CONTENT_SIZE).all(|block| self.main_area().contains(&block))
    }

    fn main_area(&self) -> Range<u32> {
        self.fields.main_start..self.fields.main_end
    }

    /// Each listed node with its table answer.
    fn answers(&self) -> impl Iterator<Item = (u32, TableAnswer)> + 'f {
        let entries = self.nodes.chunks_exact(NODE_SIZE);
        // None is left out: reading refuses a node without.
        entries.filter_map(|entry| Some((le32(entry, 0), answer_of(entry)?)))
    }

    /// Each listed block with its bytes.
    fn contents(&self) -> impl Iterator<Item = (u32, &'f [u8])> {
        self.blocks.chunks_exact(CONTENT_SIZE).map(|entry| (le32(entry, 0), &entry[4..]))
    }
}

/// The layout by the first three numbers, if offsets and file length are what it says.
fn layout_of(file: &[u8]) -> Option<Layout> {
    let header = file.get(..HEADER_SIZE)?;
    let layout = Layout::new(le32(header, 0), le32(header, 4), le32(header, 8));
    let stored = [12, 16, 20].map(|at| u64::from(le32(header, at)));
    (stored == layout.offsets() && file.len() as u64 == layout.end).then_some(layout)
}

/// The numbers of a file with this layout. Its end is stored in 32 bits, so every offset fits.
fn fields(file: &[u8], layout: &Layout) -> KeepFields {
    let number = |at: u64| le32(file, at as usize);
    KeepFields {
        answer: 0,
        path_len: layout.path_len,
        index: number(layout.index_at),
        pull_answer: number(layout.index_at + 4),
        byte_count: number(layout.index_at + 8),
        main_start: number(layout.bounds_at),
        main_end: number(layout.bounds_at + 4),
        node_count: layout.node_count,
        block_count: layout.block_count,
        path_at: HEADER_SIZE as u32,
        block_at: layout.block_at as u32,
        nodes_at: layout.nodes_at as u32,
        blocks_at: layout.blocks_at as u32,
        length: layout.end as u32,
    }
}

/// The table answer in the 16 bytes of a listed node.
fn answer_of(entry: &[u8]) -> Option<TableAnswer> {
    table_answer([4, 8, 12].map(|at| le32(entry, at)))
}

/// Compares a keep file with a new image: "what Compare gives for the image it was written from".
pub fn keep_compare(file: &[u8], fresh: &[u8]) -> Compared {
    // "with 18 and before a new image is tested"
    let Some(kept) = KeepFile::read(file) else {
        return Compared { answer: NO_KEEP_FILE, ..Compared::default() };
    };
    if !is_image_length(fresh.len()) {
        return OUT_OF_SHAPE;
    }
    match open(fresh) {
        Ok(fresh) => verdict(&kept.main_area(), kept.answers(), kept.contents(), &fresh),
        Err(answer) => refused(answer, 2),
    }
}

#[cfg(test)]
mod tests {
    use super::*;
    use crate::compare::compare;
    use crate::lookup::node_lookup;
    use crate::path::{Rooms, MOST_ROOMS};
    use crate::pull::{pull, Pulled};
    use crate::sample::{directory, path, Sample, DAMAGE, FIRST_PACK, NAME};

    const DATA: usize = 4200;
    /// What lent rooms hold before the call.
    const LENT: u8 = 0xAA;
    /// Room for every file of the samples.
    const ENOUGH: usize = 1 << 18;
    const NO_FIELDS: KeepFields = KeepFields {
        answer: 18,
        path_len: 0,
        index: 0,
        pull_answer: 0,
        byte_count: 0,
        main_start: 0,
        main_end: 0,
        node_count: 0,
        block_count: 0,
        path_at: 0,
        block_at: 0,
        nodes_at: 0,
        blocks_at: 0,
        length: 0,
    };

    /// An answer with no other number.
    fn only(answer: u32) -> Compared {
        Compared { answer, side: 0, kind: 0, number: 0 }
    }

    fn changed(kind: u32, number: u32) -> Compared {
        Compared { answer: 16, side: 0, kind, number }
    }

    fn le(numbers: &[u32]) -> Vec<u8> {
        numbers.iter().flat_map(|number| number.to_le_bytes()).collect()
    }

    /// The `N` numbers from byte `at` on.
    fn numbers_at<const N: usize>(bytes: &[u8], at: u32) -> [u32; N] {
        std::array::from_fn(|position| le32(bytes, at as usize + 4 * position))
    }

    /// The parts of a file, laid out by the paper's list of them.
    #[derive(Debug, Clone, PartialEq, Eq)]
    struct Draft {
        path: Vec<u8>,
        /// Index, answer and count.
        pull: [u32; 3],
        block: Vec<u8>,
        bounds: [u32; 2],
        nodes: Vec<[u32; 4]>,
        blocks: Vec<(u32, Vec<u8>)>,
    }

    impl Draft {
        /// Three nodes and three blocks.
        fn new() -> Draft {
            Draft {
                path: b"d1/file".to_vec(),
                pull: [1, 0, 100],
                block: vec![7; 4096],
                bounds: [4096, 4608],
                nodes: vec![[3, 0, 3, 4096], [7, 0, 7, 4098], [300_000, 9, 0, 0]],
                blocks: [4096, 4098, 4607].map(|block| (block, vec![block as u8; 4096])).to_vec(),
            }
        }

        fn with(change: impl FnOnce(&mut Draft)) -> Draft {
            let mut draft = Draft::new();
            change(&mut draft);
            draft
        }

        /// The parts of a file that was read, by the offsets and counts that this gave.
        fn of(file: &[u8], read: &KeepFields) -> Draft {
            let part = |at: u32, length: u32| &file[at as usize..][..length as usize];
            let nodes = part(read.nodes_at, 16 * read.node_count).chunks(16);
            let blocks = part(read.blocks_at, 4100 * read.block_count).chunks(4100);
            Draft {
                path: part(read.path_at, read.path_len).to_vec(),
                pull: numbers_at(file, read.path_at + read.path_len),
                block: part(read.block_at, 4096).to_vec(),
                bounds: numbers_at(file, read.block_at + 4096),
                nodes: nodes.map(|entry| numbers_at(entry, 0)).collect(),
                blocks: blocks.map(|entry| (le32(entry, 0), entry[4..].to_vec())).collect(),
            }
        }

        /// What the file of a pull must hold, by the pull and by node lookups.
        fn of_pull(sample: &Sample, path: &[u8], index: u32) -> Draft {
            let (pulled, [block, nodes, blocks]) = pulled(sample, path, index);
            let node = |number: u32| match node_lookup(&sample.bytes, number) {
                Ok((inode, address)) => [number, 0, inode, address],
                Err(answer) => [number, answer, 0, 0],
            };
            let content = |number: u32| {
                (number, sample.bytes[number as usize * 4096..][..4096].to_vec())
            };
            let [main_start, main_segments] = [92, 68].map(|at| le32(&sample.bytes, 1024 + at));
            Draft {
                path: path.to_vec(),
                pull: [index, pulled.answer, pulled.byte_count],
                block,
                bounds: [main_start, main_start + 512 * main_segments],
                nodes: numbers(&nodes, 4).take(pulled.node_count as usize).map(node).collect(),
                blocks: numbers(&blocks, 4)
                    .take(pulled.block_count as usize)
                    .map(content)
                    .collect(),
            }
        }

        fn counts(&self) -> [u32; 3] {
            [self.path.len(), self.nodes.len(), self.blocks.len()].map(|count| count as u32)
        }

        fn offsets(&self) -> [u32; 3] {
            let [path_len, node_count, block_count] = self.counts();
            let nodes_at = 4140 + path_len;
            let blocks_at = nodes_at + 16 * node_count;
            [nodes_at, blocks_at, blocks_at + 4100 * block_count]
        }

        fn file(&self) -> Vec<u8> {
            let mut file = le(&self.counts());
            file.extend(le(&self.offsets()));
            file.extend(&self.path);
            file.extend(le(&self.pull));
            file.extend(&self.block);
            file.extend(le(&self.bounds));
            file.extend(self.nodes.iter().flat_map(|node| le(node)));
            for (block, bytes) in &self.blocks {
                file.extend(le(&[*block]));
                file.extend(bytes);
            }
            file
        }

        /// What reading must give of its file.
        fn fields(&self) -> KeepFields {
            let [path_len, node_count, block_count] = self.counts();
            let [nodes_at, blocks_at, length] = self.offsets();
            KeepFields {
                answer: 0,
                path_len,
                index: self.pull[0],
                pull_answer: self.pull[1],
                byte_count: self.pull[2],
                main_start: self.bounds[0],
                main_end: self.bounds[1],
                node_count,
                block_count,
                path_at: 24,
                block_at: 36 + path_len,
                nodes_at,
                blocks_at,
                length,
            }
        }

        /// Whether reading takes its file, whose offsets and length are right.
        fn is_taken(&self) -> bool {
            let kinds = |node: &[u32; 4]| node[1] == 0 || node[1..] == [9, 0, 0];
            let inside = |block: u32| self.bounds[0] <= block && block < self.bounds[1];
            self.nodes.windows(2).all(|pair| pair[0][0] < pair[1][0])
                && self.blocks.windows(2).all(|pair| pair[0].0 < pair[1].0)
                && self.nodes.iter().all(kinds)
                && !self.nodes.is_empty()
                && self.blocks.iter().all(|&(block, _)| inside(block))
        }

        /// "Reading what was written gives it back, and what was read, laid out again, is the same
        /// file."
        #[track_caller]
        fn expect_taken(&self) {
            let file = self.file();
            let read = keep_read(&file);
            assert_eq!(read, self.fields());
            assert!(Draft::of(&file, &read) == *self);
            assert_eq!(keep_compare(&file, &[]), only(4));
        }

        #[track_caller]
        fn expect_refused(&self) {
            expect_refused(&self.file());
        }
    }

    #[track_caller]
    fn expect_refused(file: &[u8]) {
        assert_eq!(keep_read(file), NO_FIELDS);
        // "before a new image is tested"
        assert_eq!(keep_compare(file, &[]), only(18));
    }

    /// A pull with what was lent to it.
    fn pulled(sample: &Sample, path: &[u8], index: u32) -> (Pulled, [Vec<u8>; 3]) {
        let Rooms { nodes, blocks } = MOST_ROOMS;
        let mut lent = [4096, 4 * nodes, 4 * blocks].map(|length| vec![0; length]);
        let [block, nodes, blocks] = &mut lent;
        (pull(&sample.bytes, path, index, block, nodes, blocks), lent)
    }

    /// The file written into a room that is too long. "later bytes stay"
    fn file_of(sample: &Sample, path: &[u8], index: u32) -> Vec<u8> {
        let mut room = vec![LENT; ENOUGH];
        let kept = keep(&sample.bytes, path, index, &mut room);
        assert_eq!(kept.answer, 0);
        let later = room.split_off(kept.length as usize);
        assert!(!later.is_empty() && later.iter().all(|&byte| byte == LENT));
        room
    }

    /// The answer of a writer that leaves a room of this length as it is.
    fn refusal(image: &[u8], path: &[u8], length: usize) -> u32 {
        let mut room = vec![LENT; length];
        let kept = keep(image, path, 0, &mut room);
        assert_eq!(kept.length, 0);
        assert!(room.iter().all(|&byte| byte == LENT));
        kept.answer
    }

    /// The file under `path(k)` with data at index 1 and a hole at 0.
    fn sample(k: usize) -> Sample {
        let mut sample = Sample::with_path(k, 4097);
        sample.put32(4098, 364, DATA as u32);
        sample.put(DATA, 0, &[9; 4096]);
        sample
    }

    #[test]
    fn a_file_by_hand() {
        let sample = sample(1);
        let file = file_of(&sample, NAME, 1);
        let mut expected = le(&[4, 2, 4, 4144, 4176, 20576]);
        expected.extend(b"file");
        expected.extend(le(&[1, 0, 1]));
        expected.push(9);
        expected.extend([0; 4095]);
        expected.extend(le(&[4096, 4608]));
        expected.extend(le(&[3, 0, 3, 4096, 7, 0, 7, 4098]));
        for block in [4096, 4097, 4098, DATA] {
            expected.extend(le(&[block as u32]));
            expected.extend(&sample.bytes[block * 4096..][..4096]);
        }
        assert!(file == expected);
        let read = KeepFields {
            answer: 0,
            path_len: 4,
            index: 1,
            pull_answer: 0,
            byte_count: 1,
            main_start: 4096,
            main_end: 4608,
            node_count: 2,
            block_count: 4,
            path_at: 24,
            block_at: 40,
            nodes_at: 4144,
            blocks_at: 4176,
            length: 20576,
        };
        assert_eq!(keep_read(&file), read);
    }

    /// The pull's answer, and all that its file must hold: written, read and laid out again.
    #[track_caller]
    fn expect_kept(sample: &Sample, path: &[u8], index: u32, answer: u32) {
        let draft = Draft::of_pull(sample, path, index);
        assert_eq!(draft.pull[1], answer);
        // "zeros unless 0"; the count is 0 outside 0 and 1.
        assert!(answer == 0 || draft.block.iter().all(|&byte| byte == 0));
        assert!(answer < 2 || draft.pull[2] == 0);
        let file = file_of(sample, path, index);
        assert!(file == draft.file());
        let read = keep_read(&file);
        assert_eq!(read, draft.fields());
        assert!(Draft::of(&file, &read).file() == file);
        assert_eq!(keep_compare(&file, &sample.bytes), only(15));
    }

    #[test]
    fn each_answer_is_kept() {
        for k in 1..=8 {
            let (path, dentries) = (path(k), directory(k - 1).1 + 1);
            let changed = |block, at, value: u32, answer| {
                let mut changed = sample(k);
                changed.put32(block, at, value);
                expect_kept(&changed, &path, 0, answer);
            };
            let unchanged = sample(k);
            for (index, answer) in [(0, 1), (1, 0), (2, 3), (u32::MAX, 3)] {
                expect_kept(&unchanged, &path, index, answer);
            }
            expect_kept(&unchanged, &[&path[..], b"s"].concat(), 0, 2);
            // The entry's inode number: a valid one without an address, then those out of range.
            for number in [8, 455 * 512 - 1, 0, 455 * 512, u32::MAX] {
                changed(dentries, 30 + 11 * 2 + 4, number, 9);
            }
            changed(2560, 9 * 7 + 5, 4095, 10);
            changed(2560, 9 * 7 + 5, u32::MAX, 10);
            changed(4098, 4072, 8, 11);
            changed(4098, 0, 0x2000_81A4, 12);
            changed(4098, 360, 4095, 13);
            changed(dentries, 30 + 8, 0, 14);
        }
    }

    /// K4: inline data in the file. Then the file's number is in the journal, too.
    #[test]
    fn inline_and_journalled() {
        let mut sample = sample(2);
        sample.put(4098, 3, &[2]);
        sample.put64(4098, 16, 3688);
        sample.put(4098, 364, &[5; 3688]);
        expect_kept(&sample, &path(2), 0, 0);
        assert_eq!(keep_read(&file_of(&sample, &path(2), 0)).byte_count, 3688);
        sample.put_nat(2560, 7, 1, 1);
        sample.put_journal(&[(7, 7, 4098), (20, 1, 2)]);
        expect_kept(&sample, &path(2), 0, 0);
    }

    /// The root itself has no address, or one outside: a node and no block.
    #[test]
    fn without_blocks() {
        for (address, answer) in [(0, 9), (4095, 10), (4608, 10)] {
            let mut sample = sample(3);
            sample.put_nat(2560, 3, 3, address);
            expect_kept(&sample, &path(3), 0, answer);
            let read = keep_read(&file_of(&sample, &path(3), 0));
            assert_eq!((read.node_count, read.block_count), (1, 0));
            assert_eq!((read.blocks_at, read.length), (4140 + 10 + 16, 4140 + 10 + 16));
        }
    }

    /// "The lent room is refused as too small exactly if the file doesn't fit, with 17"
    #[test]
    fn rooms() {
        for k in [1, 2, 8] {
            let (sample, path) = (sample(k), path(k));
            let file = file_of(&sample, &path, 0);
            for less in [1, 2, 3, 4, 4100, file.len() - 24, file.len() - 1, file.len()] {
                assert_eq!(refusal(&sample.bytes, &path, file.len() - less), 17, "{less} less");
            }
            let written = Kept { answer: 0, length: file.len() as u32 };
            for more in [0, 1, 3, 4, 4096, 4100] {
                let mut room = vec![LENT; file.len() + more];
                assert_eq!(keep(&sample.bytes, &path, 0, &mut room), written);
                assert!(room[..file.len()] == file);
                assert!(room[file.len()..].iter().all(|&byte| byte == LENT), "{more} more");
            }
        }
    }

    /// 4 for image or path, then 5 to 8, then 17, in rooms that are long enough and too short.
    #[test]
    fn refusals_of_the_writer() {
        let mut sample = sample(1);
        let nine = [b"n"; 9].map(|name| &name[..]).join(&b'/');
        let bad_paths = [&b""[..], b"/", b"/file", b"file/", b"a//b", b"a\0", &[b'n'; 256], &nine];
        let expect = |sample: &Sample, answer| {
            for length in [0, 23, 24, 20575] {
                let too_short = if answer == 0 { 17 } else { answer };
                assert_eq!(refusal(&sample.bytes, NAME, length), too_short);
                assert!(bad_paths.iter().all(|path| refusal(&sample.bytes, path, length) == 4));
            }
            assert!(bad_paths.iter().all(|path| refusal(&sample.bytes, path, ENOUGH) == 4));
            if answer != 0 {
                assert_eq!(refusal(&sample.bytes, NAME, ENOUGH), answer);
            }
        };
        // A file of block 0, which is a hole, has no data block.
        assert_eq!(keep(&sample.bytes, NAME, 0, &mut [LENT; 16476]).length, 16476);
        assert_eq!(refusal(&sample.bytes, NAME, 16475), 17);
        sample.put32(4098, 360, DATA as u32 + 1);
        expect(&sample, 0);
        DAMAGE[2](&mut sample, FIRST_PACK);
        expect(&sample, 8);
        sample.put32(FIRST_PACK, 4092, 0);
        expect(&sample, 7);
        sample.put32(0, 1024 + 2180, 1);
        expect(&sample, 6);
        sample.put32(0, 1024, 0);
        expect(&sample, 5);
        sample.bytes.pop();
        expect(&sample, 4);
        expect(&Sample { bytes: Vec::new() }, 4);
    }

    #[test]
    fn damage_is_8() {
        for damage in DAMAGE {
            let mut sample = sample(2);
            damage(&mut sample, FIRST_PACK);
            assert_eq!(refusal(&sample.bytes, &path(2), ENOUGH), 8);
            assert_eq!(refusal(&sample.bytes, &path(2), 0), 8);
            assert_eq!(refusal(&sample.bytes, b"other", 0), 8);
        }
    }

    /// "an offset [...] other than the first three numbers give": each of the six numbers, changed
    /// by itself.
    #[test]
    fn header_numbers() {
        let file = Draft::new().file();
        for at in [0, 4, 8, 12, 16, 20] {
            let stored = le32(&file, at);
            for value in (0..32).map(|bit| stored ^ 1 << bit).chain([
                stored + 1,
                stored - 1,
                stored.wrapping_neg(),
                u32::MAX,
            ]) {
                let mut file = file.clone();
                file[at..at + 4].copy_from_slice(&value.to_le_bytes());
                expect_refused(&file);
            }
        }
    }

    /// "or file length": every shorter one, so every one of fewer than 24 bytes, and longer ones.
    #[test]
    fn file_lengths() {
        let file = Draft::new().file();
        for length in 0..file.len() {
            expect_refused(&file[..length]);
        }
        for more in [1, 2, 4, 16, 4096, 4100] {
            expect_refused(&[&file[..], &vec![0; more]].concat());
        }
        for length in 0..100 {
            expect_refused(&vec![0; length]);
            expect_refused(&vec![255; length]);
        }
        // The header alone, with offsets that its first three numbers give.
        for counts in [[0, 1, 0], [1, 1, 1], [2047, 1404, 1869], [u32::MAX - 4139, 0, 0]] {
            let nodes_at = 4140u32.wrapping_add(counts[0]);
            let blocks_at = nodes_at + 16 * counts[1];
            let offsets = [nodes_at, blocks_at, blocks_at + 4100 * counts[2]];
            expect_refused(&le(&[counts, offsets].concat()));
        }
    }

    /// Counts whose offsets are those of the file if cut to 32 bits: 16 × 2^28 and 4,100 × 2^30 are
    /// multiples of 2^32.
    #[test]
    fn sums_are_not_cut_to_32_bits() {
        let file = Draft::new().file();
        for (more_nodes, more_blocks) in (0..16).flat_map(|n| (0..4).map(move |b| (n, b))) {
            let mut wrapped = file.clone();
            wrapped[4..8].copy_from_slice(&(3u32 + (more_nodes << 28)).to_le_bytes());
            wrapped[8..12].copy_from_slice(&(3u32 + (more_blocks << 30)).to_le_bytes());
            if (more_nodes, more_blocks) == (0, 0) {
                assert_eq!(keep_read(&wrapped), Draft::new().fields());
            } else {
                expect_refused(&wrapped);
            }
        }
        // A path of 2^32 − 4,116 bytes: cut to 32 bits the nodes are at 24, behind the header.
        let wrapped = le(&[u32::MAX - 4115, 1, 0, 24, 40, 40, 3, 0, 3, 4096]);
        assert_eq!(wrapped.len(), 40);
        expect_refused(&wrapped);
        // One of 2^32 − 16 bytes, with one node more, leaves the blocks where they are.
        let pathless = Draft::with(|draft| draft.path.clear());
        let mut wrapped = pathless.file();
        wrapped[..16].copy_from_slice(&le(&[u32::MAX - 15, 4, 3, 4124]));
        expect_refused(&wrapped);
    }

    /// "a list not strictly rising", at each pair of the two lists.
    #[test]
    fn rising_lists() {
        Draft::new().expect_taken();
        for (node, number, taken) in [
            (0, 0, true), (0, 6, true), (0, 7, false), (0, 8, false), (0, u32::MAX, false),
            (1, 4, true), (1, 299_999, true), (1, 3, false), (1, 2, false), (1, 300_000, false),
            (1, 300_001, false), (2, 8, true), (2, u32::MAX, true), (2, 7, false), (2, 0, false),
        ] {
            let draft = Draft::with(|draft| draft.nodes[node][0] = number);
            assert_eq!(keep_read(&draft.file()).answer == 0, taken, "node {node}: {number}");
        }
        for (block, number, taken) in [
            (0, 4097, true), (0, 4098, false), (0, 4099, false), (1, 4097, true), (1, 4606, true),
            (1, 4096, false), (1, 4607, false), (2, 4099, true), (2, 4098, false), (2, 4097, false),
        ] {
            let draft = Draft::with(|draft| draft.blocks[block].0 = number);
            assert_eq!(keep_read(&draft.file()).answer == 0, taken, "block {block}: {number}");
        }
    }

    /// "a table answer of no such kind"
    #[test]
    fn kinds_of_table_answers() {
        let some = [0, 1, 9, u32::MAX];
        let answers = [0, 1, 2, 4, 8, 9, 10, 9 << 8, 9 << 16, 9 << 24, 265, u32::MAX];
        for (node, answer) in (0..3).flat_map(|node| answers.map(|answer| (node, answer))) {
            for (inode, address) in some.iter().flat_map(|i| some.map(|a| (*i, a))) {
                let draft = Draft::with(|draft| {
                    draft.nodes[node][1..].copy_from_slice(&[answer, inode, address]);
                });
                if answer == 0 || (answer, inode, address) == (9, 0, 0) {
                    draft.expect_taken();
                } else {
                    draft.expect_refused();
                }
            }
        }
    }

    /// "no node"; no block is taken.
    #[test]
    fn empty_lists() {
        Draft::with(|draft| draft.nodes.clear()).expect_refused();
        Draft::with(|draft| draft.nodes.truncate(1)).expect_taken();
        Draft::with(|draft| draft.blocks.clear()).expect_taken();
        Draft::with(|draft| {
            draft.nodes.clear();
            draft.blocks.clear();
        })
        .expect_refused();
        Draft::with(|draft| {
            draft.nodes.truncate(1);
            draft.blocks.clear();
        })
        .expect_taken();
    }

    /// "a block outside the bounds"; without blocks any bounds will do.
    #[test]
    fn bounds_around_blocks() {
        for (bounds, taken) in [
            ([4096, 4608], true), ([4097, 4608], false), ([4096, 4607], false), ([0, 4608], true),
            ([4095, 4609], true), ([0, u32::MAX], true), ([4608, 4096], false), ([0, 0], false),
            ([4098, 4608], false), ([4096, 4098], false), ([u32::MAX, u32::MAX], false),
        ] {
            let draft = Draft::with(|draft| draft.bounds = bounds);
            assert_eq!(keep_read(&draft.file()).answer == 0, taken, "bounds {bounds:?}");
            Draft { blocks: Vec::new(), ..draft }.expect_taken();
        }
        for (last, taken) in [(u32::MAX - 1, true), (u32::MAX, false)] {
            let draft = Draft::with(|draft| {
                draft.bounds = [0, u32::MAX];
                draft.blocks[2].0 = last;
            });
            assert_eq!(keep_read(&draft.file()).answer == 0, taken, "block {last}");
        }
    }

    /// "refuses [...] exactly": path, index, answer, count and block bytes are taken as they are.
    #[test]
    fn what_reading_takes_untested() {
        let paths = [&b""[..], b"/", b"a//b", b"\0", &[b'n'; 256], &[b'/'; 3000], &[255; 10_000]];
        for path in paths {
            Draft::with(|draft| draft.path = path.to_vec()).expect_taken();
        }
        for number in [0, 1, 2, 4, 5, 8, 9, 15, 18, 4096, 4097, u32::MAX] {
            for at in 0..3 {
                Draft::with(|draft| draft.pull[at] = number).expect_taken();
            }
            Draft::with(|draft| draft.pull = [number; 3]).expect_taken();
        }
        Draft::with(|draft| draft.block = vec![0; 4096]).expect_taken();
    }

    /// Every byte of a file, changed by itself.
    #[test]
    fn each_byte() {
        let mut file = Draft::new().file();
        let read = keep_read(&file);
        for (at, bit) in (0..file.len()).flat_map(|at| [0, 3, 7].map(|bit| (at, bit))) {
            file[at] ^= 1 << bit;
            let draft = Draft::of(&file, &read);
            if at < 24 || !draft.is_taken() {
                assert_eq!(keep_read(&file), NO_FIELDS, "bit {bit} of byte {at}");
            } else {
                assert_eq!(keep_read(&file), draft.fields(), "bit {bit} of byte {at}");
            }
            file[at] ^= 1 << bit;
        }
    }

    /// Numbers that hit both sides of every refusal, drawn by a fixed rule.
    #[test]
    fn drawn_files() {
        let mut state = 1u32;
        let mut below = |most: u32| {
            state = state.wrapping_mul(1_664_525).wrapping_add(1_013_904_223);
            (state >> 16) % most
        };
        let mut taken = 0;
        for _ in 0..4000 {
            let mut draft = Draft::new();
            draft.path.resize(below(6) as usize, b'/');
            draft.bounds = [below(3), 4 + below(8)];
            draft.nodes.clear();
            draft.blocks.clear();
            let (mut node, mut block) = (below(3), below(3));
            for _ in 0..below(4) {
                let answer = [[0, below(9), below(9)], [9, 0, below(8) / 7]][below(2) as usize];
                draft.nodes.push([node, answer[0], answer[1], answer[2]]);
                node += below(8);
            }
            for _ in 0..below(4) {
                draft.blocks.push((block, vec![below(256) as u8; 4096]));
                block += below(5);
            }
            if draft.is_taken() {
                taken += 1;
                draft.expect_taken();
            } else {
                draft.expect_refused();
            }
        }
        assert!((1000..3000).contains(&taken), "{taken} taken");
    }

    /// The same pull's lists in both calls. "Comparing a keep file with a new image gives what
    /// Compare gives for the image it was written from"
    struct Before {
        image: Sample,
        file: Vec<u8>,
        counts: [u32; 2],
        lists: [Vec<u8>; 2],
    }

    impl Before {
        fn new(image: Sample, path: &[u8], index: u32) -> Before {
            let (pulled, [_, nodes, blocks]) = pulled(&image, path, index);
            let file = file_of(&image, path, index);
            let counts = [pulled.node_count, pulled.block_count];
            Before { image, file, counts, lists: [nodes, blocks] }
        }

        #[track_caller]
        fn compared(&self, fresh: &[u8]) -> Compared {
            let ([nodes, blocks], [node_count, block_count]) = (&self.lists, self.counts);
            let image = &self.image.bytes;
            let expected = compare(image, fresh, nodes, node_count, blocks, block_count);
            assert_eq!(keep_compare(&self.file, fresh), expected);
            expected
        }

        fn lists(&self, list: usize, number: u32) -> bool {
            numbers(&self.lists[list], 4).take(self.counts[list] as usize).any(|n| n == number)
        }
    }

    #[test]
    fn differences_in_order() {
        let before = Before::new(sample(2), &path(2), 1);
        let mut fresh = sample(2);
        assert_eq!(before.compared(&fresh.bytes), only(15));
        // A block that isn't listed, a version byte, and a number that isn't listed.
        fresh.put(4599, 0, &[1]);
        fresh.put(2560, 7 * 9, &[1]);
        fresh.put_nat(2560, 8, 8, 4599);
        assert_eq!(before.compared(&fresh.bytes), only(15));
        // What the journal says now, the table said before.
        fresh.put_journal(&[(7, 7, 4098)]);
        fresh.put_nat(2560, 7, 1, 1);
        assert_eq!(before.compared(&fresh.bytes), only(15));
        fresh.put(DATA, 4095, &[1]);
        assert_eq!(before.compared(&fresh.bytes), changed(3, DATA as u32));
        fresh.put(4098, 4095, &[1]);
        assert_eq!(before.compared(&fresh.bytes), changed(3, 4098));
        fresh.put_nat(2560, 39, 39, 4299);
        assert_eq!(before.compared(&fresh.bytes), changed(2, 39));
        fresh.put_journal(&[(7, 7, 4099)]);
        assert_eq!(before.compared(&fresh.bytes), changed(2, 7));
        for segments in [0, 2, 3] {
            fresh.resize_main(segments);
            assert_eq!(before.compared(&fresh.bytes), changed(1, 0), "{segments} segments");
        }
    }

    /// Every block of the main area, and every number of the table's first block.
    #[test]
    fn what_a_pull_stood_on() {
        for k in [1, 3, 8] {
            let before = Before::new(sample(k), &path(k), 1);
            let mut fresh = sample(k);
            for block in 4096..4608 {
                fresh.bytes[block as usize * 4096 + 4095] ^= 1;
                let expected = if before.lists(1, block) { changed(3, block) } else { only(15) };
                assert_eq!(before.compared(&fresh.bytes), expected, "block {block}");
                fresh.bytes[block as usize * 4096 + 4095] ^= 1;
            }
            for number in 1..455 {
                fresh.bytes[2560 * 4096 + number as usize * 9 + 1] ^= 1;
                let expected = if before.lists(0, number) { changed(2, number) } else { only(15) };
                assert_eq!(before.compared(&fresh.bytes), expected, "number {number}");
                fresh.bytes[2560 * 4096 + number as usize * 9 + 1] ^= 1;
            }
        }
    }

    /// A table answer 9 that was kept differs from every one that is found, and the other way.
    #[test]
    fn numbers_out_of_range() {
        let mut fresh = Sample::new();
        fresh.put_nat(2560, 5, 6, 7);
        let compared = |node| {
            let draft = Draft::with(|draft| {
                draft.nodes = vec![[0, 9, 0, 0], node];
                draft.blocks.clear();
            });
            keep_compare(&draft.file(), &fresh.bytes)
        };
        for (same, others) in [
            ([5, 0, 6, 7], [[5, 9, 0, 0], [5, 0, 0, 0], [5, 0, 6, 6], [5, 0, 7, 7]]),
            ([6, 0, 0, 0], [[6, 9, 0, 0], [6, 0, 9, 0], [6, 0, 0, 9], [6, 0, 1, 1]]),
            (
                [455 * 512, 9, 0, 0],
                [[0, 0], [9, 0], [0, 9], [u32::MAX; 2]].map(|[i, a]| [455 * 512, 0, i, a]),
            ),
        ] {
            assert_eq!(compared(same), only(15));
            assert!(others.iter().all(|&other| compared(other) == changed(2, same[0])));
        }
    }

    /// 18, then 4 without a side, then 5 to 8 with side 2, then the differences.
    #[test]
    fn refusals_of_the_comparison() {
        let before = Before::new(sample(2), &path(2), 1);
        let mut fresh = sample(2);
        fresh.resize_main(2);
        let cut = &before.file[1..];
        let mut expect = |change: fn(&mut Sample), expected: Compared| {
            change(&mut fresh);
            assert_eq!(before.compared(&fresh.bytes), expected);
            assert_eq!(keep_compare(cut, &fresh.bytes), only(18));
            assert_eq!(keep_compare(&[], &fresh.bytes), only(18));
        };
        let side = |answer| Compared { answer, side: 2, kind: 0, number: 0 };
        expect(|_| (), changed(1, 0));
        expect(|fresh| DAMAGE[0](fresh, FIRST_PACK), side(8));
        expect(|fresh| fresh.put32(FIRST_PACK, 4092, 0), side(7));
        expect(|fresh| fresh.put32(0, 1024 + 2180, 1), side(6));
        expect(|fresh| fresh.put32(0, 1024, 0), side(5));
        expect(|fresh| fresh.bytes.truncate(fresh.bytes.len() - 1), only(4));
        expect(|fresh| fresh.bytes.truncate(4096), only(4));
        expect(|fresh| fresh.bytes.clear(), only(4));
    }

    #[test]
    fn damaged_new_images() {
        let before = Before::new(sample(1), NAME, 1);
        for damage in DAMAGE {
            let mut fresh = sample(1);
            damage(&mut fresh, FIRST_PACK);
            assert_eq!(before.compared(&fresh.bytes), refused(8, 2));
        }
    }
}

//! K10: a pull that is handed the card's blocks one at a time.
//!
//! "it is given the card's block count, the path and index, names the block it needs next, takes
//! 4,096 bytes and goes on by a step that hands the reader's state back"

use crate::bytes::BLOCK_SIZE;
use crate::open::is_block_count;
use crate::path::{names, rooms, Rooms};
use crate::pull::{refused, Memory, Pulled};
use crate::reader_open::{Opening, Turn};
use crate::reader_walk::Walking;

/// "after at most 408k + 16 blocks for k names". A k that no path has is kept from wrapping.
pub const fn most_asks(k: usize) -> usize {
    k.saturating_mul(408).saturating_add(16)
}

/// The state of a reader: the path, what is kept of a few blocks, and the lists.
#[derive(Debug, Clone, PartialEq, Eq)]
pub struct Reader {
    /// What the path needs of lists.
    rooms: Rooms,
    state: State,
}

#[derive(Debug, Clone, PartialEq, Eq)]
enum State {
    Opening {
        opening: Opening,
        names: Vec<Vec<u8>>,
        index: u32,
    },
    Walking(Walking),
    /// 4 to 8.
    Refused(u32),
}

impl Reader {
    /// A path that is none, and a card of too few or too many blocks, are 4 at once.
    pub fn start(card_blocks: u32, path: &[u8], index: u32) -> Reader {
        let names = names(path).unwrap_or_default();
        let rooms = rooms(names.len());
        if names.is_empty() || !is_block_count(u64::from(card_blocks)) {
            return Reader { rooms, state: State::Refused(4) };
        }
        let names = names.into_iter().map(<[u8]>::to_vec).collect();
        let state = State::Opening { opening: Opening::start(card_blocks), names, index };
        Reader { rooms, state }
    }

    /// The block that is wanted next; `None` once the answer is there.
    pub fn asks(&self) -> Option<u32> {
        match &self.state {
            State::Opening { opening, .. } => Some(opening.asks()),
            State::Walking(walking) => walking.asks(),
            State::Refused(_) => None,
        }
    }

    /// "Each step asks for one block or gives the answer, and a step after the answer repeats it
    /// whatever comes. Before that, bytes of another length give 4."
    pub fn step(self, bytes: &[u8]) -> Reader {
        if self.asks().is_none() {
            return self;
        }
        let state =
            if bytes.len() == BLOCK_SIZE { self.state.step(bytes) } else { State::Refused(4) };
        Reader { state, ..self }
    }

    /// The answer in lent memory, as the pull gives it. 4 for memory that the pull would refuse, and
    /// before the answer is there.
    pub fn result(&self, block: &mut [u8], nodes: &mut [u8], blocks: &mut [u8]) -> Pulled {
        let memory = Memory { block, nodes, blocks };
        if !memory.in_shape(self.rooms) {
            return refused(4);
        }
        match &self.state {
            State::Opening { .. } => refused(4),
            State::Refused(answer) => refused(*answer),
            State::Walking(walking) => match walking.found() {
                None => refused(4),
                Some(found) => memory.filled(&found, walking.nodes(), walking.blocks()),
            },
        }
    }
}

impl State {
    fn step(self, bytes: &[u8]) -> State {
        match self {
            State::Opening { opening, names, index } => match opening.step(bytes) {
                Ok(Turn::Ask(opening)) => State::Opening { opening, names, index },
                Ok(Turn::Opened(card)) => State::Walking(Walking::start(card, names.into(), index)),
                Err(answer) => State::Refused(answer),
            },
            State::Walking(walking) => State::Walking(walking.step(bytes)),
            State::Refused(answer) => State::Refused(answer),
        }
    }
}

#[cfg(test)]
mod tests {
    use super::*;
    use crate::bytes::block;
    use crate::hash::raw_hash;
    use crate::levels::hash_levels;
    use crate::path::MOST_ROOMS;
    use crate::place::{directory_place, file_place, Place, ADDRESSES};
    use crate::sample::{
        directory, fed, numbers, path, Lent, Numbers, Sample, DAMAGE, FIRST_PACK, NAME, SECOND_PACK,
    };

    /// Where the sample's file has the data of its block 0.
    const DATA: u32 = 4200;
    /// How many blocks the sample has.
    const BLOCKS: u32 = 4608;

    /// The file `path(k)` with two blocks, the first of them data and the second a hole.
    fn sample(k: usize) -> Sample {
        let mut sample = Sample::with_path(k, 4097);
        sample.put32(4098, 360, DATA);
        sample.put(DATA as usize, 0, &[9; 4096]);
        sample
    }

    fn lent() -> Lent {
        Lent::with_buffer(4096, MOST_ROOMS)
    }

    /// The answer that a reader has, in form: what it must not write is untouched, and its lists
    /// rise.
    fn answer(reader: &Reader) -> u32 {
        assert_eq!(reader.asks(), None);
        let mut lent = lent();
        let pulled = lent.result(reader);
        assert!(pulled.answer <= 14);
        if pulled.answer > 1 {
            assert_eq!(pulled.byte_count, 0);
            assert!(lent.buffer.iter().all(|&byte| byte == 0xAA));
        } else {
            assert!((1..=4096).contains(&pulled.byte_count));
        }
        if (4..=8).contains(&pulled.answer) {
            assert_eq!(pulled, refused(pulled.answer));
            assert!(lent.is_untouched());
        }
        for (list, count) in [(&lent.nodes, pulled.node_count), (&lent.blocks, pulled.block_count)]
        {
            assert!(numbers(list, count).is_sorted_by(|one, next| one < next));
        }
        pulled.answer
    }

    /// What the reader answers that is fed the sample, after which asks.
    fn answer_and_asks(sample: &Sample, path: &[u8], index: u32) -> (u32, Vec<u32>) {
        let (reader, asked) = sample.fed(path, index);
        (answer(&reader), asked)
    }

    #[test]
    fn most_asks_of_each_count() {
        let expected = [424, 832, 1240, 1648, 2056, 2464, 2872, 3280];
        assert_eq!([1, 2, 3, 4, 5, 6, 7, 8].map(most_asks), expected);
        assert_eq!(most_asks(usize::MAX), usize::MAX);
    }

    /// "2 to" 4,194,304 blocks.
    #[test]
    fn block_counts() {
        for card_blocks in [0, 1, 4_194_305, 1 << 31, u32::MAX] {
            let reader = Reader::start(card_blocks, NAME, 0);
            assert_eq!(answer(&reader), 4, "{card_blocks} blocks");
            assert_eq!(reader.clone().step(&[0; 4096]), reader);
        }
        for card_blocks in [2, 3, BLOCKS - 1, BLOCKS, 262_144, 262_145, 4_194_303, 4_194_304] {
            assert_eq!(Reader::start(card_blocks, NAME, 0).asks(), Some(0));
            let (reader, asked) = fed(card_blocks, NAME, 0, |_| [0; 4096]);
            assert_eq!((answer(&reader), asked), (5, vec![0, 1]), "{card_blocks} blocks");
        }
        // "block count ≤ image blocks": on a smaller card the sample's copy doesn't pass.
        let sample = sample(1);
        for (card_blocks, expected) in [(2, 5), (BLOCKS - 1, 5), (BLOCKS, 0), (4_194_304, 0)] {
            let block_of = |number| block(&sample.bytes, u64::from(number));
            let (reader, _) = fed(card_blocks, NAME, 0, block_of);
            assert_eq!(answer(&reader), expected, "{card_blocks} blocks");
        }
    }

    /// The main area of the largest card ends with its last block, and the file's data is there.
    #[test]
    fn the_last_block_of_the_largest_card() {
        let mut sample = sample(1);
        for (at, value) in [(36, 4_194_304), (48, 8191), (68, 8184)] {
            sample.put32(0, 1024 + at, value);
        }
        for (address, expected) in [(4_194_303, 0), (4_194_304, 13), (u32::MAX - 1, 13)] {
            sample.put32(4098, 360, address);
            let (reader, asked) = fed(4_194_304, NAME, 0, |number| match number {
                4_194_303 => &[7; 4096],
                _ => block(&sample.bytes, u64::from(number)),
            });
            assert_eq!(answer(&reader), expected, "address {address}");
            assert_eq!(asked.contains(&4_194_303), expected == 0);
            let mut lent = lent();
            lent.result(&reader);
            let byte = if expected == 0 { 7 } else { 0xAA };
            assert!(lent.buffer.iter().all(|&stored| stored == byte));
        }
    }

    #[test]
    fn paths_that_are_none() {
        let long = [b'n'; 256];
        for path in [&b""[..], b"/", b"a/", b"/a", b"a//b", b"a\0", b"1/2/3/4/5/6/7/8/9", &long] {
            let reader = Reader::start(BLOCKS, path, 0);
            assert_eq!(answer(&reader), 4, "{path:?}");
            assert_eq!(reader.clone().step(&[0; 4096]), reader);
        }
        assert_eq!(Reader::start(BLOCKS, &long[..255], 0).asks(), Some(0));
        assert_eq!(Reader::start(BLOCKS, b"1/2/3/4/5/6/7/8", 0).asks(), Some(0));
    }

    fn spoil(sample: &mut Sample, block: usize) {
        sample.put32(block, 4092, 0);
    }

    fn put_total(sample: &mut Sample, total: u32) {
        sample.put32(FIRST_PACK, 136, total);
        sample.seal(FIRST_PACK);
    }

    /// The whole card has its first copy spoiled and both packs, the second of them chosen.
    fn longest_to_open() -> Sample {
        let mut sample = sample(1);
        sample.copy_block(0, 1);
        sample.put32(0, 1024, 0);
        sample.put_pack(SECOND_PACK, 6, 8);
        sample
    }

    type Change = fn(&mut Sample);

    /// Changes to a card that takes all 7 blocks to open; then the answer if it doesn't, and the
    /// blocks of opening.
    const OPENINGS: [(Change, u32, &[u32]); 17] = [
        (|_| (), 0, &[0, 1, 512, 519, 1024, 1031, 1025]),
        (|sample| sample.put32(1, 1024, 0), 5, &[0, 1]),
        (|sample| sample.put32(1, 1024 + 2180, 1), 6, &[0, 1]),
        (|sample| sample.copy_block(1, 0), 0, &[0, 512, 519, 1024, 1031, 1025]),
        (|sample| spoil(sample, FIRST_PACK), 0, &[0, 1, 512, 1024, 1031, 1025]),
        (|sample| spoil(sample, FIRST_PACK + 7), 0, &[0, 1, 512, 519, 1024, 1031, 1025]),
        (|sample| spoil(sample, SECOND_PACK), 0, &[0, 1, 512, 519, 1024, 513]),
        (|sample| spoil(sample, SECOND_PACK + 7), 0, &[0, 1, 512, 519, 1024, 1031, 513]),
        // The first pack's version is newer, then the same; totals at both ends and past them.
        (|sample| sample.put_pack(FIRST_PACK, 7, 8), 0, &[0, 1, 512, 519, 1024, 1031, 513]),
        (|sample| sample.put_pack(FIRST_PACK, 6, 8), 0, &[0, 1, 512, 519, 1024, 1031, 513]),
        (|sample| sample.put_pack(FIRST_PACK, 5, 2), 0, &[0, 1, 512, 513, 1024, 1031, 1025]),
        (|sample| sample.put_pack(FIRST_PACK, 5, 512), 0, &[0, 1, 512, 1023, 1024, 1031, 1025]),
        (|sample| put_total(sample, 1), 0, &[0, 1, 512, 1024, 1031, 1025]),
        (|sample| put_total(sample, 513), 0, &[0, 1, 512, 1024, 1031, 1025]),
        // The chosen pack alone says that its journal isn't needed.
        (|sample| DAMAGE[0](sample, SECOND_PACK), 8, &[0, 1, 512, 519, 1024, 1031]),
        (|sample| sample.put_pack(SECOND_PACK, 6, 7), 8, &[0, 1, 512, 519, 1024, 1030]),
        (|sample| DAMAGE[2](sample, SECOND_PACK), 8, &[0, 1, 512, 519, 1024, 1031, 1025]),
    ];

    #[test]
    fn asks_of_opening() {
        let walk = [2560, 4096, 4097, 2560, 4098, DATA];
        for (at, (change, expected, opening)) in OPENINGS.into_iter().enumerate() {
            let mut sample = longest_to_open();
            change(&mut sample);
            let asked = if expected == 0 { [opening, &walk].concat() } else { opening.to_vec() };
            assert_eq!(answer_and_asks(&sample, NAME, 0), (expected, asked), "opening {at}");
        }
        // Neither pack passes, and a plain card's features.
        let mut sample = sample(1);
        spoil(&mut sample, FIRST_PACK);
        assert_eq!(answer_and_asks(&sample, NAME, 0), (7, vec![0, 512, 1024]));
        sample.put32(0, 1024 + 1664, 1);
        assert_eq!(answer_and_asks(&sample, NAME, 0), (6, vec![0]));
    }

    /// The blocks asked for after a plain card's opening.
    fn walk_asks(sample: &Sample, path: &[u8], index: u32) -> (u32, Vec<u32>) {
        let (answer, asked) = answer_and_asks(sample, path, index);
        let (opening, walk) = asked.split_at(5);
        assert_eq!(opening, [0, 512, 519, 1024, 513]);
        (answer, walk.to_vec())
    }

    #[test]
    fn asks_of_paths() {
        for k in 1..=8 {
            let mut expected = Vec::new();
            for block in (0..k).map(|depth| directory(depth).1 as u32) {
                expected.extend([2560, block, block + 1]);
            }
            expected.extend([2560, 4098]);
            let (sample, path) = (sample(k), path(k));
            assert_eq!(walk_asks(&sample, &path, 1), (1, expected.clone()), "{k} names");
            assert_eq!(walk_asks(&sample, &path, 2), (3, expected.clone()), "{k} names");
            expected.push(DATA);
            assert_eq!(walk_asks(&sample, &path, 0), (0, expected), "{k} names");
        }
    }

    /// "a node number is looked up in the journal [...], else its table block": none is asked for a
    /// number that is out of range or in the journal.
    #[test]
    fn asks_of_lookups() {
        let mut sample = sample(1);
        sample.put_journal(&[(7, 7, 4098)]);
        assert_eq!(walk_asks(&sample, NAME, 1), (1, vec![2560, 4096, 4097, 4098]));
        sample.put_journal(&[(7, 7, 4098), (3, 3, 4096)]);
        assert_eq!(walk_asks(&sample, NAME, 1), (1, vec![4096, 4097, 4098]));
        sample.put_journal(&[(7, 7, 0), (3, 3, 4096)]);
        assert_eq!(walk_asks(&sample, NAME, 1), (9, vec![4096, 4097]));
        sample.put_journal(&[(3, 3, 4608)]);
        assert_eq!(walk_asks(&sample, NAME, 1), (10, vec![]));
        sample.put_journal(&[]);
        // The number's own table block, and no block for one out of range.
        let last = 455 * 512 - 1;
        for (number, asked) in [(454, 2560), (455, 2561), (last, 3071)] {
            sample.put32(4097, 30 + 11 * 2 + 4, number);
            let expected = (9, vec![2560, 4096, 4097, asked]);
            assert_eq!(walk_asks(&sample, NAME, 1), expected, "number {number}");
        }
        for number in [0, last + 1, u32::MAX] {
            sample.put32(4097, 30 + 11 * 2 + 4, number);
            assert_eq!(walk_asks(&sample, NAME, 1), (9, vec![2560, 4096, 4097]));
        }
        // The second copy.
        sample.put(FIRST_PACK, 192 + 64, &[0x80]);
        sample.seal(FIRST_PACK);
        assert_eq!(walk_asks(&sample, NAME, 1), (9, vec![3072]));
    }

    /// A card whose root has all the 58 blocks that are searched for the hash 0, one of them for
    /// all but the last, which is 4099 and names "." and ".." for the root and the file.
    fn deep() -> Sample {
        let mut sample = longest_to_open();
        sample.put_levels(4096, 0, 63);
        for index in hash_levels(0, 29).unwrap().iter().flat_map(|level| level.searched(0)) {
            let Place::Way(way) = directory_place(ADDRESSES, index) else {
                panic!("index {index} is past the last one");
            };
            // Hash level 28 starts at 2^29 − 2.
            let address = if index == (1 << 29) - 1 { 4099 } else { 4097 };
            sample.put_block_of(directory(0), &way, address);
        }
        sample.put(4097, 0, &[0; 4096]);
        sample.put_dentry(4099, 0, raw_hash(b"."), 3, b".");
        sample.put_dentry(4099, 1, raw_hash(b".."), 7, b"..");
        sample.put64(4098, 16, 1 << 40);
        let Place::Way(way) = file_place(ADDRESSES, 2_075_607) else {
            panic!("the first index below the double node");
        };
        sample.put_block_of((7, 4098), &way, DATA);
        sample
    }

    /// `k` names: all but the last lead back to the root.
    fn deep_path(k: usize) -> Vec<u8> {
        [&[&b"."[..]; 8][..k - 1], &[b".."]].concat().join(&b'/')
    }

    /// With hash 0 the blocks of hash levels 0 to 8 are in the inode, those of 9 and 10 below a
    /// direct node, of 11 to 19 an indirect, of 20 to 28 the double one: 18 × 1 + 4 × 3 + 18 × 5 +
    /// 18 × 7 blocks are asked for, table and node for each node on the way, and two for the inode
    /// itself. So it is 248 a name, 9 for the file and 7 for opening.
    #[test]
    fn each_node_is_asked_for_each_time() {
        let sample = deep();
        for k in 1..=8 {
            let (answer, asked) = answer_and_asks(&sample, &deep_path(k), 2_075_607);
            assert_eq!((answer, asked.len()), (0, 248 * k + 16), "{k} names");
            // The table has one block here, and each node below a hash level is met twice.
            let times = |block| asked.iter().filter(|&&other| other == block).count();
            assert_eq!(times(2560), (1 + 4 + 36 + 54) * k + 4);
            assert_eq!(times(4097), 57 * k);
            assert_eq!(times(4099), k);
            let mut lent = lent();
            assert_eq!(lent.pull(&sample, &deep_path(k), 2_075_607).byte_count, 4096);
            assert_eq!(lent.buffer, [9; 4096]);
        }
    }

    /// "A hole is an empty block, with only the nodes on the way to it looked up and read", whether
    /// it shows in the inode or further down. Hash level 9 has the blocks 1,022 and 1,023, in slots
    /// 99 and 100 of the first direct node, number 20.
    #[test]
    fn holes_are_not_asked_for() {
        let mut sample = deep();
        let changes = [(4300, 4 * 99, 0, 1), (4300, 4 * 100, u32::MAX, 2), (4096, 4052, 0, 6)];
        for (block, at, value, fewer) in changes {
            sample.put32(block, at, value);
            for k in 1..=8 {
                let (answer, asked) = answer_and_asks(&sample, &deep_path(k), 2_075_607);
                assert_eq!((answer, asked.len()), (0, (248 - fewer) * k + 16), "{k} names");
            }
        }
        // The file's own block, in its leaf and then in its inode.
        let (_, asked) = answer_and_asks(&sample, &deep_path(1), 2_075_607);
        let leaf = asked[asked.len() - 2] as usize;
        for (block, at, file_asks) in [(leaf, 0, 8), (4098, 4052 + 4 * 4, 2)] {
            sample.put32(block, at, 0);
            let (answer, asked) = answer_and_asks(&sample, &deep_path(1), 2_075_607);
            assert_eq!((answer, asked.len()), (1, 7 + 242 + file_asks));
        }
    }

    /// A card's readers after each number of steps, the one with the answer last.
    fn readers(sample: &Sample, path: &[u8], index: u32) -> Vec<Reader> {
        let mut readers = vec![Reader::start(BLOCKS, path, index)];
        while let Some((reader, number)) = readers.last().and_then(|r| Some((r, r.asks()?))) {
            let next = reader.clone().step(block(&sample.bytes, u64::from(number)));
            readers.push(next);
        }
        readers
    }

    /// "Before that, bytes of another length give 4", and the 4 stays.
    #[test]
    fn wrong_lengths_at_each_step() {
        let (sample, path) = (sample(3), path(3));
        let bytes = vec![0; 1 << 20];
        let readers = readers(&sample, &path, 0);
        assert_eq!(readers.len(), 5 + 3 * 3 + 3 + 1);
        let (answered, asking) = readers.split_last().unwrap();
        for reader in asking {
            for length in [0, 1, 4, 4092, 4095, 4097, 8192, 1 << 20] {
                let ended = reader.clone().step(&bytes[..length]);
                assert_eq!(answer(&ended), 4, "length {length}");
                // Neither the block that it had asked for nor another one changes it.
                for block in sample.bytes.chunks_exact(4096).step_by(512) {
                    assert_eq!(ended.clone().step(block), ended);
                }
            }
        }
        assert_eq!(answer(answered), 0);
    }

    /// "a step after the answer repeats it whatever comes"
    #[test]
    fn steps_after_the_answer() {
        let mut malformed = sample(1);
        malformed.put16(4097, 30 + 8, 0);
        for (sample, path, index, expected) in [
            (&sample(1), NAME, 0, 0),
            (&sample(1), NAME, 1, 1),
            (&sample(1), b"other", 0, 2),
            (&sample(1), NAME, 2, 3),
            (&Sample { bytes: vec![0; 4608 * 4096] }, NAME, 0, 5),
            (&Sample::new(), NAME, 0, 9),
            (&sample(2), b"d1", 0, 12),
            (&malformed, NAME, 0, 14),
        ] {
            let (reader, _) = sample.fed(path, index);
            assert_eq!(answer(&reader), expected);
            let mut again = reader.clone();
            for bytes in [&[0; 4096][..], &[], &[1; 4095], &sample.bytes[..4096], &[0xFF; 8192]] {
                again = again.step(bytes);
                assert_eq!(again, reader);
            }
        }
    }

    /// Before the answer the result is 4, and so it is in memory that a pull refuses.
    #[test]
    fn results_before_the_answer_and_in_other_memory() {
        for k in [1, 2, 8] {
            let readers = readers(&sample(k), &path(k), 0);
            let (answered, asking) = readers.split_last().unwrap();
            let mut enough = Lent::with_buffer(4096, rooms(k));
            for reader in asking {
                assert_eq!(enough.result(reader), refused(4));
                assert!(enough.is_untouched());
            }
            let unformatted = Sample { bytes: vec![0; 8192] }.fed(&path(k), 0).0;
            let out_of_shape: [fn(&mut Lent); 4] = [
                |lent| lent.buffer.truncate(4095),
                |lent| lent.buffer.push(0xAA),
                |lent| lent.nodes.truncate(lent.nodes.len() - 1),
                |lent| lent.blocks.truncate(lent.blocks.len() - 1),
            ];
            for spoil in out_of_shape {
                let mut lent = Lent::with_buffer(4096, rooms(k));
                spoil(&mut lent);
                assert_eq!(lent.result(answered), refused(4));
                // 4 comes before 5.
                assert_eq!(lent.result(&unformatted), refused(4));
                assert!(lent.is_untouched());
            }
            assert_eq!(enough.result(&unformatted), refused(5));
            assert!(enough.is_untouched());
            assert_eq!(enough.result(answered).answer, 0);
        }
    }

    /// The same bytes for every block, and other ones each time.
    #[test]
    fn bytes_that_are_no_card() {
        let mut random = Numbers(10);
        for (card_blocks, k) in [2, BLOCKS, 4_194_304].into_iter().flat_map(|b| [(b, 1), (b, 8)]) {
            for byte in [0, 1, 0xFF] {
                let (reader, asked) = fed(card_blocks, &path(k), 0, |_| [byte; 4096]);
                assert_eq!((answer(&reader), asked.len()), (5, 2));
            }
            let noise = |_| (0..4096).map(|_| random.below(256) as u8).collect::<Vec<_>>();
            let (reader, asked) = fed(card_blocks, &path(k), 0, noise);
            assert_eq!((answer(&reader), asked.len()), (5, 2));
        }
    }

    /// Where the numbers lie that the reader goes by, in blocks of any kind: superblock copy,
    /// checkpoint, inode and node, table, directory block.
    const PLACES: [usize; 36] = [
        1024, 1032, 1060, 1092, 1100, 1108, 1116, 2688, 3204, 0, 132, 136, 140, 156, 160, 256, 3,
        16, 72, 347, 360, 364, 4052, 4056, 4060, 4068, 4072, 4076, 4080, 28, 32, 64, 68, 30, 34,
        38,
    ];

    const VALUES: [u32; 20] = [
        0,
        1,
        2,
        3,
        4,
        7,
        8,
        9,
        20,
        32,
        64,
        512,
        4095,
        4096,
        4099,
        4300,
        4608,
        232_959,
        232_960,
        0xFFFF_FFFF,
    ];

    /// A number of the block is another, and the checksum of a checkpoint block mostly follows.
    fn change(random: &mut Numbers, bytes: &[u8]) -> Vec<u8> {
        let mut changed = Sample { bytes: bytes.to_vec() };
        let at = match random.below(2) {
            0 => PLACES[random.below(PLACES.len())],
            _ => random.below(4092),
        };
        changed.put32(0, at, VALUES[random.below(VALUES.len())]);
        if bytes[164..168] == 4092u32.to_le_bytes() && random.below(4) > 0 {
            changed.seal(0);
        }
        changed.bytes
    }

    /// Tells that each of these answers was met.
    fn assert_met(met: &[usize; 15], answers: &[usize]) {
        assert!(answers.iter().all(|&answer| met[answer] > 0), "{met:?}");
    }

    /// One block that is asked for is changed on the card. The pull is made by a reader too.
    #[test]
    fn any_change_to_a_card() {
        let (mut random, mut met) = (Numbers(1010), [0; 15]);
        for (mut sample, path, index) in
            [(sample(3), path(3), 0), (deep(), deep_path(2), 2_075_607), (sample(1), path(1), 1)]
        {
            let (_, asked) = sample.fed(&path, index);
            for _ in 0..700 {
                let number = asked[random.below(asked.len())];
                let before = block(&sample.bytes, u64::from(number)).to_vec();
                sample.put(number as usize, 0, &change(&mut random, &before));
                met[lent().pull(&sample, &path, index).answer as usize] += 1;
                sample.put(number as usize, 0, &before);
            }
        }
        assert_met(&met, &[0, 1, 2, 3, 5, 6, 7, 8, 9, 10, 11, 12, 13, 14]);
    }

    /// "Fed other bytes it still answers": one in so many blocks comes with a change, or is another
    /// block or noise, each time it is asked for. Its lists keep to the rooms.
    #[test]
    fn blocks_that_change() {
        let (mut random, mut met) = (Numbers(101), [0; 15]);
        let sample = deep();
        for turn in 0..1000 {
            let (k, one_in) = (1 + turn % 8, 2 << (turn % 11));
            let (reader, _) = fed(BLOCKS, &deep_path(k), 2_075_607, |number| {
                let bytes = block(&sample.bytes, u64::from(number));
                match random.below(8 * one_in) {
                    0 => block(&sample.bytes, random.below(4608) as u64).to_vec(),
                    1 => (0..4096).map(|_| random.below(256) as u8).collect(),
                    2..8 => change(&mut random, bytes),
                    _ => bytes.to_vec(),
                }
            });
            met[answer(&reader) as usize] += 1;
            let pulled = lent().result(&reader);
            assert!(pulled.node_count as usize <= rooms(k).nodes);
            assert!(pulled.block_count as usize <= rooms(k).blocks);
        }
        assert_met(&met, &[0, 2, 5, 7, 8, 9, 10, 11, 12, 13, 14]);
    }
}

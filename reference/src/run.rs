//! K14: a run of blocks of a file under its path, with the nodes and blocks that any of its pulls
//! stood on.

use crate::bytes::BLOCK_SIZE;
use crate::open::open;
use crate::path::{names, Rooms, MOST_NAMES};
use crate::pull::{hand_out, write_list};
use crate::walk::Walk;

/// "a run of up to 512 blocks"
pub const MOST_BLOCKS: u32 = 512;

/// The rooms for eight names, which are enough for every run: 1,406 and 2,382.
pub const MOST_RUN_ROOMS: Rooms = run_rooms(MOST_NAMES);

/// "With k names the lists need room for 175k + 6 and 233k + 518." A k that no path has is kept
/// from wrapping.
pub const fn run_rooms(k: usize) -> Rooms {
    Rooms {
        nodes: k.saturating_mul(175).saturating_add(6),
        blocks: k.saturating_mul(233).saturating_add(518),
    }
}

/// The result numbers of a run. With 4 to 8 all but the answer are 0.
#[derive(Debug, Clone, Copy, PartialEq, Eq, Default)]
pub struct PulledRun {
    pub answer: u32,
    /// How many blocks stand.
    pub count: u32,
    /// That of the last block that stands, also beside a refusal; 0 if none stands.
    pub byte_count: u32,
    pub node_count: u32,
    pub block_count: u32,
}

/// Reads `blocks_wanted` blocks of the file under `path`, from block `index` on. The lists are lent
/// as bytes, four to a number.
pub fn pull_run(
    image: &[u8],
    path: &[u8],
    index: u32,
    blocks_wanted: u32,
    buffer: &mut [u8],
    nodes: &mut [u8],
    blocks: &mut [u8],
) -> PulledRun {
    let Some(names) = names(path) else {
        return refused(4);
    };
    let rooms = run_rooms(names.len());
    if !is_run(blocks_wanted, buffer.len()) || !rooms.are_in(nodes, blocks) {
        return refused(4);
    }
    // Opening gives 4 for the image's length before 5 to 8.
    let volume = match open(image) {
        Ok(volume) => volume,
        Err(answer) => return refused(answer),
    };
    let mut walk = Walk::new(volume);
    let run = one_by_one(&mut walk, &names, index, buffer);
    write_list(nodes, &walk.nodes);
    write_list(blocks, &walk.blocks);
    PulledRun {
        node_count: walk.nodes.len() as u32,
        block_count: walk.blocks.len() as u32,
        ..run
    }
}

/// 4 to 8: counts 0, and whoever gives this leaves buffer and lists untouched.
fn refused(answer: u32) -> PulledRun {
    PulledRun { answer, ..PulledRun::default() }
}

/// "A run of 0 or over 512 blocks, or a buffer not 4,096 bytes a block, is 4."
fn is_run(blocks_wanted: u32, buffer_length: usize) -> bool {
    (1..=MOST_BLOCKS).contains(&blocks_wanted)
        && buffer_length == blocks_wanted as usize * BLOCK_SIZE
}

/// "the run stops at the first answer that isn't 0 or 1, answers it (else 0) with how many stand
/// and the last one's byte count, and the buffer behind them stays". Each block is pulled from the
/// root on as if it were the only one, which finds the same as "walking the directory once". The
/// walk's lists go on over all the pulls, so they become "the union, the last pull's included".
fn one_by_one(walk: &mut Walk, names: &[&[u8]], index: u32, buffer: &mut [u8]) -> PulledRun {
    let mut run = PulledRun::default();
    // Past a file's last index every pull stops, so no run goes on to the end of 32 bits.
    for (index, block) in (index..=u32::MAX).zip(buffer.chunks_exact_mut(BLOCK_SIZE)) {
        let found = walk.path_then_file(names, index);
        let (answer, byte_count) = hand_out(&found, block);
        // "holes not told apart"
        if answer > 1 {
            run.answer = answer;
            break;
        }
        run.count += 1;
        run.byte_count = byte_count;
    }
    run
}

#[cfg(test)]
mod tests {
    use std::collections::BTreeSet;

    use super::*;
    use crate::path::{rooms, MOST_ROOMS};
    use crate::place::{file_place, Place, ADDRESSES};
    use crate::sample::{
        numbers, path, with_directories, Lent, Sample, DAMAGE, FIRST_PACK, NAME,
    };

    /// The first of 512 data blocks, which are the second main segment.
    const DATA: u32 = 4608;

    /// The file `path(k)` with this size and no blocks yet.
    fn sample(k: usize, size: u64) -> Sample {
        let mut sample = Sample::with_path(k, size);
        sample.resize_main(2);
        sample
    }

    /// The bytes of the data block at this address, which no other has.
    fn content(address: u32) -> Vec<u8> {
        (0xFFFF_0000 | address).to_le_bytes().repeat(1024)
    }

    /// Puts block `index` of the file, and the nodes on the way to it.
    fn put_data(sample: &mut Sample, index: u32, address: u32) {
        let Place::Way(way) = file_place(ADDRESSES, index) else {
            panic!("index {index} is past the last one");
        };
        sample.put_block_of((7, 4098), &way, address);
        sample.put(address as usize, 0, &content(address));
    }

    impl Lent {
        /// Exactly what a run of a path of `k` names needs.
        fn for_run(k: usize, blocks_wanted: u32) -> Lent {
            Lent::with_buffer(blocks_wanted as usize * 4096, run_rooms(k))
        }

        fn run(
            &mut self,
            sample: &Sample,
            path: &[u8],
            index: u32,
            blocks_wanted: u32,
        ) -> PulledRun {
            let Lent { buffer, nodes, blocks } = self;
            pull_run(&sample.bytes, path, index, blocks_wanted, buffer, nodes, blocks)
        }
    }

    /// What a run gave, its memory behind that untouched.
    #[derive(Debug, PartialEq)]
    struct Outcome {
        /// Answer, count and byte count.
        numbers: [u32; 3],
        nodes: Vec<u32>,
        blocks: Vec<u32>,
        /// The bytes of the blocks that stand.
        bytes: Vec<u8>,
    }

    fn outcome(sample: &Sample, path: &[u8], index: u32, blocks_wanted: u32) -> Outcome {
        let k = path.split(|&byte| byte == b'/').count();
        let mut lent = Lent::for_run(k, blocks_wanted);
        let run = lent.run(sample, path, index, blocks_wanted);
        let (bytes, behind) = lent.buffer.split_at(run.count as usize * 4096);
        assert!(behind.iter().all(|&byte| byte == 0xAA));
        Outcome {
            numbers: [run.answer, run.count, run.byte_count],
            nodes: numbers(&lent.nodes, run.node_count),
            blocks: numbers(&lent.blocks, run.block_count),
            bytes: bytes.to_vec(),
        }
    }

    /// The same put together from single pulls.
    fn from_pulls(sample: &Sample, path: &[u8], index: u32, blocks_wanted: u32) -> Outcome {
        let (mut nodes, mut blocks) = (BTreeSet::new(), BTreeSet::new());
        let (mut result, mut bytes) = ([0; 3], Vec::new());
        for index in index..index + blocks_wanted {
            let mut lent = Lent::with_buffer(4096, MOST_ROOMS);
            let pulled = lent.pull(sample, path, index);
            nodes.extend(numbers(&lent.nodes, pulled.node_count));
            blocks.extend(numbers(&lent.blocks, pulled.block_count));
            if pulled.answer > 1 {
                result[0] = pulled.answer;
                break;
            }
            result = [0, result[1] + 1, pulled.byte_count];
            bytes.extend(lent.buffer);
        }
        let [nodes, blocks] = [nodes, blocks].map(|list| list.into_iter().collect());
        Outcome { numbers: result, nodes, blocks, bytes }
    }

    type Damage = fn(&mut Sample);

    /// One damage for each of 5 to 14.
    const DAMAGES: [(Damage, u32); 10] = [
        (|sample| sample.put32(0, 1024, 0), 5),
        (|sample| sample.put32(0, 1024 + 2180, 1), 6),
        (|sample| sample.put(FIRST_PACK, 4000, &[1]), 7),
        (|sample| DAMAGE[0](sample, FIRST_PACK), 8),
        (|sample| sample.put_nat(2560, 7, 7, 0), 9),
        (|sample| sample.put_nat(2560, 7, 7, 4095), 10),
        (|sample| sample.put32(4098, 4080, 8), 11),
        (|sample| sample.put16(4098, 0, 0x41ED), 12),
        (|sample| sample.put32(4098, 360, 4095), 13),
        (|sample| sample.put16(4097, 30 + 8, 0), 14),
    ];

    #[test]
    fn rooms_of_each_count() {
        let nodes = [181, 356, 531, 706, 881, 1056, 1231, 1406];
        let blocks = [751, 984, 1217, 1450, 1683, 1916, 2149, 2382];
        for k in 1..=8 {
            assert_eq!(run_rooms(k), Rooms { nodes: nodes[k - 1], blocks: blocks[k - 1] });
        }
        assert_eq!(MOST_RUN_ROOMS, Rooms { nodes: 1406, blocks: 2382 });
        assert_eq!(run_rooms(usize::MAX), Rooms { nodes: usize::MAX, blocks: usize::MAX });
    }

    /// The pull with its answer, but for the hole's number.
    fn assert_run_of_one(sample: &Sample, path: &[u8], index: u32, answer: u32) {
        let [mut single, mut run] = [(); 2].map(|_| Lent::with_buffer(4096, MOST_RUN_ROOMS));
        let pulled = single.pull(sample, path, index);
        assert_eq!(pulled.answer, answer, "index {index} of {path:?}");
        let stands = answer < 2;
        let expected = PulledRun {
            answer: if stands { 0 } else { answer },
            count: u32::from(stands),
            byte_count: pulled.byte_count,
            node_count: pulled.node_count,
            block_count: pulled.block_count,
        };
        assert_eq!(run.run(sample, path, index, 1), expected, "index {index} of {path:?}");
        assert_eq!(run.buffer, single.buffer);
        assert_eq!((run.nodes, run.blocks), (single.nodes, single.blocks));
    }

    #[test]
    fn a_run_of_one_is_a_pull() {
        for k in [1, 2, 8] {
            let mut good = sample(k, 4096 * 924 + 5);
            put_data(&mut good, 0, DATA + 1);
            put_data(&mut good, 924, DATA);
            for (index, answer) in [(0, 0), (1, 1), (923, 1), (924, 0), (925, 3), (u32::MAX, 3)] {
                assert_run_of_one(&good, &path(k), index, answer);
            }
            assert_run_of_one(&good, b"other", 0, 2);
            assert_run_of_one(&good, b"/", 0, 4);
            for (damage, answer) in DAMAGES {
                let mut bad = Sample { bytes: good.bytes.clone() };
                damage(&mut bad);
                assert_run_of_one(&bad, &path(k), 0, answer);
            }
        }
    }

    /// Data, holes and a refusal, in the inode and below it, in runs that start and end at each.
    #[test]
    fn a_run_is_its_pulls_together() {
        for k in [1, 2, 8] {
            let mut sample = sample(k, 4096 * 930 + 1);
            for (index, address) in (915..935).zip((DATA..).step_by(3)) {
                put_data(&mut sample, index, address);
            }
            sample.put32(4098, 360 + 4 * 917, 0);
            sample.put32(4098, 360 + 4 * 922, u32::MAX);
            sample.put32(4300, 4, 0);
            for refused in [false, true] {
                if refused {
                    sample.put32(4300, 4 * 3, 4095);
                }
                for (index, wanted) in (913..933).flat_map(|i| [1, 2, 7, 20].map(|n| (i, n))) {
                    let expected = from_pulls(&sample, &path(k), index, wanted);
                    let run = outcome(&sample, &path(k), index, wanted);
                    assert!(run == expected, "{wanted} from {index} of {k} names");
                }
            }
        }
    }

    /// Starts of full runs, and how many nodes below the inode are on the way to their blocks.
    const FULL_RUNS: [(u32, u32); 11] = [
        // In the inode, and up to its last address.
        (0, 0),
        (411, 0),
        // Over to the first direct node, the second, the first indirect one.
        (412, 1),
        (1685, 2),
        (2703, 3),
        // Inside the first indirect node, over to the second, and to the double one.
        (3721, 3),
        (1_039_027, 4),
        (2_075_351, 5),
        // Inside the double node's first child, over to the second, and up to the last index.
        (2_076_369, 4),
        (3_111_675, 5),
        (1_057_052_927, 3),
    ];

    /// 512 data blocks that lie in falling order, the last with 100 bytes. The most are listed with
    /// 5 nodes below the inode: 6 nodes and 518 blocks besides the directories'.
    #[test]
    fn full_runs() {
        for (k, (index, below)) in [1, 8].into_iter().flat_map(|k| FULL_RUNS.map(|run| (k, run))) {
            let mut sample = sample(k, 4096 * (u64::from(index) + 511) + 100);
            let mut bytes = Vec::new();
            for (index, address) in (index..).zip((DATA..DATA + 512).rev()) {
                put_data(&mut sample, index, address);
                bytes.extend(content(address));
            }
            bytes[511 * 4096 + 100..].fill(0);
            let nodes: Vec<u32> = [7].into_iter().chain(20..20 + below).collect();
            let blocks = [4098].into_iter().chain(4300..4300 + below).chain(DATA..DATA + 512);
            let (nodes, blocks) = with_directories(k, &nodes, &blocks.collect::<Vec<_>>());
            let expected = Outcome { numbers: [0, 512, 100], nodes, blocks, bytes };
            let run = outcome(&sample, &path(k), index, 512);
            assert!(run == expected, "from {index} of {k} names");
        }
    }

    /// Damages met at block 923 of a file whose blocks 921 to 925 lie from `DATA` on; then the
    /// answer, and the nodes and blocks that only the refused pull lists.
    const REFUSALS: [(Damage, u32, &[u32], &[u32]); 6] = [
        (|sample| sample.put64(4098, 16, 4096 * 923), 3, &[], &[]),
        (|sample| sample.put_nat(2560, 20, 7, 0), 9, &[20], &[]),
        (|sample| sample.put32(4098, 4052, u32::MAX), 9, &[u32::MAX], &[]),
        (|sample| sample.put_nat(2560, 20, 7, 4095), 10, &[20], &[]),
        (|sample| sample.put32(4300, 4072, 21), 11, &[20], &[4300]),
        (|sample| sample.put32(4300, 0, 4095), 13, &[20], &[4300]),
    ];

    /// The run in which the `count` blocks before 923 stand, with these nodes and blocks besides.
    fn before_923(count: u32, answer: u32, more_nodes: &[u32], more_blocks: &[u32]) -> Outcome {
        let standing: Vec<u32> = (DATA + 2 - count..DATA + 2).collect();
        let blocks = [&[4098], more_blocks, &standing[..]].concat();
        let (nodes, blocks) = with_directories(2, &[&[7], more_nodes].concat(), &blocks);
        let bytes = standing.iter().flat_map(|&address| content(address)).collect();
        // The last standing one's also beside a refusal.
        let byte_count = if count > 0 { 4096 } else { 0 };
        Outcome { numbers: [answer, count, byte_count], nodes, blocks, bytes }
    }

    /// "the run stops at the first answer that isn't 0 or 1", with "the last pull's" lists.
    #[test]
    fn the_first_refusal() {
        for (damage, answer, nodes, blocks) in REFUSALS {
            let mut sample = sample(2, 4096 * 930);
            for (index, address) in (921..926).zip(DATA..) {
                put_data(&mut sample, index, address);
            }
            damage(&mut sample);
            for count in 0..=2 {
                let index = 923 - count;
                for wanted in [count + 1, count + 3, 512] {
                    let run = outcome(&sample, &path(2), index, wanted);
                    let expected = before_923(count, answer, nodes, blocks);
                    assert!(run == expected, "{wanted} from {index} to {answer}");
                }
                // A run that ends before it doesn't meet it.
                if count > 0 {
                    let run = outcome(&sample, &path(2), index, count);
                    assert!(run == before_923(count, 0, &[], &[]), "{count} from {index}");
                }
            }
        }
    }

    /// Size 4,097: block 1 has one byte, block 2 is past the end.
    #[test]
    fn the_last_one_s_byte_count() {
        let holes = sample(1, 4097);
        let mut data = sample(1, 4097);
        put_data(&mut data, 0, DATA);
        put_data(&mut data, 1, DATA + 1);
        for sample in [holes, data] {
            for (index, wanted, expected) in [
                (0, 1, [0, 1, 4096]),
                (0, 2, [0, 2, 1]),
                (0, 3, [3, 2, 1]),
                (0, 512, [3, 2, 1]),
                (1, 1, [0, 1, 1]),
                (1, 2, [3, 1, 1]),
                (2, 1, [3, 0, 0]),
                (2, 512, [3, 0, 0]),
            ] {
                assert_eq!(outcome(&sample, NAME, index, wanted).numbers, expected);
            }
        }
    }

    /// "holes not told apart": zeros, whatever was lent, and one address twice is listed once.
    #[test]
    fn holes_and_a_block_twice() {
        let mut sample = sample(1, 4096 * 6);
        for index in [1, 4] {
            put_data(&mut sample, index, DATA);
        }
        sample.put32(4098, 360 + 4 * 3, u32::MAX);
        let bytes = [0, 1, 0, 0, 1, 0].map(|data| content(DATA).repeat(data)).map(|mut block| {
            block.resize(4096, 0);
            block
        });
        let (nodes, blocks) = (vec![3, 7], vec![4096, 4097, 4098, DATA]);
        let expected = Outcome { numbers: [0, 6, 4096], nodes, blocks, bytes: bytes.concat() };
        assert!(outcome(&sample, NAME, 0, 6) == expected);
    }

    /// An inline file has one block, and no data block of its own.
    #[test]
    fn inline_files() {
        let mut sample = sample(1, 100);
        sample.put(4098, 3, &[2]);
        sample.put(4098, 364, &[9; 3688]);
        let mut bytes = vec![9; 100];
        bytes.resize(4096, 0);
        for (wanted, answer) in [(1, 0), (2, 3), (512, 3)] {
            let (nodes, blocks) = (vec![3, 7], vec![4096, 4097, 4098]);
            let numbers = [answer, 1, 100];
            let expected = Outcome { numbers, nodes, blocks, bytes: bytes.clone() };
            assert_eq!(outcome(&sample, NAME, 0, wanted), expected);
        }
        assert_eq!(outcome(&sample, NAME, 1, 2).numbers, [3, 0, 0]);
    }

    /// Past the last index, and where the indexes of the run would pass 32 bits.
    #[test]
    fn the_end_of_the_indexes() {
        let mut sample = sample(1, u64::MAX);
        for (index, wanted, expected) in [
            (1_057_053_438, 1, [0, 1, 4096]),
            (1_057_053_437, 3, [3, 2, 4096]),
            (1_057_053_438, 512, [3, 1, 4096]),
            (1_057_053_439, 1, [3, 0, 0]),
            (u32::MAX - 1, 512, [3, 0, 0]),
            (u32::MAX, 1, [3, 0, 0]),
            (u32::MAX, 512, [3, 0, 0]),
        ] {
            assert_eq!(outcome(&sample, NAME, index, wanted).numbers, expected, "from {index}");
        }
        // With 873 addresses.
        sample.put(4098, 3, &[1]);
        assert_eq!(outcome(&sample, NAME, 1_057_053_387, 3).numbers, [3, 2, 4096]);
    }

    #[test]
    fn runs_of_0_and_over_512() {
        let sample = sample(1, 1 << 40);
        for wanted in [1, 2, 511, 512] {
            assert_eq!(outcome(&sample, NAME, 0, wanted).numbers, [0, wanted, 4096]);
        }
        // Each with as many blocks lent, then with buffers that other runs take. Those from 2^20 on
        // would be runs of 0, 1 or 512 if their bytes were cut to 32 bits.
        let lent = [(0, 0), (513, 513), (514, 514), (1024, 1024)];
        let others = [(0, 1), (513, 1), (513, 512), (1 << 20, 0), ((1 << 20) + 1, 1)];
        let cut = [((1 << 20) + 512, 512), (u32::MAX, 512), (u32::MAX, 0)];
        for (wanted, blocks) in lent.into_iter().chain(others).chain(cut) {
            let mut lent = Lent::for_run(1, blocks);
            assert_eq!(lent.run(&sample, NAME, 0, wanted), refused(4), "{blocks} for {wanted}");
            assert!(lent.is_untouched());
        }
    }

    /// "a buffer not 4,096 bytes a block": one byte or one block off.
    #[test]
    fn buffers_out_of_shape() {
        let sample = sample(1, 1 << 40);
        for wanted in [1, 2, 511, 512] {
            let length = wanted as usize * 4096;
            for other in [0, length - 4096, length - 1, length + 1, length + 4096] {
                let mut lent = Lent::with_buffer(other, MOST_RUN_ROOMS);
                assert_eq!(lent.run(&sample, NAME, 0, wanted), refused(4), "{other} bytes");
                assert!(lent.is_untouched());
            }
            let mut lent = Lent::with_buffer(length, MOST_RUN_ROOMS);
            assert_eq!(lent.run(&sample, NAME, 0, wanted).count, wanted);
        }
    }

    /// Exactly enough, and one number or one byte short.
    #[test]
    fn rooms_of_the_lists() {
        for k in 1..=8 {
            let (sample, needed) = (sample(k, 4097), run_rooms(k));
            let holes = PulledRun {
                answer: 0,
                count: 2,
                byte_count: 1,
                node_count: k as u32 + 1,
                block_count: 2 * k as u32 + 1,
            };
            for more in [0, 1, 3, 4, 4000] {
                let mut lent = Lent::for_run(k, 2);
                lent.nodes.resize(4 * needed.nodes + more, 0xAA);
                assert_eq!(lent.run(&sample, &path(k), 0, 2), holes, "{k} names");
                lent.blocks.resize(4 * needed.blocks + more, 0xAA);
                assert_eq!(lent.run(&sample, &path(k), 0, 2), holes, "{k} names");
            }
            for (less_nodes, less_blocks) in [1, 3, 4].into_iter().flat_map(|n| [(n, 0), (0, n)]) {
                let mut lent = Lent::for_run(k, 2);
                lent.nodes.truncate(4 * needed.nodes - less_nodes);
                lent.blocks.truncate(4 * needed.blocks - less_blocks);
                assert_eq!(lent.run(&sample, &path(k), 0, 2), refused(4), "{k} names");
                assert!(lent.is_untouched());
            }
        }
    }

    /// A run of one needs the rooms of a full one, not those of a pull.
    #[test]
    fn rooms_of_a_run_of_one() {
        for k in 1..=8 {
            let (sample, pull_rooms, run_rooms) = (sample(k, 4097), rooms(k), run_rooms(k));
            for (nodes, blocks) in [
                (pull_rooms.nodes, pull_rooms.blocks),
                (pull_rooms.nodes, run_rooms.blocks),
                (run_rooms.nodes, pull_rooms.blocks),
            ] {
                let mut lent = Lent::with_buffer(4096, Rooms { nodes, blocks });
                assert_eq!(lent.run(&sample, &path(k), 0, 1), refused(4), "{k} names");
                assert!(lent.is_untouched());
                assert_eq!(lent.pull(&sample, &path(k), 0).answer, 1, "{k} names");
            }
            assert_eq!(Lent::for_run(k, 1).run(&sample, &path(k), 0, 1).count, 1, "{k} names");
        }
    }

    /// What is lent and asked with one thing out of shape, for two blocks of a path of two names.
    fn out_of_shape(sample: &Sample) -> Vec<(PulledRun, Lent)> {
        let (good, Rooms { nodes, blocks }) = (path(2), run_rooms(2));
        let nine_names = [&b"n"[..]; 9].join(&b'/');
        let cases = [
            (&b""[..], 2, 8192, nodes, blocks),
            (b"d1//file", 2, 8192, nodes, blocks),
            (&nine_names, 2, 8192, 2000, 3000),
            (&good, 0, 0, nodes, blocks),
            (&good, 513, 513 * 4096, nodes, blocks),
            (&good, 2, 8191, nodes, blocks),
            (&good, 2, 8193, nodes, blocks),
            (&good, 2, 8192, nodes - 1, blocks),
            (&good, 2, 8192, nodes, blocks - 1),
        ];
        let run = |(path, wanted, length, nodes, blocks): (&[u8], _, _, _, _)| {
            let mut lent = Lent::with_buffer(length, Rooms { nodes, blocks });
            (lent.run(sample, path, 0, wanted), lent)
        };
        cases.map(run).into()
    }

    /// 4 before 5 to 8, and those before the walk; all of them leave everything untouched.
    #[test]
    fn the_order_of_the_checks() {
        let good = sample(2, 4097);
        for (damage, answer) in [(None, 0)].into_iter().chain(DAMAGES.map(|(d, a)| (Some(d), a))) {
            let mut sample = Sample { bytes: good.bytes.clone() };
            if let Some(damage) = damage {
                damage(&mut sample);
            }
            for (at, (run, lent)) in out_of_shape(&sample).into_iter().enumerate() {
                assert_eq!(run, refused(4), "case {at} with {answer}");
                assert!(lent.is_untouched());
            }
            let mut lent = Lent::for_run(2, 2);
            let run = lent.run(&sample, &path(2), 0, 2);
            assert_eq!(run.answer, answer);
            if (5..=8).contains(&answer) {
                assert_eq!((run, lent.is_untouched()), (refused(answer), true));
            }
        }
        for (length, answer) in [(0, 4), (4096, 4), (8191, 4), (8192, 5), (8193, 4)] {
            let mut lent = Lent::for_run(2, 2);
            let run = lent.run(&Sample { bytes: vec![0; length] }, &path(2), 0, 2);
            assert_eq!((run, lent.is_untouched()), (refused(answer), true), "length {length}");
        }
    }
}

//! Reading a keep file: files that are cut or go on, and headers whose sums wrap.

use harptimber_tests::calls::compares::{stored, SAME};
use harptimber_tests::calls::keep_files::{KeepFiles, Seen};
use harptimber_tests::calls::keep_parts::{Parts, CONTENT_SIZE, HEADER_SIZE, NODE_SIZE};
use harptimber_tests::cards::random::pick;
use harptimber_tests::system::Zeros;
use harptimber_tests::KeepFields;

use crate::Source;

/// A source's file cut, or with zeros behind it; with a header that says the right length, and with one that says this.
fn expect_length(files: &mut KeepFiles, source: &Source, file: &[u8], len: usize) {
    let mut file = file.to_vec();
    file.resize(len, 0);
    files.expect_refused("other length", &file, source.image.bytes());
    if len >= HEADER_SIZE {
        let said = (len as u32).to_le_bytes();
        file[HEADER_SIZE - said.len()..HEADER_SIZE].copy_from_slice(&said);
        files.expect_refused("said in its header", &file, source.image.bytes());
    }
}

/// Each length up to the whole, and some beyond.
#[test]
fn every_length() {
    let mut files = KeepFiles::new("keep files of every other length");
    for source in Source::all(&mut files.trial.random) {
        let file = source.parts.laid_out();
        for len in (0..file.len() + 20).filter(|&len| len != file.len()) {
            expect_length(&mut files, &source, &file, len);
        }
    }
    files.finish(2 * (32_000 + 12_000 + 4_000), &[(18, 0, 0)]);
}

/// A node, a block or another such file more.
#[test]
fn longer() {
    let mut files = KeepFiles::new("keep files that go on");
    for source in Source::all(&mut files.trial.random) {
        let file = source.parts.laid_out();
        for more in [NODE_SIZE, 4096, CONTENT_SIZE, file.len(), 1 << 16, 1 << 20] {
            expect_length(&mut files, &source, &file, file.len() + more);
        }
    }
    files.finish(3 * 6 * 2, &[(18, 0, 0)]);
}

/// A header of these counts, whose offsets are summed in 32 bits.
fn wrapped_header([path_len, nodes, blocks]: [u32; 3]) -> Vec<u8> {
    let nodes_at = path_len.wrapping_add(4140);
    let blocks_at = nodes_at.wrapping_add(nodes.wrapping_mul(NODE_SIZE as u32));
    let end = blocks_at.wrapping_add(blocks.wrapping_mul(CONTENT_SIZE as u32));
    stored(&[path_len, nodes, blocks, nodes_at, blocks_at, end])
}

fn counts(parts: &Parts) -> [u32; 3] {
    [parts.path.len(), parts.nodes.len(), parts.blocks.len()].map(|count| count as u32)
}

/// The file with a header of these counts instead, which its exact sums don't fit.
fn expect_counts(files: &mut KeepFiles, source: &Source, counts: [u32; 3]) {
    let file = source.parts.laid_out();
    let file = [&wrapped_header(counts), &file[HEADER_SIZE..]].concat();
    files.expect_refused(("counts", counts), &file, source.image.bytes());
}

/// More nodes and blocks, whose bytes are 0 in 32 bits: every offset is as it was.
#[test]
fn offsets_that_wrap() {
    let mut files = KeepFiles::new("keep files whose offsets wrap to their own");
    for source in Source::all(&mut files.trial.random) {
        let [path_len, nodes, blocks] = counts(&source.parts);
        let own = wrapped_header([path_len, nodes, blocks]);
        assert_eq!(own, source.parts.laid_out()[..HEADER_SIZE]);
        for more in 1..64 {
            let other = [
                path_len,
                nodes + ((more % 16) << 28),
                blocks + ((more / 16) << 30),
            ];
            assert_eq!(wrapped_header(other)[12..], own[12..]);
            expect_counts(&mut files, &source, other);
        }
    }
    files.finish(3 * 63, &[(18, 0, 0)]);
}

/// One count falls below 0 and another makes up for it: the end is as it was in 32 bits.
#[test]
fn ends_that_wrap() {
    let mut files = KeepFiles::new("keep files whose ends wrap to their own");
    for source in Source::all(&mut files.trial.random) {
        let own = counts(&source.parts);
        for by in [
            [-16_000, 1000, 0],
            [-16_400, 0, 4],
            [-32_800, 1025, 4],
            [16_400, -1025, 0],
            [0, -1025, 4],
            [41_000, 0, -10],
            [0, 2050, -8],
        ] {
            let other = [0, 1, 2].map(|nth| own[nth].wrapping_add_signed(by[nth]));
            assert_eq!(wrapped_header(other)[20..], wrapped_header(own)[20..]);
            expect_counts(&mut files, &source, other);
        }
    }
    files.finish(3 * 7, &[(18, 0, 0)]);
}

/// Any counts, many of them the greatest that there are.
#[test]
fn any_counts() {
    const ROUNDS: u64 = 5_000;
    let mut files = KeepFiles::new("keep files with any counts");
    let source = Source::no_blocks(&mut files.trial.random);
    for _ in 0..files.trial.times(ROUNDS) {
        let other = counts(&source.parts).map(|own| {
            let random = &mut files.trial.random;
            let any = random.number() as u32;
            pick(random, &[own, any, u32::MAX, 1 << 31, any % 100])
        });
        let file = source.parts.laid_out();
        let file = [&wrapped_header(other), &file[HEADER_SIZE..]].concat();
        files.compare(("counts", other), &file, source.image.bytes());
    }
    files.finish(ROUNDS, &[(15, 0, 0), (18, 0, 0)]);
}

/// What is read of a file without a path, once it has one of so many bytes.
fn behind_path(fields: KeepFields, path_len: u32) -> KeepFields {
    KeepFields {
        path_len,
        block_at: fields.block_at + path_len,
        nodes_at: fields.nodes_at + path_len,
        blocks_at: fields.blocks_at + path_len,
        length: fields.length + path_len,
        ..fields
    }
}

/// A file of so many bytes that are zeros but for its header and what is behind its path.
fn expect_long(files: &mut KeepFiles, memory: &mut Zeros, source: &Source, end: usize) {
    let parts = source.parts.with(|parts| parts.path.clear());
    let rest = &parts.laid_out()[HEADER_SIZE..];
    let path_len = (end - rest.len() - HEADER_SIZE) as u32;
    let [_, nodes, blocks] = counts(&parts);
    memory[..HEADER_SIZE].copy_from_slice(&wrapped_header([path_len, nodes, blocks]));
    memory[end - rest.len()..end].copy_from_slice(rest);
    let fresh = source.image.bytes();
    if end < 1 << 32 {
        let seen = Seen {
            fields: behind_path(parts.fields(), path_len),
            compared: SAME,
        };
        files.expect_in_place("the end in 32 bits", &memory[..end], fresh, seen);
    } else {
        let cut = end - (1 << 32);
        for len in [end, cut] {
            files.expect_in_place("no end in 32 bits", &memory[..len], fresh, Seen::refused());
        }
    }
    memory[end - rest.len()..end].fill(0);
}

/// Paths so long that the file ends around 2^32 bytes, up to the longest that a header can tell of. From 2^32 on the end
/// has no room in its number.
#[test]
fn longest_files() {
    let mut files = KeepFiles::new("keep files around the longest");
    let mut memory = Zeros::new((1 << 32) + (1 << 20));
    for source in Source::all(&mut files.trial.random) {
        let without_path = source.parts.laid_out().len() - source.parts.path.len();
        let longest = without_path + u32::MAX as usize;
        for less in [17, 2, 1] {
            expect_long(&mut files, &mut memory, &source, (1 << 32) - less);
        }
        for more in [0, 1, 23, 24, 25, HEADER_SIZE + NODE_SIZE] {
            expect_long(&mut files, &mut memory, &source, (1 << 32) + more);
        }
        expect_long(&mut files, &mut memory, &source, longest);
    }
    files.finish(3 * (3 + 2 * 7), &[(15, 0, 0), (18, 0, 0)]);
}

/// A file with zeros behind it, so many that its length is right in 32 bits.
#[test]
fn longer_by_2_to_32() {
    let mut files = KeepFiles::new("keep files that go on for 2^32 bytes");
    let mut memory = Zeros::new((1 << 32) + (1 << 20));
    for Source { image, parts } in Source::all(&mut files.trial.random) {
        let file = parts.laid_out();
        memory[..file.len()].copy_from_slice(&file);
        let longer = &memory[..file.len() + (1 << 32)];
        files.expect_in_place("longer", longer, image.bytes(), Seen::refused());
        let own = &memory[..file.len()];
        files.expect_in_place("own", own, image.bytes(), Seen::of(&parts, SAME));
    }
    files.finish(3 * 2, &[(15, 0, 0), (18, 0, 0)]);
}

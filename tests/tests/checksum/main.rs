//! The checkpoint checksum against the reference.

mod crc32_export;
// By its path and not from the lib of this package, which would bring libharptimber.a along.
#[path = "../../src/trial.rs"]
mod trial;

use trial::Trial;

const ALIGNMENTS: usize = 16;
/// A checkpoint block's bytes before its checksum.
const CHECKPOINT_BYTES: usize = 4092;
const LONGEST: u64 = 10_000;

/// Compares the checksums of `bytes` at every alignment.
fn compare(trial: &mut Trial, bytes: &[u8]) {
    let expected = reference::checksum::checksum(bytes);
    let mut room = vec![0; bytes.len() + 2 * ALIGNMENTS];
    let aligned = room.as_ptr().align_offset(ALIGNMENTS);
    for alignment in 0..ALIGNMENTS {
        let start = aligned + alignment;
        let lent = &mut room[start..start + bytes.len()];
        lent.copy_from_slice(bytes);
        let input = (bytes.len(), alignment, &bytes[..bytes.len().min(32)]);
        trial.compare(
            ("length, alignment, first bytes", input),
            crc32_export::checksum(lent),
            expected,
        );
    }
}

fn compare_lengths(trial: &mut Trial, lengths: impl Iterator<Item = usize>) {
    for len in lengths {
        let random = trial.random.bytes(len);
        compare(trial, &random);
        compare(trial, &vec![0x00; len]);
        compare(trial, &vec![0xFF; len]);
    }
}

#[test]
fn short_lengths() {
    let mut trial = Trial::new("checksum of 0 to 64 bytes");
    for _ in 0..trial.times(10) {
        compare_lengths(&mut trial, 0..=64);
    }
    trial.finish(10 * 65 * 3 * ALIGNMENTS as u64);
}

#[test]
fn checkpoint_length() {
    let mut trial = Trial::new("checksum of 4,092 bytes");
    let times = trial.times(20) as usize;
    compare_lengths(&mut trial, std::iter::repeat(CHECKPOINT_BYTES).take(times));
    trial.finish(20 * 3 * ALIGNMENTS as u64);
}

#[test]
fn random_lengths() {
    let mut trial = Trial::new("checksum of random lengths");
    for _ in 0..trial.times(200) {
        let len = trial.random.below(LONGEST + 1) as usize;
        compare_lengths(&mut trial, std::iter::once(len));
    }
    trial.finish(200 * 3 * ALIGNMENTS as u64);
}

/// A checksum that drops a bit anywhere gives two inputs that differ in one bit the same value.
#[test]
fn single_bits() {
    let mut trial = Trial::new("checksum of single bits");
    for bit in 0..64 * 8 {
        let mut bytes = [0; 64];
        bytes[bit / 8] = 1 << (bit % 8);
        compare(&mut trial, &bytes);
    }
    trial.finish(64 * 8 * ALIGNMENTS as u64);
}

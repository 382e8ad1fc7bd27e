//! Reading a keep file: each byte of some changed, one at a time.

use std::ops::Range;

use harptimber_tests::calls::compares::{changed, SAME};
use harptimber_tests::calls::keep_files::{KeepFiles, Seen};
use harptimber_tests::calls::keep_parts::{numbers, Parts, Place};

use crate::Source;

/// What the paper says of a file with something changed there, and of the card that it was written from. What the lists
/// and bounds then are is left to the reference.
fn told(parts: &Parts, file: &[u8], place: Place, range: &Range<usize>) -> Option<Seen> {
    match place {
        Place::Header => Some(Seen::refused()),
        Place::Path | Place::Block => Some(Seen::of(parts, SAME)),
        Place::Pull(nth) => {
            let [number] = numbers(&file[range.clone()]);
            let parts = parts.with(|parts| parts.pull[nth] = number);
            Some(Seen::of(&parts, SAME))
        }
        Place::Bounds | Place::Node | Place::BlockNumber => None,
        Place::Content(block) => Some(Seen::of(parts, changed(3, block))),
    }
}

/// Changes each byte there by each of these, and counts them.
fn change_bytes(
    files: &mut KeepFiles,
    source: &Source,
    by: &[u8],
    there: fn(Place) -> bool,
) -> u64 {
    let Source { image, parts } = source;
    let (mut file, mut count) = (parts.laid_out(), 0);
    let places = parts.places().into_iter();
    for (range, place) in places.filter(|(_, place)| there(*place)) {
        let changes = range
            .clone()
            .flat_map(|at| by.iter().map(move |by| (at, by)));
        for (at, by) in changes {
            file[at] ^= by;
            let input = (place, "byte", at, "by", by);
            match told(parts, &file, place, &range) {
                Some(paper) => files.expect(input, &file, image.bytes(), paper),
                None => _ = files.compare(input, &file, image.bytes()),
            }
            file[at] ^= by;
            count += 1;
        }
    }
    count
}

/// By every other value, in all numbers of files.
#[test]
fn numbers_by_every_value() {
    let mut files = KeepFiles::new("keep files with a byte of a number changed");
    let every: Vec<u8> = (1..=255).collect();
    let mut count = 0;
    for source in [Source::missing, Source::no_blocks] {
        let source = source(&mut files.trial.random);
        count += change_bytes(&mut files, &source, &every, Place::is_number);
    }
    assert_eq!(count, 255 * (4 * (11 + 4) * 2 + 4 * 2));
    let every = [(15, 0, 0), (16, 0, 1), (16, 0, 2), (16, 0, 3), (18, 0, 0)];
    files.finish(count, &every);
}

/// By a few values, in all numbers of a longer file.
#[test]
fn numbers_of_longer_lists() {
    let mut files = KeepFiles::new("keep files of four nodes with a byte of a number changed");
    let source = Source::data(&mut files.trial.random);
    let by = [1, 2, 9, 16, 0x80, 0xFF];
    let count = change_bytes(&mut files, &source, &by, Place::is_number);
    assert_eq!(count, 6 * 4 * (11 + 4 * 4 + 7));
    let every = [(15, 0, 0), (16, 0, 1), (16, 0, 2), (16, 0, 3), (18, 0, 0)];
    files.finish(count, &every);
}

/// Every byte there is; the shorter a file, by the more values.
#[test]
fn every_byte() {
    let mut files = KeepFiles::new("keep files with any byte changed");
    let mut count = 0;
    let sources = Source::all(&mut files.trial.random);
    for (source, values) in sources.iter().zip([1, 2, 6]) {
        let random = &mut files.trial.random;
        let by: Vec<u8> = (0..values).map(|_| 1 + random.below(255) as u8).collect();
        let changed = change_bytes(&mut files, source, &by, |_| true);
        assert_eq!(changed, values * source.parts.laid_out().len() as u64);
        count += changed;
    }
    files.finish(count, &[(15, 0, 0), (16, 0, 3), (18, 0, 0)]);
}

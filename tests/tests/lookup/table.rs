//! Node lookup: the table's blocks, their copies and the map between them.

use std::ops::Range;

use harptimber_tests::calls::lookups::{by_reference, distinct_entry, found, journalled, Lookups};
use harptimber_tests::cards::image::Image;
use harptimber_tests::cards::knobs::{Knobs, Pack};
use harptimber_tests::cards::layout::checkpoint::SIT_NAT_VERSION_BITMAP;
use harptimber_tests::cards::layout::nat::{NatEntry, ENTRIES_PER_BLOCK, MAP_BYTES_PER_SEGMENT};
use harptimber_tests::trial::Trial;
use harptimber_tests::{node_lookup, Entry};

/// A card with this table length and map, its table full of junk, without a journal entry.
fn with_map(nat_segments: u32, nat_map: Vec<u8>) -> Knobs {
    let pack = Pack {
        nat_map,
        ..Pack::compact(1)
    };
    Knobs {
        nat_segments,
        junk: Some(1),
        ..Knobs::sound().with_pack(0, pack)
    }
}

/// The reference opens the card once; the library does for each number.
fn compare_all(name: &'static str, numbers: Range<u32>) {
    let mut trial = Trial::new(name);
    let nat_map = trial.random.bytes(2 * MAP_BYTES_PER_SEGMENT as usize);
    let knobs = with_map(2, nat_map);
    let image = Image::new(&knobs);
    let (_, pack) = knobs.pack_in_use();
    let volume = reference::open::open(image.bytes()).expect("a sound card opens");
    let expected = |number: u32| -> Entry {
        if number == 0 || number >= knobs.node_numbers() {
            return by_reference(Err(9));
        }
        let copy = pack.nat_copy(number / ENTRIES_PER_BLOCK);
        found(image.nat_entry(number, copy))
    };
    for number in numbers.clone() {
        let library = node_lookup(image.bytes(), number);
        let reference = by_reference(reference::lookup::lookup_in(&volume, number));
        trial.compare(
            ("number", number, &image),
            (library, "as written", library),
            (reference, "as written", expected(number)),
        );
    }
    trial.finish(u64::from(numbers.end - numbers.start));
}

/// Numbers of the smallest table, in two tests that can run side by side.
const HALF: u32 = ENTRIES_PER_BLOCK * 256;

#[test]
fn every_number_of_the_lower_half() {
    compare_all("node lookup of every number, lower half", 0..HALF);
}

#[test]
fn every_number_of_the_upper_half() {
    compare_all(
        "node lookup of every number, upper half",
        HALF..2 * HALF + 500,
    );
}

/// One bit set, or one clear, for each block of a table of 1,024. The numbers are the first and the
/// last of the block, and their neighbours in other blocks.
#[test]
fn every_bit_of_the_map() {
    let mut lookups = Lookups::new("node lookup by map bits");
    for (background, others) in [(0x00, 0), (0xFF, 1)] {
        let knobs = with_map(4, vec![background; 128]);
        let mut image = Image::new(&knobs);
        let first = image.first_block(0);
        let map = SIT_NAT_VERSION_BITMAP + (knobs.sit_segments * MAP_BYTES_PER_SEGMENT) as usize;
        for block in 0..1024 {
            let byte = background ^ (0x80 >> (block % 8));
            image.put("NAT map", first, map + block as usize / 8, &[byte]);
            image.seal(first);
            let start = block * ENTRIES_PER_BLOCK;
            for number in [start, start + 1, start + ENTRIES_PER_BLOCK - 1] {
                expect_in_copy(&mut lookups, &image, number, 1 - others);
            }
            for number in [start.wrapping_sub(1), start + ENTRIES_PER_BLOCK] {
                expect_in_copy(&mut lookups, &image, number, others);
            }
            image.undo(0);
        }
    }
    lookups.finish(2 * 1024 * 5, &[0, 9]);
}

/// Expects the entry that the copy has, or 9 if there is no such number.
fn expect_in_copy(lookups: &mut Lookups, image: &Image, number: u32, copy: u32) {
    if (1..ENTRIES_PER_BLOCK * 1024).contains(&number) {
        lookups.expect_entry(image, number, image.nat_entry(number, copy));
    } else {
        lookups.expect(image, number, 9);
    }
}

/// The longest table whose map has room, around each pair of copies and at the end.
fn expect_longest(lookups: &mut Lookups, segment0: u32) {
    for (background, copy) in [(0x00, 0), (0xFF, 1)] {
        let knobs = Knobs {
            segment0,
            junk: None,
            ..with_map(118, vec![background; 118 * 32])
        };
        let mut image = Image::new(&knobs);
        let past = knobs.node_numbers();
        for pair in 1..=59 {
            let border = pair * 512 * ENTRIES_PER_BLOCK;
            for number in (border - 3..border + 3).filter(|&number| number < past) {
                image.set_nat_entry(number, copy, distinct_entry(number));
                image.set_nat_entry(number, 1 - copy, distinct_entry(number + 1));
                lookups.expect_entry(&image, number, distinct_entry(number));
            }
        }
        for number in [past, past + 1, u32::MAX] {
            lookups.expect(&image, number, 9);
        }
    }
}

/// Also where byte 2^32 lies inside it, and where it is the largest card's last area but for one segment.
#[test]
fn longest_table() {
    let mut lookups = Lookups::new("node lookup in the longest table");
    for segment0 in [2, (1 << 20) - 30_000, 4_194_304 - (2 + 2 + 118 + 2) * 512] {
        expect_longest(&mut lookups, segment0);
    }
    lookups.finish(3 * 2 * (58 * 6 + 3 + 3), &[0, 9]);
}

/// The range follows the number of table segments.
#[test]
fn last_number() {
    let mut lookups = Lookups::new("node lookup by table length");
    for nat_segments in [2, 4, 6, 8, 16, 32, 64] {
        let knobs = Knobs {
            nat_segments,
            ..Knobs::sound()
        };
        let image = Image::new(&knobs);
        let past = ENTRIES_PER_BLOCK * 256 * nat_segments;
        for (number, answer) in [(0, 9), (1, 0), (past - 1, 0), (past, 9), (past + 1, 9)] {
            lookups.expect(&image, number, answer);
        }
        for bit in 0..32 {
            let number = 1 << bit | 1;
            lookups.expect(&image, number, if number < past { 0 } else { 9 });
        }
    }
    lookups.finish(7 * (5 + 32), &[0, 9]);
}

/// Nodes in the main area, and one that only the journal knows of.
#[test]
fn nodes_of_a_card() {
    let mut lookups = Lookups::new("node lookup of nodes");
    let mut knobs = with_map(2, vec![0xA5; 64]);
    if let Some(pack) = &mut knobs.packs[0] {
        pack.journal = vec![journalled(9, distinct_entry(9))];
    }
    let mut image = Image::new(&knobs);
    let numbers = [3, 4, 454, 455, 456, 100_000];
    for (place_number, nid) in numbers.into_iter().enumerate() {
        let block_addr = image.add_node(nid, 4, place_number as u32);
        let entry = |version| NatEntry {
            version,
            ino: 4,
            block_addr,
        };
        lookups.expect_entry(&image, nid, entry(0));
        // The version byte isn't part of the answer.
        for copy in [0, 1] {
            image.set_nat_entry(nid, copy, entry(0xFF));
        }
        lookups.expect_entry(&image, nid, entry(0));
    }
    image.add_node(9, 9, 0);
    lookups.expect_entry(&image, 9, distinct_entry(9));
    lookups.finish(2 * 6 + 1, &[0]);
}

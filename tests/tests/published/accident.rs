//! The accident: a road was replayed from the cache after the friction table had been changed and its
//! old date put back. The published tools write the card before the change and the one after it.

use harptimber_tests::calls::compares::{changed, Compares, Kept, SAME};
use harptimber_tests::cards::image::Image;
use harptimber_tests::cards::layout::inode::INLINE_AT;
use harptimber_tests::cards::layout::BLOCK_SIZE;
use harptimber_tests::tools::published::{filled_on, File, LARGEST, LONGEST_INLINE};

const ROAD: &[u8] = b"road.bin";
const TABLE: &[u8] = b"friction.tbl";
/// The date of everything on both cards.
const DATE: u32 = 1_700_000_000;
const TABLE_LEN: usize = 5 * BLOCK_SIZE + 1000;
/// One byte of these blocks is changed: the first, one inside, and the very last.
const CHANGED: [usize; 3] = [0, 3 * BLOCK_SIZE + 2222, TABLE_LEN - 1];

fn card(megabytes: usize, road: &[u8], table: &[u8]) -> Image {
    let files: [File; 2] = [
        (ROAD.to_vec(), road.to_vec()),
        (TABLE.to_vec(), table.to_vec()),
    ];
    filled_on(megabytes, DATE, &files)
}

/// The main-area block that has these bytes from a place on, which have to be its own.
fn block_with(image: &Image, at: usize, bytes: &[u8]) -> u32 {
    let numbered = image
        .data()
        .map(|(at, block)| ((at / BLOCK_SIZE) as u32, block));
    let mut main = numbered.filter(|(number, _)| *number >= image.areas.main);
    let found = main.find(|(_, block)| block[at..].starts_with(bytes));
    found.expect("a block with the bytes").0
}

/// A compare on each block of a file says "changed" where its bytes differ, else "same". The inode with
/// its dates is listed too: it is the same wherever the data is what changed, unless that stands in it.
/// Returns how many did.
fn expect_file(
    compares: &mut Compares,
    cards: [&Image; 2],
    name: &[u8],
    bytes: [&[u8]; 2],
) -> usize {
    let inline = bytes[1].len() <= LONGEST_INLINE;
    let at = if inline { INLINE_AT } else { 0 };
    let [kept, fresh] = bytes.map(|bytes| bytes.chunks(BLOCK_SIZE));
    let mut differing = 0;
    for (index, (kept_block, fresh_block)) in kept.zip(fresh).enumerate() {
        let kept = Kept::new(cards[0], name, index as u32);
        let pulled = &kept.outcome.lent.block.bytes()[..kept_block.len()];
        assert!(pulled == kept_block, "bytes of {:?}", kept.call);
        let paper = if kept_block == fresh_block {
            SAME
        } else {
            differing += 1;
            changed(3, block_with(cards[1], at, fresh_block))
        };
        compares.expect(&kept, cards[1], paper);
    }
    differing
}

/// A table of so many bytes, of which these are changed, each in a block of its own.
fn expect_found(
    name: &'static str,
    megabytes: usize,
    road_len: usize,
    (table_len, changes): (usize, &[usize]),
) {
    let mut compares = Compares::new(name);
    let road = compares.trial.random.bytes(road_len);
    let table = compares.trial.random.bytes(table_len);
    let mut new_table = table.clone();
    for &at in changes {
        new_table[at] ^= 1;
    }
    let cards = [&table, &new_table].map(|table| card(megabytes, &road, table));
    let cards = [&cards[0], &cards[1]];
    let of_table = expect_file(&mut compares, cards, TABLE, [&table, &new_table]);
    assert_eq!(of_table, changes.len(), "blocks of the table that changed");
    let of_road = expect_file(&mut compares, cards, ROAD, [&road, &road]);
    assert_eq!(of_road, 0, "blocks of the road that changed");
    let [road_blocks, table_blocks] =
        [road_len, table_len].map(|len| len.div_ceil(BLOCK_SIZE) as u64);
    // Where nothing changed, the pull is made again.
    let again = table_blocks - changes.len() as u64 + road_blocks;
    let at_least = table_blocks + road_blocks + again;
    compares.finish(at_least, &[(15, 0, 0), (16, 0, 3)]);
}

/// The road is so long that some blocks lie behind direct nodes.
#[test]
fn changed_table_with_its_old_date() {
    let table = (TABLE_LEN, CHANGED.as_slice());
    expect_found("compare after the accident", 100, 6_000_000, table);
}

#[test]
fn changed_table_on_the_largest_card() {
    let name = "compare after the accident, 16 GiB";
    expect_found(name, LARGEST, 4_000_000, (TABLE_LEN, &CHANGED));
}

/// A friction table so small that it stands in its inode, with any of its bytes changed.
#[test]
fn changed_small_table() {
    for at in [0, 1700, LONGEST_INLINE - 1] {
        let name = "compare after the accident, a small table";
        expect_found(name, 64, 100_000, (LONGEST_INLINE, &[at]));
    }
}

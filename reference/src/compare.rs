//! Compare: does what a pull stood on still stand in a new image?

use std::ops::Range;

use crate::bytes::le32;
use crate::lookup::{lookup_in, TableAnswer};
use crate::open::{is_image_length, open, Volume};

/// The result numbers of a compare; those that the answer doesn't name are 0.
#[derive(Debug, Clone, Copy, PartialEq, Eq, Default)]
pub struct Compared {
    pub answer: u32,
    /// With 5 to 8: 1 for the kept image, 2 for the new one.
    pub side: u32,
    /// With 16: 1 main area bounds, 2 node number, 3 block.
    pub kind: u32,
    pub number: u32,
}

pub(crate) const OUT_OF_SHAPE: Compared = Compared { answer: 4, side: 0, kind: 0, number: 0 };

/// "there a list is a byte slice, four bytes a number"
const NUMBER_SIZE: usize = 4;

/// Compares the kept and the new image on a pull's two lists, lent as bytes with their counts.
pub fn compare(
    kept: &[u8],
    fresh: &[u8],
    nodes: &[u8],
    node_count: u32,
    blocks: &[u8],
    block_count: u32,
) -> Compared {
    // "4 if either image's length is out of shape"
    if !is_image_length(kept.len()) || !is_image_length(fresh.len()) {
        return OUT_OF_SHAPE;
    }
    // "then 5 to 8 for the kept image, then for the new one, with the side, 1 or 2"
    let kept = match open(kept) {
        Ok(volume) => volume,
        Err(answer) => return refused(answer, 1),
    };
    let fresh = match open(fresh) {
        Ok(volume) => volume,
        Err(answer) => return refused(answer, 2),
    };
    let (Some(nodes), Some(blocks)) = (entries(nodes, node_count), entries(blocks, block_count))
    else {
        return OUT_OF_SHAPE;
    };
    if !lists_in_shape(&kept, nodes, blocks) {
        return OUT_OF_SHAPE;
    }
    let answers = numbers(nodes, NUMBER_SIZE).map(|node| (node, lookup_in(&kept, node)));
    let contents = numbers(blocks, NUMBER_SIZE).map(|block| (block, kept.block(block)));
    verdict(&kept.main_area(), answers, contents, &fresh)
}

/// 5 to 8 for one image, with its side.
pub(crate) fn refused(answer: u32, side: u32) -> Compared {
    Compared { answer, side, ..Compared::default() }
}

/// The list's bytes up to its count; `None` if "a count exceeds its slice".
fn entries(list: &[u8], count: u32) -> Option<&[u8]> {
    let length = usize::try_from(count).ok()?.checked_mul(NUMBER_SIZE)?;
    list.get(..length)
}

/// The number at the front of each entry; an entry has `size` bytes.
pub(crate) fn numbers(entries: &[u8], size: usize) -> impl Iterator<Item = u32> + '_ {
    entries.chunks_exact(size).map(|entry| le32(entry, 0))
}

/// "4 if the node list is empty, either list isn't strictly rising, [...] or a listed block lies
/// outside the kept main area"
fn lists_in_shape(kept: &Volume, nodes: &[u8], blocks: &[u8]) -> bool {
    !nodes.is_empty()
        && strictly_rising(numbers(nodes, NUMBER_SIZE))
        && strictly_rising(numbers(blocks, NUMBER_SIZE))
        && numbers(blocks, NUMBER_SIZE).all(|block| kept.in_main_area(block))
}

pub(crate) fn strictly_rising(numbers: impl Iterator<Item = u32>) -> bool {
    numbers.is_sorted_by(|before, after| before < after)
}

/// "16, "changed", with kind and number of the first difference [...]; else 15, "same""
pub(crate) fn verdict<'k>(
    main_area: &Range<u32>,
    answers: impl Iterator<Item = (u32, TableAnswer)>,
    contents: impl Iterator<Item = (u32, &'k [u8])>,
    fresh: &Volume,
) -> Compared {
    match first_difference(main_area, answers, contents, fresh) {
        Some((kind, number)) => Compared { answer: 16, kind, number, ..Compared::default() },
        None => Compared { answer: 15, ..Compared::default() },
    }
}

/// Kind and number of the first difference of a new image from what was kept: "1 main area bounds
/// (number 0), 2 lowest node number (table answer), 3 lowest block (bytes)". What was kept comes
/// with rising numbers, so the first found is the lowest.
fn first_difference<'k>(
    main_area: &Range<u32>,
    mut answers: impl Iterator<Item = (u32, TableAnswer)>,
    mut contents: impl Iterator<Item = (u32, &'k [u8])>,
    fresh: &Volume,
) -> Option<(u32, u32)> {
    if *main_area != fresh.main_area() {
        return Some((1, 0));
    }
    if let Some((node, _)) = answers.find(|&(node, answer)| answer != lookup_in(fresh, node)) {
        return Some((2, node));
    }
    let block = contents.find(|&(block, bytes)| bytes != fresh.block(block));
    block.map(|(block, _)| (3, block))
}

#[cfg(test)]
mod tests {
    use super::*;
    use crate::path::{Rooms, MOST_ROOMS};
    use crate::pull::{pull, Pulled};
    use crate::sample::{path, Sample, DAMAGE, FIRST_PACK};

    const SAME: Compared = Compared { answer: 15, side: 0, kind: 0, number: 0 };

    fn list(numbers: &[u32]) -> Vec<u8> {
        numbers.iter().flat_map(|number| number.to_le_bytes()).collect()
    }

    fn compared(kept: &Sample, fresh: &Sample, nodes: &[u32], blocks: &[u32]) -> Compared {
        let (node_count, block_count) = (nodes.len() as u32, blocks.len() as u32);
        let (nodes, blocks) = (list(nodes), list(blocks));
        compare(&kept.bytes, &fresh.bytes, &nodes, node_count, &blocks, block_count)
    }

    fn changed(kind: u32, number: u32) -> Compared {
        Compared { answer: 16, side: 0, kind, number }
    }

    #[test]
    fn same() {
        let (kept, fresh) = (Sample::new(), Sample::new());
        assert_eq!(compared(&kept, &fresh, &[3], &[]), SAME);
        assert_eq!(compared(&kept, &fresh, &[0, 3, u32::MAX], &[4096, 4607]), SAME);
    }

    #[test]
    fn differences_in_order() {
        let (kept, mut fresh) = (Sample::new(), Sample::new());
        fresh.put(4100, 4095, &[1]);
        assert_eq!(compared(&kept, &fresh, &[3], &[4099, 4100, 4101]), changed(3, 4100));
        assert_eq!(compared(&kept, &fresh, &[3], &[4099, 4101]), SAME);
        fresh.put_nat(2560, 5, 5, 4100);
        assert_eq!(compared(&kept, &fresh, &[3, 5], &[4100]), changed(2, 5));
        fresh.resize_main(2);
        assert_eq!(compared(&kept, &fresh, &[3, 5], &[4100]), changed(1, 0));
    }

    #[test]
    fn version_byte_is_no_difference() {
        let (kept, mut fresh) = (Sample::new(), Sample::new());
        fresh.put(2560, 5 * 9, &[1]);
        assert_eq!(compared(&kept, &fresh, &[5], &[]), SAME);
    }

    #[test]
    fn sides() {
        let (good, mut bad) = (Sample::new(), Sample::new());
        bad.put32(0, 1024, 0);
        let refused = |side| Compared { answer: 5, side, kind: 0, number: 0 };
        assert_eq!(compared(&bad, &good, &[], &[]), refused(1));
        assert_eq!(compared(&good, &bad, &[], &[]), refused(2));
        assert_eq!(compare(&bad.bytes, &[], &[], 0, &[], 0), OUT_OF_SHAPE);
    }

    #[test]
    fn sides_of_damaged_volumes() {
        let (good, mut unformatted) = (Sample::new(), Sample::new());
        unformatted.put32(0, 1024, 0);
        let refused = |answer, side| Compared { answer, side, kind: 0, number: 0 };
        for damage in DAMAGE {
            let mut damaged = Sample::new();
            damage(&mut damaged, FIRST_PACK);
            // With lists in shape and, later than 8, out of shape.
            for nodes in [&[3][..], &[]] {
                assert_eq!(compared(&damaged, &good, nodes, &[]), refused(8, 1));
                assert_eq!(compared(&good, &damaged, nodes, &[]), refused(8, 2));
                assert_eq!(compared(&damaged, &damaged, nodes, &[]), refused(8, 1));
                assert_eq!(compared(&damaged, &unformatted, nodes, &[]), refused(8, 1));
                assert_eq!(compared(&unformatted, &damaged, nodes, &[]), refused(5, 1));
            }
            assert_eq!(compare(&damaged.bytes, &[], &[], 0, &[], 0), OUT_OF_SHAPE);
        }
    }

    #[test]
    fn lists_out_of_shape() {
        let (kept, fresh) = (Sample::new(), Sample::new());
        assert_eq!(compared(&kept, &fresh, &[], &[]), OUT_OF_SHAPE);
        assert_eq!(compared(&kept, &fresh, &[3, 3], &[]), OUT_OF_SHAPE);
        assert_eq!(compared(&kept, &fresh, &[3], &[4097, 4096]), OUT_OF_SHAPE);
        assert_eq!(compared(&kept, &fresh, &[3], &[4095]), OUT_OF_SHAPE);
        assert_eq!(compared(&kept, &fresh, &[3], &[4608]), OUT_OF_SHAPE);
        let seven_bytes = [3, 0, 0, 0, 4, 0, 0];
        let with = |count| compare(&kept.bytes, &fresh.bytes, &seven_bytes, count, &[], 0);
        assert_eq!(with(1), SAME);
        assert_eq!(with(2), OUT_OF_SHAPE);
        assert_eq!(with(0), OUT_OF_SHAPE);
        assert_eq!(with(u32::MAX), OUT_OF_SHAPE);
    }
    /// A pull of block 0 with what was lent to it.
    fn pulled(sample: &Sample, path: &[u8]) -> (Pulled, [Vec<u8>; 3]) {
        let Rooms { nodes, blocks } = MOST_ROOMS;
        let mut lent = [4096, 4 * nodes, 4 * blocks].map(|length| vec![0; length]);
        let [block, nodes, blocks] = &mut lent;
        (pull(&sample.bytes, path, 0, block, nodes, blocks), lent)
    }

    /// Demand 3 over paths: a change to what is listed is "changed". A change to any other block of
    /// the main area or any other number is "same", and the pull on it gives the same.
    #[test]
    fn what_a_path_stood_on() {
        for k in [1, 2, 3, 8] {
            let kept = Sample::with_path(k, 4097);
            let mut fresh = Sample::with_path(k, 4097);
            let path = path(k);
            let (first, lent) = pulled(&kept, &path);
            let [_, nodes, blocks] = &lent;
            let (node_count, block_count) = (first.node_count, first.block_count);
            assert_eq!((first.answer, node_count), (1, k as u32 + 1));
            let compared = |fresh: &Sample| {
                compare(&kept.bytes, &fresh.bytes, nodes, node_count, blocks, block_count)
            };
            let is_listed = |list, count, number| {
                numbers(entries(list, count).unwrap(), 4).any(|listed| listed == number)
            };
            for block in 4096..4608 {
                fresh.bytes[block as usize * 4096 + 4095] ^= 1;
                if is_listed(blocks, block_count, block) {
                    assert_eq!(compared(&fresh), changed(3, block));
                } else {
                    assert_eq!(compared(&fresh), SAME, "block {block}");
                    assert_eq!(pulled(&fresh, &path), (first, lent.clone()));
                }
                fresh.bytes[block as usize * 4096 + 4095] ^= 1;
            }
            for number in 1..455 {
                fresh.bytes[2560 * 4096 + number as usize * 9 + 1] ^= 1;
                if is_listed(nodes, node_count, number) {
                    assert_eq!(compared(&fresh), changed(2, number));
                } else {
                    assert_eq!(compared(&fresh), SAME, "number {number}");
                    assert_eq!(pulled(&fresh, &path), (first, lent.clone()));
                }
                fresh.bytes[2560 * 4096 + number as usize * 9 + 1] ^= 1;
            }
        }
    }
}

//! A directory's hash levels: which of its blocks are searched for a name.

use std::ops::Range;

/// "Document 01's refusal 12 for a level now starts at 31."
const FIRST_REFUSED_LEVEL: u8 = 31;

/// "Depth over 63 [...]: 12."
const MOST_DEPTH: u32 = 63;

/// One level of a directory's hash table. "Level" alone means the directory's own level here; it
/// makes every hash level larger.
#[derive(Debug, Clone, Copy, PartialEq, Eq)]
pub struct HashLevel {
    /// Index of its first block in the directory. It may lie past the last index.
    pub start: u64,
    pub buckets: u64,
    pub bucket_blocks: u64,
}

impl HashLevel {
    /// Hash level `n`, which starts where the one before ends.
    fn new(level: u8, n: u32, start: u64) -> HashLevel {
        // "buckets are 2^(n + level) while n + level is below 31, else 2^30"
        let sum = n + u32::from(level);
        let buckets = if sum < 31 { 1 << sum } else { 1 << 30 };
        // "blocks stay 2 for n below 31, else 4": the directory's level plays no part in it.
        let bucket_blocks = if n < 31 { 2 } else { 4 };
        HashLevel { start, buckets, bucket_blocks }
    }

    /// First block after it. 63 hash levels of at most 2^32 blocks stay far below 2^64, so the sum
    /// is exact.
    pub fn end(&self) -> u64 {
        self.start + self.buckets * self.bucket_blocks
    }

    /// The blocks searched for a hash, in order: "in each the bucket hash mod buckets".
    pub fn searched(&self, hash: u32) -> Range<u64> {
        let bucket = u64::from(hash) % self.buckets;
        let first = self.start + bucket * self.bucket_blocks;
        first..first + self.bucket_blocks
    }
}

/// "Search levels 0 to depth − 1": the hash levels of a directory with this level and depth, or
/// the answer 12. With depth 63 these are all that a directory of this level can have.
pub fn hash_levels(level: u8, depth: u32) -> Result<Vec<HashLevel>, u32> {
    if depth > MOST_DEPTH || level >= FIRST_REFUSED_LEVEL {
        return Err(12);
    }
    let mut start = 0;
    let mut levels = Vec::new();
    for n in 0..depth {
        let hash_level = HashLevel::new(level, n, start);
        start = hash_level.end();
        levels.push(hash_level);
    }
    Ok(levels)
}

/// The blocks that hash level `n` searches for a hash, those past the last index included. The
/// error is 12 where no directory that is read has such a level or hash level.
pub fn searched_blocks(level: u8, n: u32, hash: u32) -> Result<Range<u64>, u32> {
    // It takes depth n + 1 to have hash level n.
    let levels = hash_levels(level, n.saturating_add(1))?;
    levels.last().map(|hash_level| hash_level.searched(hash)).ok_or(12)
}

#[cfg(test)]
mod tests {
    use super::*;
    use crate::place::{directory_place, Place, ADDRESSES, ADDRESSES_WITH_XATTR};

    fn hash_level(level: u8, n: usize) -> HashLevel {
        hash_levels(level, 63).unwrap()[n]
    }

    /// First blocks of the hash levels named.
    fn starts<const N: usize>(level: u8, ns: [usize; N]) -> [u64; N] {
        ns.map(|n| hash_level(level, n).start)
    }

    #[test]
    fn without_a_level_as_the_sheet_says() {
        assert_eq!(starts(0, [0, 1, 2, 3]), [0, 2, 6, 14]);
        assert_eq!(starts(0, [29]), [1_073_741_822]);
    }

    /// Document 01: "level n below 31 has 2^n buckets of 2 blocks, others 2^30 of 4".
    #[test]
    fn without_a_level_the_rule_of_003_stays() {
        for n in 0..63 {
            let HashLevel { buckets, bucket_blocks, .. } = hash_level(0, n);
            let expected = if n < 31 { (1u64 << n, 2) } else { (1 << 30, 4) };
            assert_eq!((buckets, bucket_blocks), expected, "hash level {n}");
        }
    }

    #[test]
    fn level_30_is_read_and_31_is_12() {
        for depth in [0, 1, 63] {
            for level in [0, 1, 29, 30] {
                assert_eq!(hash_levels(level, depth).unwrap().len(), depth as usize);
            }
            for level in [31, 32, 63, 128, 255] {
                assert_eq!(hash_levels(level, depth), Err(12), "level {level} depth {depth}");
            }
        }
    }

    #[test]
    fn depth_63_is_read_and_64_is_12() {
        for level in [0, 1, 30, 31, 255] {
            assert_eq!(hash_levels(level, 63).is_ok(), level < 31);
            assert_eq!(hash_levels(level, 64), Err(12));
            assert_eq!(hash_levels(level, u32::MAX), Err(12));
        }
    }

    /// The sums 29, 30, 31 and 32 of n and level; from 30 on the buckets no longer grow.
    #[test]
    fn buckets_grow_up_to_the_sum_30() {
        let buckets = |level, ns: [usize; 4]| ns.map(|n| hash_level(level, n).buckets);
        let expected = [536_870_912, 1_073_741_824, 1_073_741_824, 1_073_741_824];
        assert_eq!(buckets(0, [29, 30, 31, 32]), expected);
        assert_eq!(buckets(1, [28, 29, 30, 31]), expected);
        assert_eq!(buckets(5, [24, 25, 26, 27]), expected);
        assert_eq!(buckets(29, [0, 1, 2, 3]), expected);
        assert_eq!(buckets(30, [0, 1, 31, 62]), [1_073_741_824; 4]);
        // Small sums: 2^1, 2^2, 2^3, 2^4 and 2^7, 2^8, 2^9, 2^10.
        assert_eq!(buckets(1, [0, 1, 2, 3]), [2, 4, 8, 16]);
        assert_eq!(buckets(7, [0, 1, 2, 3]), [128, 256, 512, 1024]);
    }

    #[test]
    fn blocks_of_a_bucket_change_at_n_31_whatever_the_level() {
        for level in 0..31 {
            for (n, blocks) in [(0, 2), (1, 2), (29, 2), (30, 2), (31, 4), (32, 4), (62, 4)] {
                assert_eq!(hash_level(level, n).bucket_blocks, blocks, "level {level} n {n}");
            }
        }
    }

    #[test]
    fn first_blocks_without_a_level() {
        // 2 × (2^n − 1) up to n = 31: 2^31 − 2, 2^32 − 2. Then 2^32 blocks each: 2 × 2^32 − 2 at
        // 32, 32 × 2^32 − 2 = 2^37 − 2 at 62.
        assert_eq!(starts(0, [30, 31]), [2_147_483_646, 4_294_967_294]);
        assert_eq!(starts(0, [32, 62]), [8_589_934_590, 137_438_953_470]);
    }

    #[test]
    fn first_blocks_with_level_1() {
        // 2, 4, 8 buckets have 4, 8, 16 blocks.
        assert_eq!(starts(1, [0, 1, 2, 3]), [0, 4, 12, 28]);
        // 4 × (2^n − 1) up to n = 30: 2^31 − 4, 2^32 − 4.
        assert_eq!(starts(1, [29, 30]), [2_147_483_644, 4_294_967_292]);
        // Hash level 30 has 2^30 buckets, as 29 has, of 2 blocks, so 2^31 blocks: 2^32 + 2^31 − 4.
        // Hash level 31 has 2^32 blocks: 2 × 2^32 + 2^31 − 4.
        assert_eq!(starts(1, [31, 32]), [6_442_450_940, 10_737_418_236]);
    }

    #[test]
    fn first_blocks_with_level_3() {
        // 8, 16, 32 buckets have 16, 32, 64 blocks.
        assert_eq!(starts(3, [0, 1, 2, 3]), [0, 16, 48, 112]);
        // 16 × (2^n − 1) up to n = 28: 2^32 − 16. Hash levels 28, 29 and 30 have 2^31 blocks each:
        // 2^32 + 3 × 2^31 − 16 = 5 × 2^31 − 16 at 31.
        assert_eq!(starts(3, [28, 31]), [4_294_967_280, 10_737_418_224]);
    }

    #[test]
    fn first_blocks_with_level_23() {
        // 2^24 × (2^n − 1) up to n = 8: times 0, 1, 3, 63, 127, 255.
        assert_eq!(starts(23, [0, 1, 2]), [0, 16_777_216, 50_331_648]);
        assert_eq!(starts(23, [6, 7, 8]), [1_056_964_608, 2_130_706_432, 4_278_190_080]);
        // Hash level 8 (sum 31) has 2^31 blocks, as 7 has: 4,278,190,080 + 2,147,483,648.
        assert_eq!(starts(23, [9]), [6_425_673_728]);
    }

    #[test]
    fn first_blocks_with_level_29() {
        // Hash level 0 has 2^29 buckets, so 2^30 blocks; 1 and later have 2^31.
        assert_eq!(starts(29, [0, 1]), [0, 1_073_741_824]);
        assert_eq!(starts(29, [2, 3]), [3_221_225_472, 5_368_709_120]);
    }

    #[test]
    fn first_blocks_with_level_30() {
        // 2^31 blocks each up to 30, then 2^32: 31 × 2^31 at 31, 33 × 2^31 at 32, 93 × 2^31 at 62.
        assert_eq!(starts(30, [0, 1, 2]), [0, 2_147_483_648, 4_294_967_296]);
        assert_eq!(starts(30, [31, 32]), [66_571_993_088, 70_866_960_384]);
        assert_eq!(starts(30, [62]), [199_715_979_264]);
        // The end of the largest directory: 95 × 2^31.
        assert_eq!(hash_level(30, 62).end(), 204_010_946_560);
    }

    #[test]
    fn hash_levels_follow_each_other() {
        for level in 0..31 {
            let levels = hash_levels(level, 63).unwrap();
            assert_eq!(levels[0].start, 0);
            for pair in levels.windows(2) {
                assert_eq!(pair[0].end(), pair[1].start);
                assert_eq!(pair[0].searched(0).start, pair[0].start);
                // The greatest hash is 2^32 − 1, one below a multiple of every bucket count.
                assert_eq!(pair[0].searched(u32::MAX).end, pair[0].end());
            }
        }
    }

    #[test]
    fn blocks_searched_for_a_hash() {
        // Without a level hash level 0 has one bucket; with level 1 it has two.
        assert_eq!(searched_blocks(0, 0, 7), Ok(0..2));
        assert_eq!(searched_blocks(1, 0, 6), Ok(0..2));
        assert_eq!(searched_blocks(1, 0, 7), Ok(2..4));
        // Level 3, hash level 1: from 16 on, 16 buckets; 5679 hex mod 16 is 9, so 16 + 18.
        assert_eq!(searched_blocks(3, 1, 0x5679), Ok(34..36));
        // Level 3, hash level 2: from 48 on, 32 buckets; 5679 hex mod 32 is 25, so 48 + 50.
        assert_eq!(searched_blocks(3, 2, 0x5679), Ok(98..100));
        // Level 30, hash level 1: hash mod 2^30, of 2^30 + 5, is 5: 2^31 + 10.
        assert_eq!(searched_blocks(30, 1, 0x4000_0005), Ok(2_147_483_658..2_147_483_660));
        // Four blocks from n = 31 on. Level 0: 2^32 − 2 + 4 × 5.
        assert_eq!(searched_blocks(0, 31, 0x4000_0005), Ok(4_294_967_314..4_294_967_318));
        // Level 30, the very last bucket: it ends at 95 × 2^31.
        assert_eq!(searched_blocks(30, 62, u32::MAX), Ok(204_010_946_556..204_010_946_560));
        assert_eq!(searched_blocks(30, 63, 0), Err(12));
        assert_eq!(searched_blocks(0, u32::MAX, 0), Err(12));
        assert_eq!(searched_blocks(31, 0, 0), Err(12));
        assert_eq!(searched_blocks(255, 62, 0), Err(12));
    }

    fn has_place(addresses: u32, index: u64) -> bool {
        matches!(directory_place(addresses, index), Place::Way(_))
    }

    /// The last index is 1,057,053,438 with 923 addresses and 1,057,053,388 with 873. Both are
    /// even, as first blocks of buckets are, so one bucket has its first block there and its
    /// second past it.
    #[test]
    fn hash_levels_across_the_last_index() {
        let across = |addresses, last, level, n, start| {
            let bucket = (last - start) as u32 / 2;
            let places = |hash| {
                let blocks = searched_blocks(level, n, hash).unwrap();
                blocks.map(|index| has_place(addresses, index)).collect::<Vec<_>>()
            };
            assert_eq!(places(bucket - 1), [true, true], "level {level} A {addresses}");
            assert_eq!(places(bucket), [true, false], "level {level} A {addresses}");
            assert_eq!(places(bucket + 1), [false, false], "level {level} A {addresses}");
        };
        // First blocks: 2 × (2^28 − 1), 2^23 × (2^6 − 1), 2^24 × (2^6 − 1).
        for (level, n, start) in [
            (0, 28, 536_870_910),
            (22, 6, 528_482_304),
            (23, 6, 1_056_964_608),
            (29, 0, 0),
            (30, 0, 0),
        ] {
            across(ADDRESSES, 1_057_053_438, level, n, start);
            across(ADDRESSES_WITH_XATTR, 1_057_053_388, level, n, start);
        }
    }

    /// "Levels from 29 lie past the last index, so 58 blocks are read at most": with a level they
    /// are fewer, so "the bounds 179 and 238 hold as they are".
    #[test]
    fn no_more_than_58_blocks_have_a_place() {
        for level in 0..31 {
            // 2^(level + 1) × (2^n − 1) reaches 2^30 − 2^(level + 1) at n = 29 − level. That is at
            // most the last index if 2^(level + 1) is at least 2^30 − 1,057,053,438 = 16,688,386,
            // so from level 23 on (2^24). Level 30 has its hash level 0 only.
            let expected = match level {
                0..=22 => 29 - usize::from(level),
                23..=29 => 30 - usize::from(level),
                _ => 1,
            };
            let levels = hash_levels(level, 63).unwrap();
            for addresses in [ADDRESSES, ADDRESSES_WITH_XATTR] {
                let (before, past) = levels.split_at(expected);
                assert!(before.iter().all(|hash_level| has_place(addresses, hash_level.start)));
                assert!(past.iter().all(|hash_level| !has_place(addresses, hash_level.start)));
                let read: u64 = before.iter().map(|hash_level| hash_level.bucket_blocks).sum();
                assert!(read <= 58);
            }
        }
    }
}

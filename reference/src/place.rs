//! Where the block with a given index stands below an inode: the nodes and slots on the way.

/// "Other nodes hold 1,018 numbers."
const PER_NODE: u64 = 1018;

/// "Inline bit 1 set: A = 873 addresses, else A = 923."
pub const ADDRESSES_WITH_XATTR: u32 = 873;
pub const ADDRESSES: u32 = 923;

/// "Indexes run to A + 1,057,052,515."
const LAST_BEYOND_INODE: u64 = 1_057_052_515;

/// One node on the way and the slot taken in it.
#[derive(Debug, Clone, Copy, PartialEq, Eq)]
pub struct Step {
    pub place: u32,
    pub slot: u32,
}

/// The answer of File place.
#[derive(Debug, Clone, Copy, PartialEq, Eq)]
pub enum Place {
    /// 4: the number of addresses is neither 873 nor 923.
    BadAddresses,
    /// 3: the index lies past the last one.
    Past,
    /// 0: the way, one to four steps, from the inode to the node holding the address.
    Way(Way),
}

/// The steps on the way, in order; `steps()` gives those that are used.
#[derive(Debug, Clone, Copy, PartialEq, Eq)]
pub struct Way {
    all: [Step; 4],
    used: usize,
}

impl Way {
    fn new(taken: &[(u64, u64)]) -> Way {
        let mut all = [Step { place: 0, slot: 0 }; 4];
        for (step, &(place, slot)) in all.iter_mut().zip(taken) {
            // Places stay below 2043 + 1019 * 1018 + 1018 and slots below 1,018.
            *step = Step { place: place as u32, slot: slot as u32 };
        }
        Way { all, used: taken.len().min(4) }
    }

    pub fn steps(&self) -> &[Step] {
        &self.all[..self.used]
    }
}

/// The ten numbers of File place as they cross to the caller.
#[derive(Debug, Clone, Copy, PartialEq, Eq, Default)]
pub struct PlaceNumbers {
    pub answer: u32,
    pub steps: u32,
    /// Place number and slot of each step; zeros after the last.
    pub way: [(u32, u32); 4],
}

impl Place {
    pub fn numbers(&self) -> PlaceNumbers {
        match self {
            Place::BadAddresses => PlaceNumbers { answer: 4, ..PlaceNumbers::default() },
            Place::Past => PlaceNumbers { answer: 3, ..PlaceNumbers::default() },
            Place::Way(way) => PlaceNumbers {
                answer: 0,
                steps: way.used as u32,
                way: way.all.map(|step| (step.place, step.slot)),
            },
        }
    }
}

/// "4 unless A is 873 or 923, 3 past the last index, else 0 with the place numbers and slots on
/// the way"
pub fn file_place(addresses: u32, index: u32) -> Place {
    directory_place(addresses, u64::from(index))
}

/// The same for a block of a directory: the indexes of its hash levels pass 32 bits. Past the last
/// one "nothing is looked up or read".
pub fn directory_place(addresses: u32, index: u64) -> Place {
    if addresses != ADDRESSES_WITH_XATTR && addresses != ADDRESSES {
        return Place::BadAddresses;
    }
    match way_to(u64::from(addresses), index) {
        Some(way) => Place::Way(way),
        None => Place::Past,
    }
}

/// "The five are two direct nodes, two indirect, one double indirect."
fn way_to(addresses: u64, index: u64) -> Option<Way> {
    if index > addresses + LAST_BEYOND_INODE {
        return None;
    }
    if index < addresses {
        return Some(Way::new(&[(0, index)]));
    }
    let mut rest = index - addresses;
    // "direct 1 and 2"
    for which in 0..2 {
        if rest < PER_NODE {
            return Some(Way::new(&[(0, which), (1 + which, rest)]));
        }
        rest -= PER_NODE;
    }
    // "indirect 3 (children from 4) and 1022 (children from 1023)"
    for (which, indirect) in [(2, 3), (3, 1022)] {
        if rest < PER_NODE * PER_NODE {
            let (child, slot) = (rest / PER_NODE, rest % PER_NODE);
            return Some(Way::new(&[(0, which), (indirect, child), (indirect + 1 + child, slot)]));
        }
        rest -= PER_NODE * PER_NODE;
    }
    Some(way_through_double(rest))
}

/// "double 2041, its child i is 2042 + 1019i, with leaves from 2043 + 1019i"
fn way_through_double(rest: u64) -> Way {
    let child = rest / (PER_NODE * PER_NODE);
    let leaf = rest / PER_NODE % PER_NODE;
    let slot = rest % PER_NODE;
    Way::new(&[
        (0, 4),
        (2041, child),
        (2042 + 1019 * child, leaf),
        (2043 + 1019 * child + leaf, slot),
    ])
}

#[cfg(test)]
mod tests {
    use super::*;

    fn way(addresses: u32, index: u32) -> Vec<(u32, u32)> {
        match file_place(addresses, index) {
            Place::Way(way) => way.steps().iter().map(|s| (s.place, s.slot)).collect(),
            other => panic!("{other:?}"),
        }
    }

    #[test]
    fn bench_sheet_923() {
        assert_eq!(way(923, 922), [(0, 922)]);
        assert_eq!(way(923, 923), [(0, 0), (1, 0)]);
        assert_eq!(way(923, 2958), [(0, 1), (2, 1017)]);
        assert_eq!(way(923, 2959), [(0, 2), (3, 0), (4, 0)]);
        assert_eq!(way(923, 1_039_283), [(0, 3), (1022, 0), (1023, 0)]);
        assert_eq!(way(923, 2_075_607), [(0, 4), (2041, 0), (2042, 0), (2043, 0)]);
    }

    #[test]
    fn bench_sheet_last_index() {
        let last = way(923, 1_057_053_438);
        assert_eq!(last[0], (0, 4));
        assert_eq!(last[1], (2041, 1017));
        assert_eq!(last[2], (2042 + 1019 * 1017, 1017));
        assert_eq!(last[3], (2043 + 1019 * 1017 + 1017, 1017));
        assert_eq!(file_place(923, 1_057_053_439), Place::Past);
        assert_eq!(file_place(923, u32::MAX), Place::Past);
    }

    #[test]
    fn bench_sheet_873() {
        assert_eq!(way(873, 872), [(0, 872)]);
        assert_eq!(way(873, 873), [(0, 0), (1, 0)]);
        assert_eq!(way(873, 873 + 1_057_052_515).len(), 4);
        assert_eq!(file_place(873, 873 + 1_057_052_516), Place::Past);
    }

    #[test]
    fn places_just_before_the_next_kind() {
        assert_eq!(way(923, 1_039_282), [(0, 2), (3, 1017), (1021, 1017)]);
        assert_eq!(way(923, 2_075_606), [(0, 3), (1022, 1017), (2040, 1017)]);
    }

    #[test]
    fn other_addresses_are_bad() {
        for addresses in [0, 872, 874, 922, 924, u32::MAX] {
            assert_eq!(file_place(addresses, 0), Place::BadAddresses);
            assert_eq!(file_place(addresses, 0).numbers().answer, 4);
        }
    }

    #[test]
    fn directory_indexes_pass_32_bits() {
        for (addresses, last) in [(923, 1_057_053_438), (873, 1_057_053_388)] {
            assert_eq!(directory_place(addresses, 0), file_place(addresses, 0));
            assert_eq!(directory_place(addresses, last), file_place(addresses, last as u32));
            // The later ones would be 0, 1 and the last index if cut to 32 bits.
            for past in [last + 1, 1 << 32, (1 << 32) + 1, (1 << 32) + last, u64::MAX] {
                assert_eq!(directory_place(addresses, past), Place::Past, "index {past}");
            }
        }
        assert_eq!(directory_place(922, 0), Place::BadAddresses);
        assert_eq!(directory_place(922, 1 << 32), Place::BadAddresses);
    }

    #[test]
    fn numbers_as_they_cross() {
        let crossed = file_place(923, 923).numbers();
        assert_eq!((crossed.answer, crossed.steps), (0, 2));
        assert_eq!(crossed.way, [(0, 0), (1, 0), (0, 0), (0, 0)]);
        assert_eq!(
            file_place(923, u32::MAX).numbers(),
            PlaceNumbers { answer: 3, steps: 0, way: [(0, 0); 4] }
        );
    }
}

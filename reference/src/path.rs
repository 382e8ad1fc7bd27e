//! K7: the names of a path, and the rooms its lists must have.

use crate::hash::is_name;

/// "one to eight names parted by single slashes"
pub const MOST_NAMES: usize = 8;

/// How many numbers each list must have room for.
#[derive(Debug, Clone, Copy, PartialEq, Eq)]
pub struct Rooms {
    pub nodes: usize,
    pub blocks: usize,
}

impl Rooms {
    /// Whether two lists lent as bytes have them: "four bytes a number (a remainder isn't used)".
    pub fn are_in(&self, nodes: &[u8], blocks: &[u8]) -> bool {
        nodes.len() / 4 >= self.nodes && blocks.len() / 4 >= self.blocks
    }
}

/// The rooms for eight names, which are enough for every path: 1,404 and 1,869.
pub const MOST_ROOMS: Rooms = rooms(MOST_NAMES);

/// "With k names at most 175k + 4 node numbers and 233k + 5 blocks are listed, and the lists lent
/// must have that room." A k that no path has is kept from wrapping.
pub const fn rooms(k: usize) -> Rooms {
    Rooms {
        nodes: k.saturating_mul(175).saturating_add(4),
        blocks: k.saturating_mul(233).saturating_add(5),
    }
}

/// The path's names in order: "one to eight names parted by single slashes; an empty part or a
/// ninth is 4". `None` stands for the 4. A slash at the front, at the end or doubled leaves an
/// empty part, and so does an empty path.
pub fn names(path: &[u8]) -> Option<Vec<&[u8]>> {
    // One part more than there may be is enough to refuse it.
    let parts: Vec<&[u8]> = path.split(|&byte| byte == b'/').take(MOST_NAMES + 1).collect();
    let in_shape = parts.len() <= MOST_NAMES && parts.iter().all(|part| is_name(part));
    in_shape.then_some(parts)
}

/// How many names the path has, 1 to 8. `None` stands for the 4.
pub fn name_count(path: &[u8]) -> Option<usize> {
    names(path).map(|names| names.len())
}

/// The rooms that a pull of this path must be lent. `None` stands for the 4.
pub fn path_rooms(path: &[u8]) -> Option<Rooms> {
    name_count(path).map(rooms)
}

#[cfg(test)]
mod tests {
    use super::*;

    /// `k` parts of this many bytes each.
    fn even(k: usize, length: usize) -> Vec<u8> {
        vec![vec![b'n'; length]; k].join(&b'/')
    }

    #[test]
    fn one_to_eight_names() {
        for length in [1, 2, 254, 255] {
            for k in 1..=8 {
                let path = even(k, length);
                assert_eq!(names(&path), Some(vec![&vec![b'n'; length][..]; k]));
                assert_eq!(name_count(&path), Some(k));
            }
            for k in [9, 10, 16, 100] {
                assert_eq!(names(&even(k, length)), None, "{k} names");
                assert_eq!(name_count(&even(k, length)), None, "{k} names");
            }
        }
        assert_eq!(even(8, 255).len(), 2047);
        assert_eq!(names(b"a/bc/d"), Some(vec![&b"a"[..], b"bc", b"d"]));
    }

    #[test]
    fn empty_parts() {
        for path in [
            &b""[..], b"/", b"//", b"/a", b"a/", b"/a/", b"a//b", b"a///b", b"a/b/", b"/a/b",
            b"a/b//c", b"//a", b"a//",
        ] {
            assert_eq!(names(path), None, "{path:?}");
        }
        // With eight names and a ninth part that is empty, at each place.
        for at in 0..9 {
            let mut parts = [&b"n"[..]; 9];
            parts[at] = b"";
            assert_eq!(names(&parts.join(&b'/')), None, "part {at}");
        }
    }

    /// "A name has 1 to 255 bytes, none of them 0 or 47 (the slash)."
    #[test]
    fn each_part_is_a_name() {
        for (k, at) in (1..=8).flat_map(|k| (0..k).map(move |at| (k, at))) {
            let with = |part: &[u8]| {
                let mut parts = vec![&b"n"[..]; k];
                parts[at] = part;
                name_count(&parts.join(&b'/'))
            };
            for good in [&[b'n'; 255][..], &[255], &[1], b".", b"..", b"...", b"\\", b" ", b"a.b"] {
                assert_eq!(with(good), Some(k), "part {at} of {k}: {good:?}");
            }
            for bad in [&[b'n'; 256][..], &[b'n'; 511], &[0], b"a\0", b"\0a", b"a\0b"] {
                assert_eq!(with(bad), None, "part {at} of {k}: {bad:?}");
            }
        }
    }

    /// Every byte between two letters, and around one.
    #[test]
    fn only_byte_47_parts_names() {
        for byte in 0..=255 {
            let expected = match byte {
                0 => None,
                b'/' => Some(2),
                _ => Some(1),
            };
            assert_eq!(name_count(&[b'a', byte, b'b']), expected, "byte {byte}");
            let ends = if expected == Some(1) { Some(1) } else { None };
            assert_eq!(name_count(&[byte, b'a', byte]), ends, "byte {byte}");
        }
    }

    /// 301 bytes, one of them a slash: neither part has over 255 bytes with 45 to 255 before it.
    #[test]
    fn a_slash_at_each_place() {
        for at in 0..=300 {
            let mut path = vec![b'n'; 301];
            path[at] = b'/';
            let expected = if (45..=255).contains(&at) { Some(2) } else { None };
            assert_eq!(name_count(&path), expected, "slash at {at}");
        }
    }

    #[test]
    fn rooms_of_each_count() {
        let nodes = [179, 354, 529, 704, 879, 1054, 1229, 1404];
        let blocks = [238, 471, 704, 937, 1170, 1403, 1636, 1869];
        for k in 1..=8 {
            let expected = Rooms { nodes: nodes[k - 1], blocks: blocks[k - 1] };
            assert_eq!(rooms(k), expected);
            assert_eq!(path_rooms(&even(k, 3)), Some(expected));
        }
        assert_eq!(MOST_ROOMS, Rooms { nodes: 1404, blocks: 1869 });
        assert_eq!(path_rooms(&even(9, 3)), None);
        assert_eq!(path_rooms(b""), None);
        assert_eq!(rooms(usize::MAX), Rooms { nodes: usize::MAX, blocks: usize::MAX });
    }
}

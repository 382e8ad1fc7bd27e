//! The shape of a name, and its directory hash.

const DELTA: u32 = 0x9E37_79B9;

/// "A name has 1 to 255 bytes, none of them 0 or 47 (the slash)."
pub fn is_name(name: &[u8]) -> bool {
    (1..=255).contains(&name.len()) && !name.iter().any(|&byte| byte == 0 || byte == b'/')
}

/// "Name hash (name): 4 for a bad name, else 0 and the hash." `None` stands for the 4.
pub fn name_hash(name: &[u8]) -> Option<u32> {
    is_name(name).then(|| raw_hash(name))
}

/// The hash of any bytes, whether or not they have the shape of a name.
pub fn raw_hash(name: &[u8]) -> u32 {
    // "'.' and '..' have 0."
    if name == b"." || name == b".." {
        return 0;
    }
    // "Else state 67452301, EFCDAB89 (hex)."
    let mut state = [0x6745_2301, 0xEFCD_AB89];
    let mut rest = name;
    loop {
        tea(&mut state, key_words(rest));
        // "Go on while over 16 bytes remained."
        if rest.len() <= 16 {
            break;
        }
        rest = &rest[16..];
    }
    // "The result is the first state word."
    state[0]
}

/// The four key words of one round, from everything that remains of the name.
fn key_words(rest: &[u8]) -> [u32; 4] {
    // "pad word is the remaining length's low byte four times"
    let low = (rest.len() & 0xFF) as u8;
    let pad = u32::from_le_bytes([low; 4]);
    // "a started or next word keeps its pad, the rest are pad"
    let mut words = [pad; 4];
    // "Per round take up to 16 bytes": "for each byte shift left 8 and add, four bytes a word"
    for (position, &byte) in rest.iter().take(16).enumerate() {
        let word = &mut words[position / 4];
        *word = (*word << 8).wrapping_add(u32::from(byte));
    }
    words
}

/// "Then 16 rounds of TEA (delta 9E3779B9) with key words a to d, both results added to the
/// state. All sums wrap."
fn tea(state: &mut [u32; 2], [a, b, c, d]: [u32; 4]) {
    let [mut left, mut right] = *state;
    let mut sum = 0u32;
    for _ in 0..16 {
        sum = sum.wrapping_add(DELTA);
        left = left.wrapping_add(tea_mix(right, a, b, sum));
        right = right.wrapping_add(tea_mix(left, c, d, sum));
    }
    state[0] = state[0].wrapping_add(left);
    state[1] = state[1].wrapping_add(right);
}

/// TEA's half round: what one half adds to the other.
fn tea_mix(half: u32, first_key: u32, second_key: u32, sum: u32) -> u32 {
    (half << 4).wrapping_add(first_key)
        ^ half.wrapping_add(sum)
        ^ (half >> 5).wrapping_add(second_key)
}

#[cfg(test)]
mod tests {
    use super::*;

    #[test]
    fn dots_have_zero() {
        assert_eq!(name_hash(b"."), Some(0));
        assert_eq!(name_hash(b".."), Some(0));
    }

    #[test]
    fn bad_names() {
        assert_eq!(name_hash(b""), None);
        assert_eq!(name_hash(b"a/b"), None);
        assert_eq!(name_hash(b"a\0b"), None);
        assert_eq!(name_hash(&[b'a'; 256]), None);
        assert!(is_name(&[b'a'; 255]));
        assert!(is_name(&[0xFF]));
    }

    #[test]
    fn words_are_padded_with_the_remaining_length() {
        assert_eq!(key_words(b"a"), [0x0101_0161, 0x0101_0101, 0x0101_0101, 0x0101_0101]);
        assert_eq!(key_words(b"abcd"), [0x6162_6364, 0x0404_0404, 0x0404_0404, 0x0404_0404]);
        assert_eq!(key_words(b"abcde"), [0x6162_6364, 0x0505_0565, 0x0505_0505, 0x0505_0505]);
        assert_eq!(key_words(&[0; 255])[0], 0);
    }
}

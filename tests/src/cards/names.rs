//! File names for the tests.

use std::collections::HashMap;

use reference::hash::raw_hash;

use crate::trial::Random;

/// A byte that a name may have.
fn good_byte(random: &mut Random) -> u8 {
    match random.number() as u8 {
        0 | b'/' => b'.',
        byte => byte,
    }
}

pub fn good_name(random: &mut Random, len: usize) -> Vec<u8> {
    (0..len).map(|_| good_byte(random)).collect()
}

/// A name whose hash does as asked. One in a million should: each of that many takes a moment to try.
pub fn name_with(random: &mut Random, len: usize, asked: impl Fn(u32) -> bool) -> Vec<u8> {
    loop {
        let name = good_name(random, len);
        if asked(raw_hash(&name)) {
            return name;
        }
    }
}

/// Two names of the same hash: among 100,000 there should be a pair.
pub fn colliding_names(random: &mut Random, len: usize) -> [Vec<u8>; 2] {
    let mut by_hash = HashMap::new();
    loop {
        let name = good_name(random, len);
        match by_hash.insert(raw_hash(&name), name.clone()) {
            Some(other) if other != name => return [other, name],
            _ => {}
        }
    }
}

/// For each directory level, with many addresses and with few: a name of which the last block in reach is the first of
/// its bucket, at the very last index, and one that leads to the next bucket.
#[rustfmt::skip]
pub const LAST_NAMES: [[&str; 4]; 31] = [
    ["aydffoa", "ayryzjv", "afsbsrw", "acdsslr"],
    ["ayryzjv", "aolizmv", "acdsslr", "bayzeuw"],
    ["aqtnxpk", "bulwvep", "bfmiwtr", "ahmlxso"],
    ["axhqowr", "cqafrjt", "antqvuy", "abwetfb"],
    ["ajfiusj", "akdwlqg", "acdtaky", "bcknpeq"],
    ["aadgasm", "attskzm", "acyqkho", "axhqowr"],
    ["aghmbts", "aydzfeo", "aazetxg", "aedjoew"],
    ["dcgkkeg", "corlntv", "avvolhf", "bgoeozm"],
    ["aiouvmk", "bjxfjpv", "akninzh", "btbsqpu"],
    ["atgitke", "amojvvv", "atyvngs", "atwkwhe"],
    ["bllssta", "ajgbgap", "cvyakjv", "aqnfhdg"],
    ["ceuqcbh", "absuhyw", "agtneem", "bcwakfd"],
    ["cdekdby", "btfucaq", "aakvntb", "akgwqfv"],
    ["ajtjwtb", "avlssip", "ajfjkah", "aovarca"],
    ["bdtpxzu", "campkqg", "aeezdrm", "bawfuxz"],
    ["avhybxa", "aeqcack", "agccrks", "aiptuwu"],
    ["cpdchto", "alvatis", "baomtlt", "brpevew"],
    ["asjoaqq", "acmmlyb", "adqtbwl", "alhsztd"],
    ["aycxeln", "bpdbfjf", "alvxybo", "agarzet"],
    ["axgmtfy", "bvagqzk", "bzagfsi", "awlebsd"],
    ["aookxhm", "axpseoq", "abihuqx", "amyqlru"],
    ["agznbmw", "bcultog", "aynxwzi", "bpixpuk"],
    ["argqsms", "abnlzqb", "cjpesxo", "befujty"],
    ["bfrvdac", "aknlgzh", "apgjvco", "bgzwzlf"],
    ["dbgbari", "apaomip", "arqqozq", "abvkreq"],
    ["bimrttq", "dfftsqp", "awibpdt", "abpeftm"],
    ["dbdjlrj", "ciyemog", "aiprgaz", "bzzoeuo"],
    ["dxjpzmn", "atsbbzy", "avhqgtt", "agvjrrl"],
    ["egknxdz", "aydffoa", "bjgfsft", "afsbsrw"],
    ["cyeibba", "cbhlnsf", "bdgdoof", "bcszlka"],
    ["dvvsblo", "eejgqqn", "dvbqcce", "bcszlka"],
];

//! What `harptimber compare` has to say, worked out block by block with the reference: the numbers, and JSON.

use reference::compare::{compare, Compared};
use reference::lookup::node_lookup;

use crate::calls::pulls::Outcome;
use crate::cards::card::ROOT;
use crate::cards::image::Image;
use crate::cards::layout::inode::I_SIZE;
use crate::cards::layout::{footer, BLOCK_SIZE};
use crate::program::card::pulled;
use crate::program::json::Json;
use crate::program::page::{in_words, meaning};

/// What became of a block.
#[derive(Clone, Copy, Debug, PartialEq, Eq)]
pub(crate) enum Fate {
    /// By the reference's compare.
    Same,
    /// Something that it rested on changed, but a pull on the new image gives the same bytes.
    SameBytes,
    Different,
}

/// A byte of the file that differs first, with what either image has there; none behind the file's end.
type Byte = (u64, [Option<u8>; 2]);

/// Blocks that follow each other with the same fate, ground and answer on the new image; the rest is the first one's.
pub(crate) struct Run {
    pub first: u32,
    pub last: u32,
    pub compared: Compared,
    pub fate: Fate,
    /// Kind and number of what changed; for the file's own data the number is 0.
    pub ground: [u32; 2],
    /// On the new image, 0 for a hole too.
    pub new_answer: u32,
    pub(crate) byte: Option<Byte>,
}

/// A directory on the kept image.
struct Directory {
    ino: u32,
    /// The path that leads there, in words; empty for the root.
    path: String,
    /// Its blocks that a pull past the end reads, nodes or not, beside those of the directories before it.
    blocks: Vec<u32>,
}

impl Directory {
    /// The one with this number that so many names of a path lead to.
    fn of(kept: &Image, path: &[u8], names: usize, ino: u32) -> Directory {
        let part = |names: usize| path.split(|&byte| byte == b'/').take(names);
        let part = |names: usize| part(names).collect::<Vec<_>>().join(&b'/');
        let blocks = pulled(kept, &part(names + 1), u32::MAX).blocks();
        let path = in_words(&part(names));
        Directory { ino, path, blocks }
    }

    fn in_words(&self) -> String {
        match &*self.path {
            "" => "the root directory".to_string(),
            path => format!("the directory {path}"),
        }
    }

    fn inode_in_words(&self) -> String {
        match &*self.path {
            "" => "the root directory's inode".to_string(),
            path => format!("the inode of {path}"),
        }
    }
}

/// What a compare comes to if both images open.
pub struct Expected<'a> {
    pub(crate) cards: [&'a Image; 2],
    /// What a pull past the end answers on each: 3 if the file is there.
    pub(crate) there: [u32; 2],
    /// Where it is there.
    pub(crate) sizes: [Option<u64>; 2],
    /// The directories on the path, the root first.
    directories: Vec<Directory>,
    /// Without it, every block is compared.
    pub(crate) index: Option<u32>,
    pub answer: u32,
    pub status: i32,
    pub(crate) runs: Vec<Run>,
    /// Where the kept image has no block: what it answers, and the rest as for a block.
    pub(crate) end: Option<(u32, Run)>,
}

impl<'a> Expected<'a> {
    /// Of a file in the root directory.
    pub fn of(cards: [&'a Image; 2], name: &[u8], index: Option<u32>) -> Expected<'a> {
        Expected::along(cards, name, &[ROOT], index)
    }

    /// Of a path through directories with these numbers on the kept image, the root first.
    pub fn along(
        cards: [&'a Image; 2],
        path: &[u8],
        directories: &[u32],
        index: Option<u32>,
    ) -> Expected<'a> {
        let numbered = directories.iter().enumerate();
        let mut expected = Expected {
            cards,
            there: cards.map(|card| pulled(card, path, u32::MAX).pulled.answer),
            sizes: cards.map(|card| size(card, path, directories)),
            directories: numbered
                .map(|(names, &ino)| Directory::of(cards[0], path, names, ino))
                .collect(),
            index,
            answer: 15,
            status: 0,
            runs: Vec::new(),
            end: None,
        };
        for index in index.map_or(0..=u32::MAX, |index| index..=index) {
            let kept = pulled(cards[0], path, index);
            let run = expected.run(path, index, &kept);
            if kept.pulled.answer > 1 {
                expected.end = Some((kept.pulled.answer, run));
                break;
            }
            expected.extend(run);
        }
        expected.judge();
        expected
    }

    fn run(&self, path: &[u8], index: u32, kept: &Outcome) -> Run {
        let compared = compared(self.cards, kept);
        let new = pulled(self.cards[1], path, index);
        let blocks = [block(kept), block(&new)];
        let fate = match compared.answer {
            15 => Fate::Same,
            _ if blocks[0].is_some() && blocks[0] == blocks[1] => Fate::SameBytes,
            _ => Fate::Different,
        };
        let own_data = compared.kind == 3 && self.content(compared.number).is_none();
        Run {
            first: index,
            last: index,
            compared,
            fate,
            ground: [compared.kind, if own_data { 0 } else { compared.number }],
            new_answer: if blocks[1].is_some() {
                0
            } else {
                new.pulled.answer
            },
            byte: (fate == Fate::Different)
                .then(|| first_byte(index, blocks))
                .flatten(),
        }
    }

    fn extend(&mut self, run: Run) {
        let key = |run: &Run| {
            (
                run.fate,
                run.ground,
                (run.fate != Fate::Same).then_some(run.new_answer),
            )
        };
        match self.runs.last_mut() {
            Some(last) if key(last) == key(&run) => last.last = run.last,
            _ => self.runs.push(run),
        }
    }

    /// A path on neither image comes first; a whole file ends with the first block past the end, which is no refusal.
    fn judge(&mut self) {
        let refused = self.end.as_ref().map(|(kept, _)| *kept);
        let refused = refused.filter(|&kept| self.index.is_some() || kept != 3);
        let ends = self.end.iter().map(|(_, run)| run);
        let changed = self
            .runs
            .iter()
            .chain(ends)
            .any(|run| run.fate != Fate::Same);
        (self.answer, self.status) = match (self.there, changed, refused) {
            ([2, 2], ..) => (2, 4),
            (_, true, _) => (16, 1),
            (_, false, Some(kept)) => (kept, 2),
            (_, false, None) => (15, 0),
        };
    }

    /// Whether every block was compared.
    pub fn whole(&self) -> bool {
        self.index.is_none()
    }

    /// How many blocks there are of a fate.
    pub(crate) fn count(&self, fate: Fate) -> u64 {
        let runs = self.runs.iter().filter(|run| run.fate == fate);
        runs.map(|run| u64::from(run.last - run.first + 1)).sum()
    }

    /// The first byte that differs, if both images have a block there.
    pub(crate) fn byte(&self) -> Option<Byte> {
        self.runs.iter().find_map(|run| run.byte)
    }

    /// Whether everything that was asked for is on the kept image.
    pub(crate) fn is_all_there(&self) -> bool {
        let end = self.end.as_ref().map(|(kept, _)| *kept);
        end.is_none() || self.whole() && end == Some(3)
    }
}

/// A file's size, by its inode, the only one that is looked up beside the directories'; none if it isn't there.
fn size(image: &Image, path: &[u8], directories: &[u32]) -> Option<u64> {
    let outcome = pulled(image, path, u32::MAX);
    let nodes = outcome.nodes().into_iter();
    let nodes = nodes.filter(|nid| !directories.contains(nid));
    let blocks = nodes.map(|nid| node_lookup(image.bytes(), nid).expect("an entry").1);
    let is_inode = |&block: &u32| image.get(block, footer::NID) == image.get(block, footer::INO);
    let inode = (outcome.pulled.answer == 3).then(|| blocks.into_iter().find(is_inode));
    inode.map(|inode| image.get(inode.expect("an inode"), I_SIZE))
}

fn compared([kept, fresh]: [&Image; 2], outcome: &Outcome) -> Compared {
    compare(
        kept.bytes(),
        fresh.bytes(),
        outcome.lent.nodes.bytes(),
        outcome.pulled.node_count,
        outcome.lent.blocks.bytes(),
        outcome.pulled.block_count,
    )
}

/// The file's bytes in a block; none if there is no block.
fn block(outcome: &Outcome) -> Option<&[u8]> {
    let pulled = outcome.pulled;
    (pulled.answer <= 1).then(|| &outcome.lent.block.bytes()[..pulled.byte_count as usize])
}

fn first_byte(index: u32, blocks: [Option<&[u8]>; 2]) -> Option<Byte> {
    let [kept, new] = [blocks[0]?, blocks[1]?];
    let at = (0..BLOCK_SIZE).find(|&at| kept.get(at) != new.get(at))?;
    let place = u64::from(index) * BLOCK_SIZE as u64 + at as u64;
    Some((place, [kept, new].map(|block| block.get(at).copied())))
}

/// What differs.
impl Expected<'_> {
    /// Words for the bounds of the main area, a node's number or a block, with what is there now.
    pub(crate) fn expect_difference(&self, words: &str, [kind, number]: [u32; 2]) {
        let parts = match kind {
            1 => vec!["main area".to_string()],
            2 => self.of_table(number),
            _ => {
                let place = format!(", the card's block {number})");
                let of_card = |node| format!(" changed in {node}{place}");
                let content = self.content(number).map(|content| match content {
                    Content::Node(nid) => of_card(format!("{} (node {nid}", self.owner(nid))),
                    Content::Entries(of) => {
                        format!(" in {} (the card's block {number})", of.in_words())
                    }
                });
                vec![content.unwrap_or("the file's data changed".to_string())]
            }
        };
        for part in parts {
            assert!(words.contains(&part), "no '{part}' in '{words}'");
        }
    }

    fn of_table(&self, number: u32) -> Vec<String> {
        let entries = self.cards.map(|card| node_lookup(card.bytes(), number));
        let [before, now] = entries.map(|entry| {
            let (inode, block) = entry.expect("an entry");
            format!("inode {inode}, block {block}")
        });
        vec![
            format!("node {number} ({})", self.owner(number)),
            format!("{before} before"),
            format!("{now} now"),
        ]
    }

    /// Whose a node is.
    fn owner(&self, nid: u32) -> String {
        let entry = node_lookup(self.cards[0].bytes(), nid);
        let of = entry.map_or(0, |(ino, _)| ino);
        let mut directories = self.directories.iter();
        match (directories.find(|directory| directory.ino == of), of == nid) {
            (None, true) => "the file's inode".to_string(),
            (None, false) => "a node of the file".to_string(),
            (Some(directory), true) => directory.inode_in_words(),
            (Some(directory), false) => format!("a node of {}", directory.in_words()),
        }
    }

    /// What is in a block. None if it is data of the file.
    fn content(&self, block: u32) -> Option<Content<'_>> {
        let kept = self.cards[0];
        let nid = kept.get(block, footer::NID) as u32;
        match node_lookup(kept.bytes(), nid) {
            Ok((_, address)) if address == block => Some(Content::Node(nid)),
            _ => {
                let mut directories = self.directories.iter();
                let of = directories.find(|directory| directory.blocks.contains(&block));
                of.map(Content::Entries)
            }
        }
    }
}

/// What a block has that isn't data of the file.
enum Content<'a> {
    Node(u32),
    Entries(&'a Directory),
}

/// As JSON.
impl Expected<'_> {
    /// The object of a single path, or one in the list of several.
    pub fn expect_json(&self, json: &Json) {
        let counts = ["same", "changed", "same_bytes", "differ"].map(|key| json[key].number());
        let [same, same_bytes, differ] =
            [Fate::Same, Fate::SameBytes, Fate::Different].map(|fate| self.count(fate));
        assert_eq!(
            counts,
            [same, same_bytes + differ, same_bytes, differ],
            "{json:?}"
        );
        assert_eq!(json["status"].number(), self.status as u64, "{json:?}");
        assert_eq!(json["verdict"].text(), self.verdict(), "{json:?}");
        for (key, size) in ["kept_size", "new_size"].into_iter().zip(self.sizes) {
            let told = json.get(key).map(Json::number);
            assert!(size.is_none() || told == size, "{key} in {json:?}");
        }
        let runs = json["runs"].list();
        assert_eq!(runs.len(), self.runs.len(), "runs in {json:?}");
        for (json, run) in runs.iter().zip(&self.runs) {
            self.expect_object(json, [("first", run.first), ("last", run.last)], run);
            self.expect_bytes(json, run);
        }
        assert_eq!(json.get("end").is_some(), self.end.is_some(), "{json:?}");
        if let Some((kept, run)) = &self.end {
            self.expect_object(&json["end"], [("index", run.first), ("kept", *kept)], run);
        }
    }

    /// In a word or two.
    fn verdict(&self) -> &str {
        let resized = self.whole() && self.sizes[0] != self.sizes[1];
        match (self.status, self.there) {
            (0, _) => "same",
            (2, _) => "refused",
            (4, _) => "on neither card",
            (_, [3, 3]) if resized || self.count(Fate::Different) > 0 => "differs",
            (_, [3, 3]) if self.is_all_there() => "same bytes",
            (_, [3, 2]) => "gone",
            (_, [2, 3]) => "new",
            (_, [3, now]) if now != 3 => "no longer readable",
            (_, [before, 3]) if before != 3 => "readable now",
            _ => "changed",
        }
    }

    /// A run or the end: two numbers, then an answer with its difference, if there is one.
    fn expect_object(&self, json: &Json, numbers: [(&str, u32); 2], run: &Run) {
        let compared = run.compared;
        for (key, number) in numbers.into_iter().chain([("answer", compared.answer)]) {
            assert_eq!(json[key].number(), u64::from(number), "{key} in {json:?}");
        }
        assert_eq!(json["meaning"].text(), meaning("compare", compared.answer));
        let elsewhere = [
            "same_bytes",
            "byte",
            "before",
            "now",
            "kept_reason",
            "new_reason",
        ];
        let others = json
            .keys()
            .iter()
            .filter(|key| !elsewhere.contains(key))
            .count();
        assert_eq!(
            others,
            if compared.answer == 15 { 4 } else { 8 },
            "{json:?}"
        );
        if compared.answer == 15 {
            return;
        }
        let difference = ["kind", "number", "new_answer"].map(|key| json[key].number());
        assert_eq!(
            difference,
            [compared.kind, compared.number, run.new_answer].map(u64::from)
        );
        self.expect_difference(json["difference"].text(), run.ground);
    }

    fn expect_bytes(&self, json: &Json, run: &Run) {
        let same_bytes =
            (run.fate != Fate::Same).then_some(Json::Bool(run.fate == Fate::SameBytes));
        assert_eq!(json.get("same_bytes"), same_bytes.as_ref(), "{json:?}");
        let number = |byte: Option<u8>| byte.map_or(Json::Null, |byte| Json::Number(byte.into()));
        let bytes = run
            .byte
            .map(|(place, [before, now])| [Json::Number(place), number(before), number(now)]);
        for (i, key) in ["byte", "before", "now"].into_iter().enumerate() {
            assert_eq!(
                json.get(key),
                bytes.as_ref().map(|bytes| &bytes[i]),
                "{key} in {json:?}"
            );
        }
    }
}

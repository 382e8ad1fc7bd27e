//! What `harptimber compare` says of a change in a node or in the root directory: the field by its name in the Linux header's
//! layout of an inode, or the entry.

use harptimber_tests::cards::card::ROOT;
use harptimber_tests::cards::directory::{in_slot, Dentry};
use harptimber_tests::cards::image::Image;
use harptimber_tests::cards::layout::dentry;
use harptimber_tests::cards::layout::dentry::IN_INODE;
use harptimber_tests::cards::layout::inode::{INLINE_AT, INLINE_XATTR, I_INLINE, I_SIZE};
use harptimber_tests::cards::layout::Field;
use harptimber_tests::cards::on_disk::OnDisk;
use harptimber_tests::program::card::{ProgramCard, LONG, ROAD};
use harptimber_tests::program::card::{FULL, FULL_BESIDE_XATTR, INLINE};
use harptimber_tests::program::compare_words::grouped;
use harptimber_tests::program::inline::slots_in;
use harptimber_tests::program::{run, Words};

struct Cards {
    kept: ProgramCard,
    new: OnDisk,
}

impl Cards {
    fn new() -> Cards {
        Cards::of(ProgramCard::build())
    }

    fn of(kept: ProgramCard) -> Cards {
        let new = OnDisk::new(kept.disk.image.clone());
        Cards { kept, new }
    }

    /// The line that tells what changed, if one block of the new image is changed so. JSON says the same.
    fn told(&mut self, name: &[u8], block: u32, change: impl FnOnce(&mut Image)) -> String {
        change(&mut self.new.image);
        self.new.write_blocks(&[block]);
        let paths = [self.kept.disk.path(), self.new.path()];
        let words: Words = &[&"compare", &paths[0], &paths[1], &name];
        let ran = run(words).expect(1);
        let json = run(&[words, &[&"--json"]].concat()).expect(1).json();
        let mut runs = json["runs"].list().iter();
        let difference = runs
            .find_map(|run| run.get("difference"))
            .expect("a change");
        let difference = difference.text().to_string();
        self.new.image.undo(0);
        self.new.write_blocks(&[block]);
        let line = ran.words().lines().last().expect("a line");
        let (blocks, told) = line.split_once(": ").expect("blocks");
        assert!(blocks.starts_with("  block"), "{ran:?}");
        assert_eq!(told, difference, "{json:?}");
        told.to_string()
    }

    /// The same with one byte changed.
    fn told_of_byte(&mut self, name: &[u8], block: u32, at: usize) -> String {
        let byte = self.kept.disk.image.block(block)[at] ^ 1;
        self.told(name, block, |image| image.put("byte", block, at, &[byte]))
    }
}

/// Whether the values are shown: not, or as quantities, decimal, octal or hexadecimal numbers.
#[derive(Clone, Copy)]
enum Shown {
    No,
    Quantity,
    Decimal,
    Octal,
    Hex,
}

/// Fields of struct f2fs_inode and struct node_footer: their first byte, how many there are, and their words.
const FIELDS: [(usize, usize, &str, Shown); 25] = [
    (0, 2, "mode", Shown::Octal),
    (2, 1, "hints", Shown::Hex),
    (4, 4, "owner", Shown::Decimal),
    (8, 4, "group", Shown::Decimal),
    (12, 4, "link count", Shown::Quantity),
    (24, 8, "block count", Shown::Quantity),
    (32, 8, "access time", Shown::No),
    (40, 8, "change time", Shown::No),
    (48, 8, "modification time", Shown::No),
    (56, 4, "access time", Shown::No),
    (60, 4, "change time", Shown::No),
    (64, 4, "modification time", Shown::No),
    (68, 4, "generation", Shown::Decimal),
    (72, 4, "depth", Shown::Quantity),
    (76, 4, "attribute node", Shown::Decimal),
    (80, 4, "flags", Shown::Hex),
    (84, 4, "parent's inode", Shown::Decimal),
    (88, 4, "noted name", Shown::No),
    (92, 255, "noted name", Shown::No),
    (347, 1, "directory level", Shown::Decimal),
    (348, 12, "cached extent", Shown::No),
    (360 + 4 * 900, 4, "address of block 900", Shown::Decimal),
    (4052 + 4 * 3, 4, "node number in slot 3", Shown::Decimal),
    (4084, 8, "checkpoint version", Shown::Hex),
    (4092, 4, "next node's address", Shown::Decimal),
];

/// The number that a field holds before and with its first byte changed.
fn values(image: &Image, block: u32, (at, size, _, shown): (usize, usize, &str, Shown)) -> String {
    let size = size.min(8);
    let field = Field {
        name: "field",
        at,
        size,
    };
    let before = image.get(block, field);
    let [before, now] = [before, before ^ 1].map(|value| match shown {
        Shown::No => String::new(),
        Shown::Quantity => grouped(value),
        Shown::Decimal => format!("{value}"),
        Shown::Octal => format!("{value:06o}"),
        Shown::Hex => format!("{value:#x}"),
    });
    match shown {
        Shown::No => String::new(),
        _ => format!(" ({before} before, {now} now)"),
    }
}

/// Each field of the file's inode.
#[test]
fn inode() {
    let mut cards = Cards::new();
    let ino = cards.kept.file(ROAD).ino;
    let block = cards.kept.card.inode_block(ino);
    for field in FIELDS {
        let (at, size, words, _) = field;
        let values = values(&cards.kept.disk.image, block, field);
        let place = format!("changed in the file's inode (node {ino}, the card's block {block})");
        let told = cards.told_of_byte(ROAD, block, at);
        assert_eq!(told, format!("{words}{values} {place}"), "byte {at}");
        // Its last byte too is that field's.
        let told = cards.told_of_byte(ROAD, block, at + size - 1);
        assert!(told.starts_with(words) && told.ends_with(&place), "{told}");
    }
}

/// Several fields at once, as a write through the file changes them.
#[test]
fn several_fields() {
    let mut cards = Cards::new();
    let file = cards.kept.file(ROAD);
    let (ino, size) = (file.ino, file.size);
    let block = cards.kept.card.inode_block(ino);
    let told = cards.told(ROAD, block, |image| {
        image.set(block, I_SIZE, size + 1);
        for at in [40, 60, 48] {
            let byte = image.block(block)[at] ^ 1;
            image.put("date", block, at, &[byte]);
        }
        for slot in [7, 9, 900] {
            image.put("address", block, 360 + 4 * slot, &[5, 0, 0, 0]);
        }
    });
    let size = format!("size ({} before, {} now)", grouped(size), grouped(size + 1));
    let others = "change time, modification time, address of block 7 (0 before, 5 now) and 2 more";
    assert!(
        told.starts_with(&format!("{size}, {others} changed in the file's inode ")),
        "{told}"
    );
}

/// With another kind of inode its flags are named, and not what they make of the rest.
#[test]
fn inline_flags() {
    let mut cards = Cards::new();
    let block = cards.kept.card.inode_block(cards.kept.file(ROAD).ino);
    let flags = cards.kept.disk.image.get(block, I_INLINE);
    let told = cards.told(ROAD, block, |image| {
        image.set(block, I_INLINE, flags | 2);
        image.put("contents", block, 360, b"contents");
    });
    let words = format!(
        "inline flags ({flags:#x} before, {:#x} now) changed in the file's inode ",
        flags | 2
    );
    assert!(told.starts_with(&words), "{told}");
}

/// The root directory's inode.
#[test]
fn root() {
    let mut cards = Cards::new();
    let block = cards.kept.card.inode_block(3);
    for (at, words) in [
        (32, "access time"),
        (40, "change time"),
        (48, "modification time"),
    ] {
        let told = cards.told_of_byte(ROAD, block, at);
        let place = format!("the root directory's inode (node 3, the card's block {block})");
        assert_eq!(told, format!("{words} changed in {place}"));
    }
}

/// A node that is no inode holds addresses from its first byte on.
#[test]
fn direct_node() {
    let mut cards = Cards::new();
    let ino = cards.kept.file(LONG).ino;
    let node = cards.kept.card.node(ino, 1);
    let told = cards.told(LONG, node.block, |image| {
        image.put("address", node.block, 4 * 1000, &[1, 2, 0, 0]);
    });
    let place = format!(
        "a node of the file (node {}, the card's block {})",
        node.nid, node.block
    );
    assert_eq!(
        told,
        format!("address in slot 1000 (0 before, 513 now) changed in {place}")
    );
}

/// Entries of the directory block that a name is sought in.
#[test]
fn entries() {
    let mut cards = Cards::new();
    let directory = cards.kept.card.directory[&0];
    let place = format!("in the root directory (the card's block {directory})");
    // The last slots of the block are free.
    let name = b"say \"\\so\"\x01";
    let shown = "say \"\\\\so\"\\x01";
    let told = cards.told(ROAD, directory, |image| {
        image.put_dentry(directory, 210, &Dentry::new(name, 77))
    });
    assert_eq!(told, format!("an entry is new ({shown}) {place}"));
    let slot = slot_of(&cards.kept.disk.image, directory, ROAD);
    let told = cards.told(b"4096", directory, |image| {
        image.set_slot_bits(directory, slot, 1, false)
    });
    assert_eq!(told, format!("an entry is gone (road.bin) {place}"));
    let ino = cards.kept.file(ROAD).ino;
    let told = cards.told(b"4096", directory, |image| {
        image.set(directory, in_slot(dentry::INO, slot), u64::from(ino + 1));
    });
    let inodes = format!("inode {ino} before, {} now", ino + 1);
    let changed = format!("an entry changed (road.bin: {inodes}) {place}");
    assert_eq!(told, changed);
    let at = dentry::FILENAMES + dentry::SLOT_LEN * slot;
    let told = cards.told(b"4096", directory, |image| {
        image.put("name", directory, at, b"rail");
    });
    let names = "road.bin before, rail.bin now";
    assert_eq!(told, format!("an entry changed ({names}) {place}"));
    // The three bytes between the map and the entries.
    let told = cards.told_of_byte(ROAD, directory, 28);
    assert_eq!(told, format!("bytes of no entry changed {place}"));
}

/// Entries of an inline root directory: its inode is what changed, and behind that the entry is told.
#[test]
fn inline_entries() {
    for flags in [0, INLINE_XATTR] {
        let mut cards = Cards::of(ProgramCard::in_inline_root(flags));
        let root = cards.kept.card.inode_block(ROOT);
        let place = format!("the root directory's inode (node 3, the card's block {root})");
        let place = format!("inline contents changed in {place}");
        let told = cards.told(ROAD, root, |image| {
            image.put_dentry(slots_in(root), 180, &Dentry::new(b"new\x01", 77))
        });
        assert_eq!(told, format!("{place}: an entry is new (new\\x01)"));
        let slot = inline_slot_of(&cards.kept.disk.image, root, ROAD);
        let told = cards.told(b"4096", root, |image| {
            image.set_slot_bits(slots_in(root), slot, 1, false)
        });
        assert_eq!(told, format!("{place}: an entry is gone (road.bin)"));
        let ino = cards.kept.file(ROAD).ino;
        let told = cards.told(b"4096", root, |image| {
            image.set(
                root,
                IN_INODE.in_slot(dentry::INO, slot),
                u64::from(ino + 1),
            )
        });
        let inodes = format!("inode {ino} before, {} now", ino + 1);
        assert_eq!(
            told,
            format!("{place}: an entry changed (road.bin: {inodes})")
        );
        let told = cards.told(b"4096", root, |image| {
            image.put("name", root, IN_INODE.name_at(slot), b"rail")
        });
        let names = "road.bin before, rail.bin now";
        assert_eq!(told, format!("{place}: an entry changed ({names})"));
        // The seven bytes between the map and the entries.
        for at in [INLINE_AT + 23, INLINE_AT + 29] {
            let told = cards.told_of_byte(ROAD, root, at);
            assert_eq!(told, format!("{place}: bytes of no entry changed"));
        }
    }
}

/// What of an inline root directory is no part of its entries.
#[test]
fn around_inline_entries() {
    for (flags, behind) in [
        (0, "bytes behind the inline contents"),
        (INLINE_XATTR, "inline attributes"),
    ] {
        let mut cards = Cards::of(ProgramCard::in_inline_root(flags));
        let root = cards.kept.card.inode_block(ROOT);
        for (at, words) in [
            (363, "bytes before the inline contents"),
            (3852, behind),
            (4051, behind),
            (40, "change time"),
        ] {
            let told = cards.told_of_byte(ROAD, root, at);
            let place = format!("the root directory's inode (node 3, the card's block {root})");
            assert_eq!(told, format!("{words} changed in {place}"), "byte {at}");
        }
    }
}

/// The inline slot in which an inode has a name.
fn inline_slot_of(image: &Image, inode: u32, name: &[u8]) -> usize {
    let mut slots = 0..IN_INODE.slots;
    let at = |slot: usize| IN_INODE.name_at(slot);
    let found = slots.find(|&slot| image.block(inode)[at(slot)..].starts_with(name));
    found.expect("the name in the inode")
}

/// The slot in which a directory block has a name.
fn slot_of(image: &Image, block: u32, name: &[u8]) -> usize {
    let place = |slot: usize| dentry::FILENAMES + dentry::SLOT_LEN * slot;
    let mut slots = (0..dentry::NR_DENTRY_IN_BLOCK).filter(|&slot| image.slot_bit(block, slot));
    let found = slots.find(|&slot| image.block(block)[place(slot)..].starts_with(name));
    found.expect("the name in the block")
}

/// Bytes of the last block behind the file's end, which a pull reads too, change none of the file's.
#[test]
fn behind_the_end() {
    let mut cards = Cards::new();
    let last = cards.kept.file(ROAD).blocks[&5];
    let byte = cards.kept.disk.image.block(last)[4095] ^ 1;
    cards.new.image.put("byte", last, 4095, &[byte]);
    cards.new.write_blocks(&[last]);
    let ran = run(&[
        &"compare",
        &cards.kept.disk.path(),
        &cards.new.path(),
        &ROAD,
    ])
    .expect(1);
    let line = "road.bin: 1 of 6 blocks has the same bytes but rests on something that changed; 5 are the same";
    let rest = "  block 5: the file's data changed, but only behind its end";
    assert_eq!(ran.words(), format!("{line}\n{rest}\n"));
}

/// What is told last if one byte is changed on a card that has these flags in a file's inode.
fn told_with(name: &[u8], flags: u64, at: usize) -> String {
    let card = ProgramCard::build();
    let mut image = card.disk.image.clone();
    let slot = slot_of(&image, card.card.directory[&0], name);
    let ino = image.get(card.card.directory[&0], in_slot(dentry::INO, slot)) as u32;
    let block = card.card.inode_block(ino);
    image.set(block, I_INLINE, flags);
    if flags & 0x20 != 0 {
        image.put("size of extra attributes", block, 360, &[36, 0]);
    }
    let kept = OnDisk::new(image.clone());
    let byte = image.block(block)[at] ^ 1;
    image.put("byte", block, at, &[byte]);
    let new = OnDisk::new(image);
    let ran = run(&[&"compare", &kept.path(), &new.path(), &name]).expect(1);
    let line = ran.words().lines().last().expect("a line");
    let told = line.rsplit_once(" changed in the file's inode (node ");
    let told = told.unwrap_or_else(|| panic!("of {ran:?}"));
    told.0.trim_start().to_string()
}

/// What stands where an inode usually has its addresses: extra attributes, contents, or attributes.
#[test]
fn instead_of_addresses() {
    let [xattr, data, extra] = [0x01, 0x02, 0x20];
    let cases = [
        (INLINE, extra, 364, "project"),
        (INLINE, extra, 372, "creation time"),
        (INLINE, extra, 383, "creation time"),
        (INLINE, extra, 396, "address of block 0"),
        (
            INLINE,
            extra | data,
            396,
            "bytes before the inline contents",
        ),
        (INLINE, extra | data, 400, "inline contents"),
        (ROAD, xattr, 4051, "blocks 0 to 5: inline attributes"),
        (ROAD, 0, 4051, "blocks 0 to 5: address of block 922"),
    ];
    for (name, flags, at, words) in cases {
        let told = told_with(name, flags, at);
        assert!(told.starts_with(words), "byte {at} with {flags:#x}: {told}");
    }
}

/// The same of inline files, which are read: what changed behind the file's end is none of its contents. The first has 100
/// bytes.
#[test]
fn around_inline_files() {
    let [xattr, data] = [0x01, 0x02];
    let behind = "bytes behind the inline contents";
    let cases = [
        (INLINE, data, 360, "bytes before the inline contents"),
        (INLINE, data, 363, "bytes before the inline contents"),
        (INLINE, data, 364, "inline contents"),
        (INLINE, data, 463, "inline contents"),
        (INLINE, data, 464, behind),
        (INLINE, data, 4051, behind),
        (INLINE, data, 4052, "node number in slot 0 ("),
        (INLINE, data | xattr, 3851, behind),
        (INLINE, data | xattr, 3852, "inline attributes"),
        (FULL, data, 4051, "inline contents"),
        (FULL, data, 4052, "node number in slot 0 ("),
        (FULL_BESIDE_XATTR, data | xattr, 3851, "inline contents"),
        (FULL_BESIDE_XATTR, data | xattr, 3852, "inline attributes"),
        (FULL_BESIDE_XATTR, data | xattr, 4051, "inline attributes"),
    ];
    for (name, flags, at, words) in cases {
        let told = told_with(name, flags, at);
        let words = format!("block 0: {words}");
        let whole = told == words || words.ends_with('(') && told.starts_with(&words);
        assert!(whole, "byte {at} with {flags:#x}: {told}");
    }
}

/// A flag that says nothing of where the bytes are doesn't keep them from being told; and a file that has grown changed up to
/// its new end.
#[test]
fn grown_inline_file() {
    for [before, now] in [[0x02, 0x0A], [0x0A, 0x02]] {
        let mut card = ProgramCard::build();
        let ino = card.file(INLINE).ino;
        let block = card.card.inode_block(ino);
        card.disk.image.set(block, I_INLINE, before);
        card.disk.image.settle("another flag");
        card.disk.write_blocks(&[block]);
        let told = Cards::of(card).told(INLINE, block, |image| {
            image.set_all(block, &[(I_INLINE, now), (I_SIZE, 200)]);
            let byte = image.block(block)[INLINE_AT + 199] ^ 1;
            image.put("byte", block, INLINE_AT + 199, &[byte]);
        });
        let flags = format!("inline flags ({before:#x} before, {now:#x} now)");
        let place = format!("changed in the file's inode (node {ino}, the card's block {block})");
        let size = "size (100 before, 200 now)";
        assert_eq!(told, format!("{flags}, {size}, inline contents {place}"));
    }
}

/// Of many things that changed the first are told, and how many there are besides.
#[test]
fn many_changes() {
    let mut card = ProgramCard::build().card;
    let first = |node: u32| 923 + 1018 * node;
    let ino = card.add_file(0, u64::from(first(12)) * 4096);
    card.link(0, 0, &Dentry::new(b"many", ino));
    let nodes: Vec<_> = (0..12)
        .map(|node| {
            card.add_block(ino, first(node));
            card.way(ino, first(node)).last().unwrap().node
        })
        .collect();
    let kept = OnDisk::new(card.image.clone());
    for node in &nodes {
        let version = card.image.block(node.block)[4084] ^ 1;
        card.image.put("version", node.block, 4084, &[version]);
    }
    let new = OnDisk::new(card.image.clone());
    let ran = run(&[&"compare", &kept.path(), &new.path(), &"many"]).expect(1);
    let lines: Vec<&str> = ran.words().lines().collect();
    let counts = "12,216 of 13,139 blocks have the same bytes but rest on something that changed";
    assert_eq!(lines[0], format!("many: {counts}; 923 are the same"));
    for (line, (n, node)) in lines[1..11].iter().zip((0..).zip(&nodes)) {
        let blocks = format!(
            "  blocks {} to {}: checkpoint version (",
            first(n),
            first(n + 1) - 1
        );
        assert!(line.starts_with(&blocks), "no '{blocks}' in '{line}'");
        let place = format!(" (node {}, the card's block {})", node.nid, node.block);
        assert!(line.ends_with(&place), "no '{place}' in '{line}'");
    }
    assert_eq!(lines[11..], ["  2 more changes; --json has all"]);
    let json = run(&[&"compare", &"--json", &kept.path(), &new.path(), &"many"]).expect(1);
    assert_eq!(json.json()["runs"].list().len(), 13);
}

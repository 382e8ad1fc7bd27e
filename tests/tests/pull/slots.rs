//! Pull: the slots of a directory block and of an inline directory, their entries and names.

use reference::hash::raw_hash;

use harptimber_tests::calls::pulls::{Call, Pulls};
use harptimber_tests::cards::card::ROOT;
use harptimber_tests::cards::directory::{self, Dentry};
use harptimber_tests::cards::layout::dentry::*;
use harptimber_tests::cards::layout::inode::INLINE_DENTRY;
use harptimber_tests::cards::layout::Field;
use harptimber_tests::cards::names::{colliding_names, good_name};
use harptimber_tests::cards::one_file::{Scene, Setting};

/// Slots without entries, and a file: a directory block, the second block of its bucket being a hole, or an inode.
struct Slots {
    scene: Scene,
    place: directory::Slots,
    count: usize,
}

impl Slots {
    fn new(pulls: &mut Pulls, layout: Layout) -> Slots {
        let root_inline = if layout == IN_BLOCK { 0 } else { INLINE_DENTRY };
        let setting = Setting {
            root_inline,
            file_inline: 0,
            size: 1,
        };
        let mut scene = Scene::new(&mut pulls.trial.random, setting);
        assert_eq!(scene.linked.layout, layout);
        scene.card.add_block(scene.ino, 0);
        let place = scene.linked.of();
        scene.card.image.clear_slots(place);
        scene.card.image.settle("no entries");
        Slots {
            scene,
            place,
            count: layout.slots,
        }
    }

    /// In each layout.
    fn both(pulls: &mut Pulls) -> [Slots; 2] {
        LAYOUTS.map(|layout| Slots::new(pulls, layout))
    }

    /// Writes an entry for the file.
    fn put(&mut self, slot: usize, name: &[u8]) {
        let dentry = Dentry::new(name, self.scene.ino);
        self.put_dentry(slot, &dentry);
    }

    fn put_dentry(&mut self, slot: usize, dentry: &Dentry) {
        self.scene.card.image.put_dentry(self.place, slot, dentry);
    }

    fn set_bit(&mut self, slot: usize, set: bool) {
        self.scene.card.image.set_slot_bit(self.place, slot, set);
    }

    fn set(&mut self, field: Field, slot: usize, value: u64) {
        let directory::Slots { block, layout } = self.place;
        let field = layout.in_slot(field, slot);
        self.scene.card.image.set(block, field, value);
    }

    fn set_len(&mut self, slot: usize, len: usize) {
        self.set(NAME_LEN, slot, len as u64);
    }

    fn expect(&self, pulls: &mut Pulls, name: &[u8], answer: u32) {
        pulls.expect(&self.scene.card.image, name, 0, answer);
    }

    fn undo(&mut self) {
        self.scene.card.image.undo(0);
    }
}

/// Each length of a name at the first and at the last slot that it fits, and beyond.
#[test]
fn every_length() {
    let mut pulls = Pulls::new("pull by name length");
    for mut slots in Slots::both(&mut pulls) {
        for len in 1..=LONGEST_NAME {
            let name = good_name(&mut pulls.trial.random, len);
            let last = slots.count - len.div_ceil(SLOT_LEN);
            for slot in [0, 1, last / 2, last] {
                slots.put(slot, &name);
                slots.expect(&mut pulls, &name, 0);
                slots.undo();
            }
            if last + 1 < slots.count {
                slots.put(last + 1, &name);
                slots.expect(&mut pulls, &name, 14);
                slots.undo();
            }
        }
    }
    pulls.finish(2 * (255 * 4 + 247), &[0, 14]);
}

/// The bench sheet: length 8 at slot 213 fits, length 9 is 14. In an inode the last slot is 181.
#[test]
fn last_slot() {
    let mut pulls = Pulls::new("pull by the last slot");
    for (mut slots, last) in Slots::both(&mut pulls).into_iter().zip([213, 181]) {
        for len in 0..=300 {
            let name = good_name(&mut pulls.trial.random, len.clamp(1, LONGEST_NAME));
            let mut dentry = Dentry::new(&name, slots.scene.ino);
            dentry.len = len;
            slots.put_dentry(last, &dentry);
            let answer = if (1..=8).contains(&len) { 0 } else { 14 };
            slots.expect(&mut pulls, &name, answer);
            let missing = if answer == 0 { 2 } else { 14 };
            slots.expect(&mut pulls, b"another name", missing);
            slots.undo();
        }
    }
    pulls.finish(2 * 301 * 2, &[0, 2, 14]);
}

/// Each slot alone. The bit of no other slot makes its entry count.
#[test]
fn every_slot() {
    let mut pulls = Pulls::new("pull by slot");
    for mut slots in Slots::both(&mut pulls) {
        for slot in 0..slots.count {
            let name = good_name(&mut pulls.trial.random, 8);
            slots.put(slot, &name);
            slots.expect(&mut pulls, &name, 0);
            slots.set_bit(slot, false);
            slots.expect(&mut pulls, &name, 2);
            // The bit that would be this slot's if counted from the top, in front of an entry that ends
            // the search.
            let mirrored = slot ^ 7;
            if mirrored < slots.count && mirrored != slot {
                slots.set_bit(mirrored, true);
                slots.set_len(mirrored, 0);
                slots.expect(&mut pulls, &name, 14);
            }
            slots.undo();
        }
    }
    pulls.finish(214 * 2 + 212 + 182 * 2 + 180, &[0, 2, 14]);
}

/// Puts an entry of this length that isn't the one sought: it is malformed or passed by all its slots.
fn expect_other(pulls: &mut Pulls, slots: &mut Slots, slot: usize, len: usize) {
    let name = b"behind";
    let ends = slot + len.div_ceil(SLOT_LEN);
    let malformed = len == 0 || len > LONGEST_NAME || ends > slots.count;
    let mut other = Dentry::new(b"another", ROOT);
    other.len = len;
    slots.put_dentry(slot, &other);
    slots.expect(pulls, name, if malformed { 14 } else { 2 });
    let behind = ends.max(slot + 1);
    if behind < slots.count {
        slots.put(behind, name);
        slots.expect(pulls, name, if malformed { 14 } else { 0 });
    }
    slots.undo();
}

#[test]
fn lengths_of_another_entry() {
    let mut pulls = Pulls::new("pull past an entry by its length");
    let places = [
        [0, 100, 150, 181, 182, 183, 200],
        [0, 100, 118, 149, 150, 151, 181],
    ];
    for (mut slots, places) in Slots::both(&mut pulls).into_iter().zip(places) {
        for slot in places {
            for len in (0..=300).chain([511, 512, 4096, 0x8000, 0xFFFF]) {
                expect_other(&mut pulls, &mut slots, slot, len);
            }
        }
    }
    pulls.finish(2 * (7 * 306 + 4 * 200), &[0, 2, 14]);
}

/// In the slots that an entry takes after its first nothing is looked at, whether or not their bits
/// are set: neither an entry with the name nor a malformed one.
#[test]
fn slots_inside_an_entry() {
    let mut pulls = Pulls::new("pull past the slots of an entry");
    let long = good_name(&mut pulls.trial.random, 40);
    for mut slots in Slots::both(&mut pulls) {
        for (inside, set) in (11..15).flat_map(|inside| [(inside, false), (inside, true)]) {
            slots.put(10, &long);
            slots.put(inside, b"inside");
            slots.set_bit(inside, set);
            slots.expect(&mut pulls, b"inside", 2);
            slots.set_len(inside, 0);
            slots.expect(&mut pulls, b"inside", 2);
            slots.put(15, b"behind");
            slots.expect(&mut pulls, b"behind", 0);
            slots.undo();
        }
    }
    pulls.finish(2 * 4 * 2 * 3, &[0, 2]);
}

/// What comes after the match isn't looked at, what comes before is.
#[test]
fn malformed_before_and_after() {
    let mut pulls = Pulls::new("pull by malformed slots around the match");
    for mut slots in Slots::both(&mut pulls) {
        let last = slots.count - 1;
        for slot in [0, 5, 106, last - 1, last] {
            for malformed in (0..slots.count).filter(|&other| other != slot) {
                slots.put(slot, b"found");
                slots.set_bit(malformed, true);
                slots.set_len(malformed, 0);
                let answer = if malformed < slot { 14 } else { 0 };
                slots.expect(&mut pulls, b"found", answer);
                slots.undo();
            }
        }
    }
    pulls.finish(5 * (213 + 181), &[0, 14]);
}

#[test]
fn near_matches() {
    let mut pulls = Pulls::new("pull by entries that nearly match");
    for mut slots in Slots::both(&mut pulls) {
        for len in (1..=40).chain([200, 254, 255]) {
            let name = good_name(&mut pulls.trial.random, len);
            let right = Dentry::new(&name, slots.scene.ino);
            for dentry in right.near(&mut pulls.trial.random) {
                slots.put_dentry(3, &dentry);
                slots.expect(&mut pulls, &name, 2);
                slots.put_dentry(40, &right);
                slots.expect(&mut pulls, &name, 0);
                slots.undo();
            }
        }
    }
    pulls.finish(2 * 2 * 43 * 33, &[0, 2]);
}

/// Two names with the same hash, each with its own file.
#[test]
fn collisions() {
    let mut pulls = Pulls::new("pull of names with the same hash");
    for len in [4, 8, 16, 17] {
        let [one, other] = colliding_names(&mut pulls.trial.random, len);
        assert_eq!(raw_hash(&one), raw_hash(&other), "hashes of a collision");
        for mut slots in Slots::both(&mut pulls) {
            slots.put_dentry(30, &Dentry::new(&other, ROOT));
            slots.expect(&mut pulls, &one, 2);
            slots.put(20, &one);
            slots.expect(&mut pulls, &one, 0);
            slots.expect(&mut pulls, &other, 12);
        }
    }
    pulls.finish(2 * 4 * 3, &[0, 2, 12]);
}

/// Names that the paper doesn't allow can't be asked for, but may stand in an entry. With a slash between two names a
/// path is asked for.
#[test]
fn bad_names_in_entries() {
    let mut pulls = Pulls::new("pull past bad names");
    for mut slots in Slots::both(&mut pulls) {
        for (bad, answer) in [(b"a\0b".as_slice(), 4), (b"a/b", 2), (b"\0", 4), (b"/", 4)] {
            slots.put(0, bad);
            slots.expect(&mut pulls, bad, answer);
            slots.put(9, b"behind");
            slots.expect(&mut pulls, b"behind", 0);
            slots.undo();
        }
    }
    pulls.finish(2 * 4 * 2, &[0, 2, 4]);
}

/// The dots have hash 0, and are found under no other.
#[test]
fn dots() {
    let mut pulls = Pulls::new("pull of dots");
    for mut slots in Slots::both(&mut pulls) {
        for name in [b".".as_slice(), b".."] {
            for (hash, answer) in [(0, 0), (1, 2), (u32::MAX, 2)] {
                let right = Dentry::new(name, slots.scene.ino);
                slots.put_dentry(7, &Dentry { hash, ..right });
                slots.expect(&mut pulls, name, answer);
                slots.undo();
            }
        }
    }
    pulls.finish(2 * 6, &[0, 2]);
}

/// A file's type in its entry says nothing.
#[test]
fn types() {
    let mut pulls = Pulls::new("pull by the type in an entry");
    for mut slots in Slots::both(&mut pulls) {
        slots.put(2, b"typed");
        for file_type in 0..=0xFF {
            slots.set(FILE_TYPE, 2, file_type);
            slots.expect(&mut pulls, b"typed", 0);
        }
    }
    pulls.finish(2 * 256, &[0]);
}

/// Fills every slot with an entry of its own for the file, and returns their names.
fn fill(slots: &mut Slots, place: directory::Slots) -> Vec<Vec<u8>> {
    let ino = slots.scene.ino;
    let mut names = Vec::new();
    for slot in 0..slots.count {
        let name = format!("{}.{slot:02X}", place.block).into_bytes();
        let image = &mut slots.scene.card.image;
        image.put_dentry(place, slot, &Dentry::new(&name, ino));
        names.push(name);
    }
    names
}

/// Finds each of the names, and misses another one in these blocks.
fn expect_filled(pulls: &mut Pulls, slots: &Slots, names: &[Vec<u8>], blocks: &[u32]) {
    for name in names {
        slots.expect(pulls, name, 0);
    }
    let call = Call::new(&slots.scene.card.image, b"missing", 0);
    pulls.expect_lists(&call, 2, &[ROOT], blocks);
}

/// A block full of entries, with every slot in use, and both blocks of a bucket.
#[test]
fn full_bucket() {
    let mut pulls = Pulls::new("pull from a full bucket");
    let mut slots = Slots::new(&mut pulls, IN_BLOCK);
    let first = slots.place;
    let second = slots.scene.card.bucket_block(0, 0, 1);
    let names = [first, second.into()].map(|block| fill(&mut slots, block));
    slots.scene.card.image.settle("a full bucket");
    let root = slots.scene.root_block();
    let blocks = [root, first.block, second];
    expect_filled(&mut pulls, &slots, &names.concat(), &blocks);
    pulls.finish(2 * 214 + 1, &[0, 2]);
}

/// An inline directory of 182 names, each in one slot.
#[test]
fn full_inode() {
    let mut pulls = Pulls::new("pull from a full inline directory");
    let mut slots = Slots::new(&mut pulls, IN_INODE);
    let place = slots.place;
    let names = fill(&mut slots, place);
    assert_eq!(names.len(), 182);
    slots.scene.card.image.settle("a full inline directory");
    let root = slots.scene.root_block();
    expect_filled(&mut pulls, &slots, &names, &[root]);
    pulls.finish(182 + 1, &[0, 2]);
}

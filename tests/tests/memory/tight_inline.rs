//! The same with an inode that has entries or bytes.

use harptimber_tests::calls::guard_script::Script;
use harptimber_tests::calls::pulls::{lists, Call};
use harptimber_tests::cards::card::{inline_room_by, Card, ROOT};
use harptimber_tests::cards::directory::Dentry;
use harptimber_tests::cards::image::Image;
use harptimber_tests::cards::knobs::Knobs;
use harptimber_tests::cards::layout::dentry::{IN_INODE, NAME_LEN};
use harptimber_tests::cards::layout::inode::{
    INLINE_DATA, INLINE_DENTRY, INLINE_XATTR, I_INLINE, I_SIZE,
};
use harptimber_tests::program::inline::{put_inline, slots_in};
use harptimber_tests::trial::Random;

use crate::tight::NAME;

/// Copies an inode to the end of the main area, and leads there. Returns that block.
pub(crate) fn move_to_end(card: &mut Card, ino: u32) -> u32 {
    let last = card.image.areas.main_end - 1;
    let bytes = card.image.block(card.inode_block(ino)).to_vec();
    card.image.put("moved inode", last, 0, &bytes);
    card.set_entry(ino, ino, last);
    last
}

/// A card that ends with its main area, with an inline file in an inline root directory.
pub(crate) struct TightInline {
    pub card: Card,
    ino: u32,
}

impl TightInline {
    pub fn new() -> TightInline {
        let mut card = Card::new(Knobs::sound(), Random::new(4));
        card.add_root(INLINE_DENTRY, 1);
        let ino = put_inline(&mut card, NAME, 0, 100).ino;
        card.image
            .settle("an inline file in an inline root directory");
        TightInline { card, ino }
    }

    pub fn move_to_end(&mut self, ino: u32) -> u32 {
        move_to_end(&mut self.card, ino)
    }

    /// The file's inode at the image's end: contents up to the end of the room there, and sizes that claim more.
    fn files(&mut self, script: &mut Script) {
        let sound = self.card.image.clone();
        for flags in [0, INLINE_XATTR] {
            let room = inline_room_by(flags) as u64;
            for size in [0, 1, room - 1, room, room + 1, 4096, u64::MAX] {
                let last = self.move_to_end(self.ino);
                let fields = [(I_INLINE, INLINE_DATA | flags), (I_SIZE, size)];
                self.card.image.set_all(last, &fields);
                let answers =
                    [0, 1].map(|index| script.pull(&sound, &self.card.image, NAME, index));
                let expected = match size {
                    0 => [3, 3],
                    _ if size <= room => [0, 3],
                    _ => [12, 12],
                };
                assert_eq!(answers, expected, "size {size} with flags {flags}");
                self.card.image.undo(0);
            }
        }
    }

    /// The root's inode there, with entries in its last slots that fit and that don't.
    fn slots(&mut self, script: &mut Script) {
        let sound = self.card.image.clone();
        let long = [b'x'; 255];
        for (name, len) in [(NAME, 8), (NAME, 9), (NAME, 0), (NAME, 65535), (&long, 255)] {
            for from_end in [1, 2, 31, 32, 33, IN_INODE.slots] {
                let last = self.move_to_end(ROOT);
                let (slot, image) = (IN_INODE.slots - from_end, &mut self.card.image);
                image.clear_slots(slots_in(last));
                image.put_dentry(slots_in(last), slot, &Dentry::new(name, self.ino));
                image.set(last, IN_INODE.in_slot(NAME_LEN, slot), len);
                let fits = (1..=255).contains(&len) && len.div_ceil(8) <= from_end as u64;
                let found = fits && len as usize == name.len();
                let answer = script.pull(&sound, image, name, 0);
                let expected = if found { 0 } else { [14, 2][usize::from(fits)] };
                assert_eq!(answer, expected, "{len} bytes in slot {slot}");
                image.undo(0);
            }
        }
    }

    pub fn calls(&mut self, script: &mut Script) {
        script.card(&self.card.image);
        self.files(script);
        self.slots(script);
    }

    /// With the file's inode as the image's last block for good.
    pub fn ending_with_file() -> Image {
        let mut tight = TightInline::new();
        let last = tight.move_to_end(tight.ino);
        tight.card.image.settle("an inline file at the end");
        let (_, blocks) = lists(&Call::new(&tight.card.image, NAME, 0));
        assert_eq!(blocks.last(), Some(&last));
        tight.card.image
    }
}

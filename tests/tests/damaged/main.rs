//! Damaged volumes: a pack that is marked as one, or whose NAT journal names a number twice, isn't read.

mod marks;
mod orders;
mod packs;
mod random;
mod sides;
mod twins;

use harptimber_tests::calls::compares::Kept;
use harptimber_tests::calls::every_call::{Content, Sound};
use harptimber_tests::calls::lookups::{distinct_entry, journalled};
use harptimber_tests::calls::segments::Report;
use harptimber_tests::cards::card::{Card, Node, ROOT};
use harptimber_tests::cards::image::Image;
use harptimber_tests::cards::knobs::{Knobs, Pack};
use harptimber_tests::cards::layout::journal::JournalEntry;
use harptimber_tests::cards::layout::nat::{NatEntry, ENTRIES_PER_BLOCK};
use harptimber_tests::cards::layout::sit::SitEntry;
use harptimber_tests::cards::layout::sit_journal::SitJournalEntry;
use harptimber_tests::cards::layout::BLOCK_SIZE;
use harptimber_tests::cards::one_file::{Scene, Setting, NAME};
use harptimber_tests::trial::Random;

const PACKS: [usize; 2] = [0, 1];

/// Each kind of pack, in one of the two places.
fn kinds() -> impl Iterator<Item = (usize, Pack)> {
    PACKS.into_iter().cycle().zip(Pack::kinds())
}

/// The same in either.
fn kinds_in_both() -> impl Iterator<Item = (usize, Pack)> {
    PACKS
        .into_iter()
        .flat_map(|which| Pack::kinds().map(|pack| (which, pack)))
}

/// A block behind the first direct node of 923 addresses.
const INDEX: u32 = 1000;

/// A card with something to read for every call: a file with a block, and one segment.
struct Volume {
    scene: Scene,
    content: Content,
}

impl Volume {
    /// With this pack alone. Its SIT journal has the segment twice, of which the first decides.
    fn new(which: usize, pack: Pack) -> Volume {
        let pack = Pack {
            nat_map: vec![0xA5; 64],
            sit_map: vec![0; 64],
            sit_journal: Some(sit_twins(300)),
            ..pack
        };
        let knobs = Knobs::sound().with_pack(which, pack);
        let setting = Setting {
            root_inline: 0,
            file_inline: 0,
            size: (u64::from(INDEX) + 1) * BLOCK_SIZE as u64,
        };
        let mut scene = Scene::on(Card::new(knobs, Random::new(1)), setting);
        let data = scene.card.add_block(scene.ino, INDEX);
        let content = content(&scene.card, data, 300);
        scene.card.image.settle("a block behind a direct node");
        Volume { scene, content }
    }

    /// The same whose nodes are in the journal; by the table they are elsewhere.
    fn journalled(which: usize, pack: Pack) -> Volume {
        let mut volume = Volume::new(which, pack);
        let card = &mut volume.scene.card;
        let nodes: Vec<u32> = card.nodes().map(|(_, node)| node.nid).collect();
        card.journal(&nodes);
        card.image.settle("nodes in the journal");
        volume
    }

    /// A journal's word on a number that is the table's word too, if the table has the number.
    fn entry(&self, nid: u32) -> JournalEntry {
        let card = &self.scene.card;
        let entry = match nid < card.node_numbers {
            true => {
                let copy = card.pack.nat_copy(nid / ENTRIES_PER_BLOCK);
                card.image.nat_entry(nid, copy)
            }
            false => distinct_entry(nid % 1000),
        };
        journalled(nid, entry)
    }

    /// As many entries, each for a number of its own. Those of the volume's nodes are among them.
    fn journal(&mut self, entries: usize) -> Vec<JournalEntry> {
        let card = &mut self.scene.card;
        let mut numbers: Vec<u32> = card.nodes().map(|(_, node)| node.nid).collect();
        numbers.extend(card.free_numbers(entries.saturating_sub(numbers.len())));
        // The root's isn't the first.
        numbers.rotate_left(2);
        let numbers = &numbers[..entries];
        numbers.iter().map(|&nid| self.entry(nid)).collect()
    }

    /// Tries changes to a copy of the card.
    fn try_changes(&self, changes: impl FnOnce(&mut Image, &Sound)) {
        let kept = &self.scene.card.image;
        changes(&mut kept.clone(), &sound(kept, &self.content));
    }
}

fn sound<'a>(image: &'a Image, content: &'a Content) -> Sound<'a> {
    let kept = Kept::new(image, NAME, INDEX);
    Sound { content, kept }
}

/// Two entries for segment 0. By the first it is off and has so many valid blocks.
fn sit_twins(blocks: u32) -> Vec<SitJournalEntry> {
    let entries = [SitEntry::counted(1, blocks), SitEntry::filled(7)];
    let twins = entries.map(|entry| SitJournalEntry { segno: 0, entry });
    twins.to_vec()
}

/// By what was written to a card last.
fn content(card: &Card, data: u32, valid_blocks: u32) -> Content {
    let entry = |(ino, Node { nid, block }): (u32, Node)| {
        let entry = NatEntry {
            version: 0,
            ino,
            block_addr: block,
        };
        (nid, entry)
    };
    let content = Content {
        data: card.image.block(data).to_vec(),
        entries: card.nodes().map(entry).collect(),
        report: Report::of(&[0], valid_blocks),
    };
    assert!(content.entries.iter().any(|&(nid, _)| nid == ROOT));
    content
}

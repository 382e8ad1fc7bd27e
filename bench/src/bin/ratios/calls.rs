//! The archive's calls on cards of three sizes, beside the reference's.

use crate::cards::*;
use crate::{keeps, segments};
use harptimber_bench::agreed::Agreed;
use harptimber_bench::grid::{contender, Contender, Grid, Often};
use harptimber_bench::pulls::{pulling, Lent, BLOCKS, BLOCK_SIZE, NODES};
use harptimber_tests::calls::compares::stored;
use reference::compare::compare as reference_compare;
use reference::lookup::node_lookup as reference_lookup;
use std::collections::BTreeSet;
use std::hint::black_box;
use std::ops::Range;

/// All rounds together pull every block of the file once.
pub const OFTEN: Often = Often {
    rounds: 64,
    warm: 0,
    calls: ROAD_BLOCKS as usize / 64,
};
/// For calls that take longer.
pub const LONGER: Often = Often { calls: 16, ..OFTEN };

/// Sides beyond the archive and the reference.
pub const SAME_BLOCK: usize = 2;
pub const MEMCMP: usize = 2;
pub const PULL: usize = 2;
pub const COMPARE: usize = 2;

/// The calls on every card.
pub struct Calls {
    pub single: Grid,
    pub inline: Grid,
    pub eight_names: Grid,
    pub in_order: Grid,
    /// On the cards that have a file so long.
    pub indirect: Grid,
    pub lookup: Grid,
    pub compare: Grid,
    pub segments: Grid,
    pub keep: Grid,
    pub keep_read: Grid,
    pub check: Grid,
    pub full_check: Grid,
}

impl Calls {
    pub fn on(cards: &[Card], agreed: &mut Agreed) -> Calls {
        Calls {
            single: single(cards),
            inline: inline(cards),
            eight_names: eight_names(cards),
            in_order: in_order(cards),
            indirect: indirect(&cards[WITHOUT_SURVEY..]),
            lookup: lookup(cards, agreed),
            compare: compare(cards, agreed),
            segments: report(cards, agreed),
            keep: keep(cards, agreed),
            keep_read: keep_read(cards, agreed),
            check: check(OFTEN, cards, Listed::by_pull, agreed),
            full_check: check(LONGER, cards, Listed::full, agreed),
        }
    }

    pub fn on_all_cards(&self) -> [(&str, &Grid); 8] {
        [
            ("single pull, block in the inode", &self.single),
            ("pull of a small file, inline", &self.inline),
            ("pull of eight names", &self.eight_names),
            ("pulls of a whole file, in order", &self.in_order),
            ("node lookup", &self.lookup),
            ("compare, full list, all the same", &self.compare),
            ("keep, block in the inode", &self.keep),
            ("check of a keep file, full list", &self.full_check),
        ]
    }
}

fn by_card<'a>(
    often: Often,
    cards: &'a [Card],
    sides: impl FnMut(&'a Card) -> Vec<Contender<'a>>,
) -> Grid {
    Grid::of(often, cards.iter().map(sides).collect())
}

/// Both sides pull these blocks of a file.
fn pulls<'a>(card: &'a Card, name: &'a str, indexes: Range<u32>) -> Vec<Contender<'a>> {
    let side = |pull| pulling(pull, card.image, name, indexes.clone());
    PULLS.map(side).into()
}

/// A pull of a block that stands in the inode.
fn single(cards: &[Card]) -> Grid {
    by_card(OFTEN, cards, |card| pulls(card, ROAD, 0..1))
}

/// A pull of a file whose bytes are in its inode.
fn inline(cards: &[Card]) -> Grid {
    by_card(OFTEN, cards, |card| pulls(card, TABLE, 0..1))
}

/// A pull of a file that is in seven folders, one in the other.
fn eight_names(cards: &[Card]) -> Grid {
    by_card(OFTEN, cards, |card| pulls(card, LAP, 0..1))
}

/// Pulls of every block of a file; then, by the archive, as many pulls of its first block.
fn in_order(cards: &[Card]) -> Grid {
    by_card(OFTEN, cards, |card| {
        let mut sides = pulls(card, ROAD, 0..ROAD_BLOCKS);
        sides.push(pulls(card, ROAD, 0..1).swap_remove(ARCHIVE));
        sides
    })
}

/// Pulls of blocks behind an indirect node.
fn indirect(cards: &[Card]) -> Grid {
    by_card(OFTEN, cards, |card| {
        pulls(card, SURVEY, FIRST_INDIRECT..SURVEY_BLOCKS)
    })
}

/// A lookup of a file's inode.
fn lookup(cards: &[Card], agreed: &mut Agreed) -> Grid {
    by_card(OFTEN, cards, |card| {
        let [nodes, _] = rested_on(card);
        let inode = *nodes.last().expect("an inode");
        let what = format!("a lookup on {}", card.size());
        lookups(card.image, inode, &what, agreed)
    })
}

/// Both sides look up a number.
pub fn lookups<'a>(
    image: &'a [u8],
    number: u32,
    what: &str,
    agreed: &mut Agreed,
) -> Vec<Contender<'a>> {
    let archive = move || harptimber_tests::node_lookup(black_box(image), number);
    let reference = move || reference_lookup(black_box(image), number);
    let found = archive();
    let same = found.answer == 0 && reference() == Ok((found.inode, found.address));
    agreed.see(same, what);
    vec![contender(archive), contender(reference)]
}

/// Both sides pull a file's first block, which has data.
pub fn first_block<'a>(
    image: &'a [u8],
    name: &'a str,
    what: &str,
    agreed: &mut Agreed,
) -> Vec<Contender<'a>> {
    same_pulls(image, name, 0, what, agreed)
}

/// Both sides pull a file's first block and have to give this answer, and the same numbers, bytes and lists.
pub fn same_pulls<'a>(
    image: &'a [u8],
    name: &'a str,
    answer: u32,
    what: &str,
    agreed: &mut Agreed,
) -> Vec<Contender<'a>> {
    let [archive, reference] = PULLS.map(|pull| {
        let mut lent = Lent::default();
        (pull(image, name.as_bytes(), 0, &mut lent), lent)
    });
    agreed.see(archive.0.answer == answer && archive == reference, what);
    PULLS.map(|pull| pulling(pull, image, name, 0..1)).into()
}

/// What a compare is made on.
pub struct Listed {
    pub nodes: Vec<u32>,
    pub blocks: Vec<u32>,
}

impl Listed {
    /// The lists of one pull.
    fn by_pull(card: &Card) -> Listed {
        let mut lent = Lent::default();
        let pulled = PULLS[ARCHIVE](card.image, ROAD.as_bytes(), 0, &mut lent);
        Listed {
            nodes: numbers(&lent.nodes, pulled.node_count).collect(),
            blocks: numbers(&lent.blocks, pulled.block_count).collect(),
        }
    }

    /// Lists that are as long as those of one name can be.
    fn full(card: &Card) -> Listed {
        let [_, blocks] = rested_on(card);
        let nodes = (1..=NODES).collect();
        let blocks: Vec<u32> = blocks.into_iter().collect();
        assert_eq!(blocks.len(), BLOCKS as usize);
        Listed { nodes, blocks }
    }

    /// The answer of compares of a card with its copy, by the archive and by the reference.
    fn compares<'a>(&self, card: &'a Card) -> [Box<dyn Fn() -> u32 + 'a>; 2] {
        let counts = [&self.nodes, &self.blocks].map(|list| list.len() as u32);
        let lists = [&self.nodes, &self.blocks].map(|list| stored(list));
        let again = lists.clone();
        let [nodes, blocks] = counts;
        let archive = move || {
            let (kept, fresh) = (black_box(card.image), black_box(card.copy));
            harptimber_tests::compare(kept, fresh, &lists[0], nodes, &lists[1], blocks).answer
        };
        let reference = move || {
            let (kept, fresh) = (black_box(card.image), black_box(card.copy));
            reference_compare(kept, fresh, &again[0], nodes, &again[1], blocks).answer
        };
        [Box::new(archive), Box::new(reference)]
    }
}

/// A compare of a full list, all the same; then memcmp over the same blocks beside two openings.
fn compare(cards: &[Card], agreed: &mut Agreed) -> Grid {
    by_card(LONGER, cards, |card| {
        let listed = Listed::full(card);
        let [archive, reference] = listed.compares(card);
        let memcmp = move || memcmp(card.image, card.copy, &listed.blocks);
        let same = (archive(), reference(), memcmp()) == (15, 15, true);
        agreed.see(same, &format!("a compare on {}", card.size()));
        vec![contender(archive), contender(reference), contender(memcmp)]
    })
}

/// The keep file of a block that stands in the inode; then, by the archive, the pull of that block.
fn keep(cards: &[Card], agreed: &mut Agreed) -> Grid {
    by_card(OFTEN, cards, |card| {
        let what = format!("a keep file on {}", card.size());
        let mut sides = keeps::writers(card.image, ROAD, &what, agreed);
        sides.push(pulls(card, ROAD, 0..1).swap_remove(ARCHIVE));
        sides
    })
}

/// The read of a keep file with full lists.
fn keep_read(cards: &[Card], agreed: &mut Agreed) -> Grid {
    by_card(OFTEN, cards, |card| {
        let file = keeps::file(card.image, ROAD, &Listed::full(card));
        let what = format!("a keep file's numbers on {}", card.size());
        keeps::readers(file, &what, agreed)
    })
}

/// The check of a keep file on a card's copy, all the same; then, by the archive, a compare of both on the same lists.
fn check(often: Often, cards: &[Card], listed: fn(&Card) -> Listed, agreed: &mut Agreed) -> Grid {
    by_card(often, cards, |card| {
        let listed = listed(card);
        let [compare, _] = listed.compares(card);
        let file = keeps::file(card.image, ROAD, &listed);
        let what = format!("the check of a keep file on {}", card.size());
        let mut sides = keeps::checks(file, card.copy, &what, agreed);
        agreed.see(compare() == 15, &what);
        sides.push(contender(compare));
        sides
    })
}

/// A report of all main segments.
fn report(cards: &[Card], agreed: &mut Agreed) -> Grid {
    by_card(LONGER, cards, |card| {
        let what = format!("a segment report on {}", card.size());
        segments::sides(card.image, &what, agreed)
    })
}

/// Nodes and blocks that pulls of a file rest on, as many blocks as a full list of one name has.
fn rested_on(card: &Card) -> [BTreeSet<u32>; 2] {
    let (mut lent, mut nodes, mut blocks) = (Lent::default(), BTreeSet::new(), BTreeSet::new());
    let mut indexes = 0..ROAD_BLOCKS;
    while blocks.len() < BLOCKS as usize {
        let index = indexes.next().expect("blocks for a full list");
        let pulled = PULLS[ARCHIVE](card.image, ROAD.as_bytes(), index, &mut lent);
        nodes.extend(numbers(&lent.nodes, pulled.node_count));
        blocks.extend(numbers(&lent.blocks, pulled.block_count));
    }
    [nodes, blocks]
}

fn numbers(list: &[u8], count: u32) -> impl Iterator<Item = u32> + '_ {
    let number = |stored: &[u8]| u32::from_le_bytes(stored.try_into().expect("four bytes"));
    list.chunks_exact(4).map(number).take(count as usize)
}

/// Whether the listed blocks are equal. An opening is a lookup of number 0, which opens and answers 9.
fn memcmp(kept: &[u8], fresh: &[u8], blocks: &[u32]) -> bool {
    let opened = [kept, fresh].map(|image| harptimber_tests::node_lookup(image, 0).answer);
    let same = blocks.iter().all(|&number| {
        let place = number as usize * BLOCK_SIZE..(number as usize + 1) * BLOCK_SIZE;
        black_box(&kept[place.clone()]) == black_box(&fresh[place])
    });
    opened == [9, 9] && same
}

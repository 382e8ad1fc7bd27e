//! Random damage to what a pull comes by after opening.

use crate::cards::card::{Card, Passage, ROOT};
use crate::cards::damage::{altered, Damage};
use crate::cards::image::Image;
use crate::cards::layout::dentry::{self, Layout, LAYOUTS, SLOT_LEN};
use crate::cards::layout::inode::{I_CURRENT_DEPTH, I_INLINE, I_MODE, I_SIZE, S_IFDIR, S_IFREG};
use crate::cards::layout::{footer, inode, nat, slots, Field, BLOCK_SIZE};
use crate::cards::random::pick;
use crate::cards::random_files::Target;
use crate::trial::Random;

/// Gives a number of a block a new value, whatever it is a block of.
pub fn strike_block(image: &mut Image, block: u32, random: &mut Random) {
    let layout = pick(random, &LAYOUTS);
    let slot = random.below(layout.slots as u64) as usize;
    let any = slots::ADDR_OR_NID.moved(slots::SIZE * random.below(slots::PER_NODE) as usize);
    let field = match random.below(6) {
        0 => pick(random, footer::ALL),
        1 => pick(random, inode::ALL),
        2 => slots::I_ADDR,
        3 => layout.in_slot(pick(random, dentry::ALL), slot % 8),
        4 => layout.map_byte(slot),
        _ => any,
    };
    let areas = image.areas;
    let likely = [0, areas.main, areas.main_end, block, u32::MAX].map(u64::from);
    let value = altered(random, image.get(block, field), field, &likely);
    image.set(block, field, value);
}

/// Damages what a card is opened by, once in so many times, or else something on the way of a pull.
pub fn strike_either(
    card: &mut Card,
    opening: (&Damage, u64),
    target: &Target,
    random: &mut Random,
) {
    let (damage, once_in) = opening;
    match random.below(once_in) {
        0 => damage.strike(&mut card.image, random),
        _ => strike(card, target, random),
    }
}

/// A number to damage, and values that it is likely to be taken wrongly with.
struct Aim {
    block: u32,
    field: Field,
    likely: Vec<u64>,
}

/// Gives one number on the way of a pull a new value.
fn strike(card: &mut Card, target: &Target, random: &mut Random) {
    let Aim {
        block,
        field,
        likely,
    } = match random.below(5) {
        0 => table_entry(card, target, random),
        1 => node_footer(target, random),
        2 => inode_number(target, random),
        3 => slot(card, target, random),
        _ => directory_number(card, target, random),
    };
    let value = altered(random, card.image.get(block, field), field, &likely);
    card.image.set(block, field, value);
}

fn passage(target: &Target, random: &mut Random) -> Passage {
    pick(random, &target.passages)
}

/// Numbers of this pull's nodes, and those at the ends of the table.
fn numbers(card: &Card, target: &Target) -> Vec<u64> {
    let ends = [0, 1, card.node_numbers - 1, card.node_numbers];
    let nodes = target.passages.iter().map(|passage| passage.node.nid);
    nodes.chain(ends).map(u64::from).collect()
}

/// Blocks of this pull, and those at the ends of the main area.
fn addresses(card: &Card, target: &Target) -> Vec<u64> {
    let areas = card.image.areas;
    let (main, end) = (areas.main, areas.main_end);
    let ends = [0, main - 1, main, end - 1, end, u32::MAX];
    let nodes = target.passages.iter().map(|passage| passage.node.block);
    let entries = target.entries.iter().map(|entry| entry.block);
    nodes.chain(entries).chain(ends).map(u64::from).collect()
}

fn table_entry(card: &Card, target: &Target, random: &mut Random) -> Aim {
    let (block, at) = card.entry_place(passage(target, random).node.nid);
    let field = pick(random, nat::ALL);
    let likely = match field {
        nat::BLOCK_ADDR => addresses(card, target),
        _ => numbers(card, target),
    };
    Aim {
        block,
        field: field.moved(at),
        likely,
    }
}

fn node_footer(target: &Target, random: &mut Random) -> Aim {
    let places = target.passages.iter().map(|passage| passage.place);
    let flags = places.map(|place| u64::from(place) << footer::OFFSET_BIT_SHIFT);
    let flag_bits = (0..3).map(|bit| 1 << bit);
    Aim {
        block: passage(target, random).node.block,
        field: pick(random, footer::ALL),
        likely: flags.chain(flag_bits).chain([u64::from(ROOT)]).collect(),
    }
}

fn inode_number(target: &Target, random: &mut Random) -> Aim {
    let field = pick(random, inode::ALL);
    let start = u64::from(target.index) * BLOCK_SIZE as u64;
    let likely = match field {
        I_MODE => (0..16)
            .map(|kind| kind << 12)
            .chain([S_IFDIR, S_IFREG])
            .collect(),
        // Each bit alone, and mixes of those that say what stands in the inode.
        I_INLINE => (0..8).map(|bit| 1 << bit).chain(1..8).collect(),
        I_SIZE => [0, 1, 4095, 4096, 4097]
            .map(|more| start + more)
            .into_iter()
            .chain([3487, 3488, 3489, 3687, 3688, 3689])
            .collect(),
        I_CURRENT_DEPTH => vec![0, 1, 2, 29, 30, 31, 62, 63, 64, 256],
        // The directory's level.
        _ => vec![0, 1, 2, 22, 23, 29, 30, 31, 32, 0x80, 0xFF],
    };
    Aim {
        block: pick(random, &target.inodes),
        field,
        likely,
    }
}

/// A slot on the way, whether it has a number or an address.
fn slot(card: &Card, target: &Target, random: &mut Random) -> Aim {
    let Passage { node, slot, .. } = passage(target, random);
    Aim {
        block: node.block,
        field: slot,
        likely: [numbers(card, target), addresses(card, target)].concat(),
    }
}

/// In a directory's slots: a byte of the map, a number of an entry or a byte of a name.
fn directory_number(card: &Card, target: &Target, random: &mut Random) -> Aim {
    let linked = pick(random, &target.entries);
    let layout = linked.layout;
    let any_slot = random.below(layout.slots as u64) as usize;
    let slot = pick(random, &[linked.slot, linked.slot, linked.slot, any_slot]);
    let field = match random.below(4) {
        0 => layout.map_byte(slot),
        1 => name_byte(layout, slot, random),
        _ => layout.in_slot(pick(random, dentry::ALL), slot),
    };
    let lens = [0, 1, 7, 8, 9, 255, 256, target.name.len() as u64];
    let hash = u64::from(reference::hash::raw_hash(&target.name));
    Aim {
        block: linked.block,
        field,
        likely: [numbers(card, target), lens.to_vec(), vec![hash]].concat(),
    }
}

fn name_byte(layout: Layout, slot: usize, random: &mut Random) -> Field {
    Field {
        name: "byte of a name",
        at: layout.name_at(slot) + random.below(SLOT_LEN as u64) as usize,
        size: 1,
    }
}

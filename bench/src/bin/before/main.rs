//! Prints the times of calls as parts of what the same calls take by an earlier archive, and those of the program as
//! parts of what an earlier one takes. `bench/before` gets both, and builds this program with the archive.

mod archives;
#[allow(dead_code)] // not every card is made
#[path = "../ratios/cards.rs"]
mod cards;
mod depths;
#[path = "../ratios/journalled.rs"]
mod journalled;
#[allow(dead_code)] // not every root is pulled from
#[path = "../ratios/roots.rs"]
mod roots;
mod slots;
mod whole;

use archives::{Archive, ARCHIVES, BEFORE, NOW};
use harptimber_bench::agreed::Agreed;
use harptimber_bench::grid::{contender, Contender, Grid, Often};
use harptimber_bench::pulls::Lent;
use harptimber_bench::table::Table;
use harptimber_tests::cards::knobs::Pack;
use harptimber_tests::cards::layout::checkpoint::CP_UMOUNT_FLAG;
use harptimber_tests::cards::layout::journal::MOST_ENTRIES;
use harptimber_tests::Pulled;
use journalled::{journalled, Journalled, NAME};
use std::env;
use std::hint::black_box;
use std::process::ExitCode;

/// Few calls in a row, so that what slows the machine slows all contenders alike.
const OFTEN: Often = Often {
    rounds: 400,
    warm: 2,
    calls: 50,
};

/// The columns: an empty journal and a full one.
const ENTRIES: [usize; 2] = [0, MOST_ENTRIES];

/// The numbers that a call returns, the answer first.
type Numbers = [u32; 4];
type Call<C> = fn(&Archive, &C, &mut Lent) -> Numbers;

/// The rows, each with the answer of both sides.
const ROWS: [(&str, Call<Card>, u32); 4] = [
    ("pull", pull, 0),
    ("lookup", lookup, 0),
    ("compare of what the pull listed", compare, 15),
    ("segment report", segment_report, 0),
];

/// A card, a copy of it, and a pull of its file.
struct Card {
    kept: Journalled,
    fresh: Vec<u8>,
    pulled: Pulled,
    lists: Lent,
}

fn main() -> ExitCode {
    let earlier = env::args().nth(1).expect("what the earlier archive is");
    let mut agreed = Agreed::default();
    print_by_entries(&earlier, &mut agreed);
    depths::print(&earlier, &mut agreed);
    slots::print(&earlier, &mut agreed);
    if let Some(program) = env::args_os().nth(2) {
        whole::print(&earlier, program.into(), &mut agreed);
    }
    agreed.finish()
}

fn print_by_entries(earlier: &str, agreed: &mut Agreed) {
    let cards = ENTRIES.map(card);
    let mut table = Table::new(ENTRIES.iter().map(usize::to_string));
    for (label, call, answer) in ROWS {
        let columns = ENTRIES.iter().zip(&cards).map(|(entries, card)| {
            let what = format!("{label} with {entries} entries");
            agreed.see(is_same(call, card, answer), &what);
            sides(call, card)
        });
        let grid = Grid::of(OFTEN, columns.collect());
        table.row(label, &grid.parts(NOW, BEFORE));
    }
    table.print(&format!(
        "The archive beside an earlier one, {earlier}, by entries of the NAT journal
   its time as a part of the earlier one's, in this run; lower is better, below 1 is faster"
    ));
}

fn card(entries: usize) -> Card {
    let kept = journalled(&Pack::plain(1, CP_UMOUNT_FLAG), entries);
    let mut lists = Lent::default();
    let (block, nodes, blocks) = (&mut lists.block, &mut lists.nodes, &mut lists.blocks);
    let pulled = harptimber_tests::pull(&kept.image, NAME.as_bytes(), 0, block, nodes, blocks);
    Card {
        fresh: kept.image.clone(),
        kept,
        pulled,
        lists,
    }
}

/// Whether both give this answer, the same numbers and the same bytes.
fn is_same<C: ?Sized>(call: Call<C>, card: &C, answer: u32) -> bool {
    let [now, before] = ARCHIVES.each_ref().map(|archive| {
        let mut lent = Lent::default();
        (call(archive, card, &mut lent), lent)
    });
    now.0[0] == answer && now == before
}

fn sides<C: ?Sized>(call: Call<C>, card: &C) -> Vec<Contender<'_>> {
    let side = |archive| {
        let mut lent = Lent::default();
        contender(move || call(archive, black_box(card), &mut lent))
    };
    ARCHIVES.each_ref().map(side).into()
}

fn pull(archive: &Archive, card: &Card, lent: &mut Lent) -> Numbers {
    pull_from(archive, &card.kept.image, NAME, lent)
}

fn pull_from(archive: &Archive, image: &[u8], name: &str, lent: &mut Lent) -> Numbers {
    let (block, nodes, blocks) = (&mut lent.block, &mut lent.nodes, &mut lent.blocks);
    let it = (archive.pull)(image, name.as_bytes(), 0, block, nodes, blocks);
    [it.answer, it.byte_count, it.node_count, it.block_count]
}

fn lookup(archive: &Archive, card: &Card, _: &mut Lent) -> Numbers {
    let it = (archive.node_lookup)(&card.kept.image, card.kept.inode);
    [it.answer, it.inode, it.address, 0]
}

fn compare(archive: &Archive, card: &Card, _: &mut Lent) -> Numbers {
    let (Lent { nodes, blocks, .. }, pulled) = (&card.lists, card.pulled);
    let (kept, fresh) = (&card.kept.image, &card.fresh);
    let counts = (pulled.node_count, pulled.block_count);
    let it = (archive.compare)(kept, fresh, nodes, counts.0, blocks, counts.1);
    [it.answer, it.side, it.kind, it.number]
}

/// The card has one main segment, and any list room for it.
fn segment_report(archive: &Archive, card: &Card, lent: &mut Lent) -> Numbers {
    let it = (archive.segment_report)(&card.kept.image, &mut lent.blocks);
    [it.answer, it.count, it.valid_blocks, 0]
}

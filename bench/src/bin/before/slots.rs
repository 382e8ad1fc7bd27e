//! Pulls of a name that is nowhere, by what the blocks hold in which it is sought.

use crate::archives::{Archive, BEFORE, NOW};
use crate::roots::{by_held, unsearched, HELD, NAME};
use crate::{is_same, pull_from, sides, Numbers, OFTEN};
use harptimber_bench::agreed::Agreed;
use harptimber_bench::grid::Grid;
use harptimber_bench::pulls::Lent;
use harptimber_bench::table::Table;

/// One bucket; the most hash levels whose blocks all stand in the inode; all that lie within a file.
const DEPTHS: [u32; 3] = [1, 9, 29];
/// The search of one bucket is too short to be told from the rest of a pull.
const SHORT: u32 = 1;

pub fn print(earlier: &str, agreed: &mut Agreed) {
    let twin = unsearched();
    agreed.see(is_same(pull, &twin[..], 2), "pull without a search");
    let mut table = Table::new(HELD.map(str::to_string));
    for depth in DEPTHS {
        let grids = beside_twin(&twin, depth, agreed);
        let pulls = grids.each_ref().map(|grid| grid.parts(NOW, BEFORE)[1]);
        table.row(&format!("pull, depth {depth}"), &pulls);
        if depth > SHORT {
            let searches = grids.map(|grid| grid.added(NOW, BEFORE)[0]);
            table.row(&format!("search, depth {depth}"), &searches);
        }
    }
    table.print(&format!(
        "The archive beside an earlier one, {earlier}, by what the blocks hold in which a name is sought
   its time as a part of the earlier one's; lower is better. The name isn't there, and all blocks of its
   buckets are alike: at depth 1 two, at depth 9 18, and at depth 29 58, most of them behind nodes that a
   search has to read too. A search takes what a pull takes more than one from a root with depth 0"
    ));
}

/// A grid for each card, with the twin as its first column: so both are timed with little between them.
fn beside_twin(twin: &[u8], depth: u32, agreed: &mut Agreed) -> [Grid; HELD.len()] {
    let mut held = HELD.iter();
    by_held(depth).map(|image| {
        let held = held.next().expect("a name of the column");
        let what = format!("pull with depth {depth}, blocks with {held}");
        agreed.see(is_same(pull, &image[..], 2), &what);
        Grid::of(OFTEN, vec![sides(pull, twin), sides(pull, &image[..])])
    })
}

fn pull(archive: &Archive, image: &[u8], lent: &mut Lent) -> Numbers {
    pull_from(archive, image, NAME, lent)
}

//! Pulls by the depth of a root directory, which has no level: earlier archives refuse one.

use crate::archives::{Archive, BEFORE, NOW};
use crate::roots::{bare, full, NAME};
use crate::{is_same, pull_from, sides, Numbers, OFTEN};
use harptimber_bench::agreed::Agreed;
use harptimber_bench::grid::Grid;
use harptimber_bench::pulls::Lent;
use harptimber_bench::table::Table;

/// Up to the last hash level that lies within a file.
const FULL: [u32; 3] = [1, 10, 29];
/// The most that is read.
const BARE: u32 = 63;

/// A column: the image, and what a pull from it answers.
struct Root {
    head: String,
    image: Vec<u8>,
    answer: u32,
}

pub fn print(earlier: &str, agreed: &mut Agreed) {
    let roots = roots();
    let columns = roots.iter().map(|root| {
        let what = format!("pull with depth {}", root.head);
        agreed.see(is_same(pull, root, root.answer), &what);
        sides(pull, root)
    });
    let grid = Grid::of(OFTEN, columns.collect());
    let mut table = Table::new(roots.iter().map(|root| root.head.clone()));
    table.row("pull", &grid.parts(NOW, BEFORE));
    table.print(&format!(
        "The archive beside an earlier one, {earlier}, by depth of a root directory without a level
   its time as a part of the earlier one's; lower is better. The name is in the last slot of the last
   block, and all before it are full; in the last column there is no block, and no name"
    ));
}

fn roots() -> Vec<Root> {
    let full = FULL.map(|depth| Root {
        head: depth.to_string(),
        image: full(depth),
        answer: 0,
    });
    let bare = Root {
        head: format!("{BARE}, no blocks"),
        image: bare(BARE, 0),
        answer: 2,
    };
    full.into_iter().chain([bare]).collect()
}

fn pull(archive: &Archive, root: &Root, lent: &mut Lent) -> Numbers {
    pull_from(archive, &root.image, NAME, lent)
}

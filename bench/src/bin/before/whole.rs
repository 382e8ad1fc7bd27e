//! Whole files by the present program and by an earlier one, each a process from start to end.

use crate::archives::{BEFORE, NOW};
use crate::cards::{files, Card, COPY};
use harptimber_bench::agreed::Agreed;
use harptimber_bench::grid::{contender, Contender, Grid, Often};
use harptimber_bench::table::Table;
use harptimber_tests::program;
use harptimber_tests::tools::published::File;
use std::ffi::OsStr;
use std::os::unix::ffi::OsStrExt;
use std::path::{Path, PathBuf};
use std::process::{Command, Stdio};
use std::slice;

const OFTEN: Often = Often {
    rounds: 31,
    warm: 1,
    calls: 1,
};

/// A card with one file.
struct Whole {
    card: Card,
    file: File,
}

impl Whole {
    fn new(megabytes: usize, file: &File) -> Whole {
        Whole {
            card: Card::new(megabytes, slice::from_ref(file)),
            file: file.clone(),
        }
    }

    fn head(&self) -> String {
        format!("{} MB", self.file.1.len() as f64 / f64::from(1 << 20))
    }

    /// Writes the file, or compares it with the card's copy, where it is the same.
    fn command(&self, program: &Path, name: &str) -> Command {
        let mut command = Command::new(program);
        command.arg(name).arg(self.card.scratch.image_path());
        if name == "compare" {
            command.arg(self.card.scratch.path(COPY));
        }
        command.arg(OsStr::from_bytes(&self.file.0));
        command
    }

    /// Both programs have to end well, and to write the file.
    fn side(&self, program: &Path, name: &str, agreed: &mut Agreed) -> Contender<'_> {
        let mut command = self.command(program, name);
        let output = command.output().expect("a program that runs");
        let same = name != "cat" || output.stdout == self.file.1;
        let what = format!("what {command:?} does");
        agreed.see(output.status.success() && same, &what);
        command.stdout(Stdio::null());
        contender(move || assert!(command.status().is_ok_and(|status| status.success())))
    }
}

pub fn print(earlier: &str, earlier_program: PathBuf, agreed: &mut Agreed) {
    let [road, .., survey] = &files();
    let columns = [Whole::new(64, road), Whole::new(1024, survey)];
    let programs = [program::program(), earlier_program];
    let mut table = Table::new(columns.iter().map(Whole::head));
    for name in ["cat", "compare"] {
        let sides = columns.iter().map(|column| {
            let programs = programs.iter();
            programs.map(|it| column.side(it, name, agreed)).collect()
        });
        let grid = Grid::of(OFTEN, sides.collect());
        table.row(&format!("harptimber {name}"), &grid.parts(NOW, BEFORE));
    }
    table.print(&format!(
        "The program beside an earlier one, {earlier}, by size of a file that it reads whole
   its time as a part of the earlier one's, from start to end with output to /dev/null; lower is better.
   A compare is with a copy of the card, where nothing has changed"
    ));
}

//! Whole files, read by processes.

use crate::cards::*;
use crate::runs::{self, Memory};
use harptimber_bench::agreed::Agreed;
use harptimber_bench::grid::{contender, Contender, Grid, Often};
use harptimber_bench::pulls;
use harptimber_tests::program::program;
use harptimber_tests::tools::published::File;
use std::env;
use std::hint::black_box;
use std::path::PathBuf;
use std::process::{Command, Stdio};

pub const OFTEN: Often = Often {
    rounds: 5,
    warm: 0,
    calls: 1,
};

/// The sides.
pub const GRUB: usize = 0;
pub const HARPTIMBER: usize = 1;
pub const REFERENCE_CAT: usize = 2;
pub const CAT: usize = 3;
pub const PULLS_ALONE: usize = 4;
pub const RUNS_ALONE: usize = 5;

/// A card and a file of it.
pub struct Whole<'a> {
    pub card: &'a Card,
    pub file: &'a File,
}

/// The columns: one file on every card, then the long one on those that have it.
pub fn columns<'a>(cards: &'a [Card], [road, .., survey]: &'a [File; 4]) -> Vec<Whole<'a>> {
    let of = |cards: &'a [Card], file| cards.iter().map(move |card| Whole { card, file });
    let on_all = of(cards, road);
    on_all.chain(of(&cards[WITHOUT_SURVEY..], survey)).collect()
}

impl Whole<'_> {
    pub fn head(&self) -> String {
        let megabytes = self.file.1.len() as f64 / f64::from(1 << 20);
        format!("{megabytes} MB/{}", self.card.size())
    }

    fn name(&self) -> &str {
        std::str::from_utf8(&self.file.0).expect("a plain name")
    }

    /// The programs that write the file to standard output, in the order of the sides.
    fn commands(&self) -> [Command; 4] {
        let image = self.card.scratch.image_path();
        let mut grub = Command::new("grub-fstest");
        grub.arg(&image)
            .args(["cat", &format!("(loop0)/{}", self.name())]);
        let mut harptimber = Command::new(program());
        harptimber.arg("cat").arg(&image).arg(self.name());
        let mut reference = Command::new(beside_this("reference_cat"));
        reference.arg(&image).arg(self.name());
        let mut cat = Command::new("cat");
        cat.arg(self.card.scratch.file_path(&self.file.0));
        [grub, harptimber, reference, cat]
    }

    fn sides(&self, agreed: &mut Agreed) -> Vec<Contender<'_>> {
        let (name, bytes) = self.file;
        let process = |mut command: Command| {
            let output = command.output().expect("a program that runs");
            agreed.see(output.stdout == *bytes, &format!("what {command:?} writes"));
            command.stdout(Stdio::null()).stderr(Stdio::null());
            contender(move || assert!(command.status().is_ok_and(|status| status.success())))
        };
        let mut sides: Vec<Contender> = self.commands().map(process).into();
        let (image, take) = (self.card.image, |bytes: &[u8]| {
            black_box(bytes);
        });
        let pulls = move || pulls::whole(PULLS[ARCHIVE], image, name, take);
        sides.push(contender(pulls));
        let (mut memory, mut by_runs) = (Memory::new(), Vec::with_capacity(bytes.len()));
        let ended = runs::whole(&mut memory, image, name, |part| {
            by_runs.extend_from_slice(part)
        });
        let what = format!("a whole file by runs, {}", self.head());
        agreed.see(ended == 3 && by_runs == *bytes, &what);
        let runs = move || runs::whole(&mut memory, image, name, take);
        sides.push(contender(runs));
        sides
    }
}

pub fn whole(columns: &[Whole], agreed: &mut Agreed) -> Grid {
    let sides = columns.iter().map(|column| column.sides(agreed));
    Grid::of(OFTEN, sides.collect())
}

/// Another program of this folder.
pub fn beside_this(name: &str) -> PathBuf {
    let this = env::current_exe().expect("the path of this program");
    this.with_file_name(name)
}

//! The archive touches nothing outside what it is lent: in a C host with guard pages around every slice,
//! and under valgrind's memcheck, on sound and on damaged cards.

mod damage;
mod folders;
mod program;
mod tight;
mod tight_inline;

use std::process::Command;

use harptimber_tests::calls::guard_script::Script;
use harptimber_tests::cards::image::Image;
use harptimber_tests::cards::knobs::Knobs;
use harptimber_tests::cards::layout::inode::ADDRESSES;
use harptimber_tests::cards::layout::sit::SitEntry;
use harptimber_tests::cards::random_trees::random_trees;
use harptimber_tests::program::built;
use harptimber_tests::tools::published::ran;
use harptimber_tests::trial::Random;

use damage::{damage_card, damage_files, damage_published, damage_sits};
use folders::{all_folders, folders, leveled};
use tight::{Tight, NAME};
use tight_inline::TightInline;

fn guarded() -> Command {
    Command::new(built("guard_test"))
}

/// Ends with 9 if memcheck has anything to say.
fn memcheck() -> Command {
    let mut valgrind = Command::new("valgrind");
    valgrind.args(["--error-exitcode=9", "--quiet", "--leak-check=no"]);
    valgrind
}

fn memchecked() -> Command {
    let mut command = memcheck();
    command.arg(built("guard_test")).arg("heap");
    command
}

/// The slices of a pull, and of its keep file, each of which is once shorter than the call is told.
const PLANTS: [&str; 7] = ["name", "block", "nodes", "blocks", "image", "room", "file"];

/// The slices of a run, each of which is once shorter than the call is told.
const RUN_PLANTS: [&str; 5] = ["name", "block", "nodes", "blocks", "image"];

/// The slices of a reader's calls, each of which is once shorter than a call is told.
const READER_PLANTS: [&str; 5] = ["name", "bytes", "block", "nodes", "blocks"];

/// The slices of a report, each of which is once shorter than the call is told.
const REPORT_PLANTS: [&str; 2] = ["list", "image"];

/// A card with two segments that are off.
fn off_card() -> Image {
    let mut image = Image::new(&Knobs::sound().with_segments(3));
    for segno in [0, 2] {
        image.set_sit_entry(segno, 0, &SitEntry::counted(1, 0));
    }
    image.settle("two segments off");
    image
}

fn every_answer() -> Vec<u32> {
    (0..=14).collect()
}

#[test]
fn guard_pages() {
    let mut script = Script::new();
    let mut random = Random::new(1);
    for mut tight in [Tight::largest(), Tight::new()] {
        tight.calls(&mut script);
        for slice in PLANTS {
            script.plant(slice, NAME, ADDRESSES);
        }
        for slice in RUN_PLANTS {
            script.plant_run(slice, NAME, ADDRESSES);
        }
        for slice in READER_PLANTS {
            script.plant_reader(slice, NAME, ADDRESSES);
        }
    }
    TightInline::new().calls(&mut script);
    script.card(&TightInline::ending_with_file());
    for slice in PLANTS {
        script.plant(slice, NAME, 0);
    }
    for _ in 0..6 {
        damage_files(&mut script, &mut random, 150);
    }
    all_folders(&mut script, &mut random);
    for level in [0, 1, 22, 23, 29] {
        leveled(&mut script, &mut random, level, &[0, 30, 31, 255]);
    }
    let every_level: Vec<u64> = (0..=255).collect();
    leveled(&mut script, &mut random, 30, &every_level);
    damage_published(&mut script, &mut random, 200);
    damage_sits(&mut script, &mut random, 150);
    script.card(&off_card());
    for slice in REPORT_PLANTS {
        script.plant_report(slice);
    }
    script.pass(&mut guarded(), 40_000, &every_answer());
}

#[test]
fn valgrind() {
    let mut script = Script::new();
    let mut random = Random::new(2);
    Tight::new().calls(&mut script);
    TightInline::new().calls(&mut script);
    for _ in 0..3 {
        damage_files(&mut script, &mut random, 100);
    }
    folders(&mut script, &mut random, 20);
    let trees = random_trees(&mut random);
    damage_card(&mut script, &mut random, trees, 40);
    for level in [3, 30] {
        leveled(&mut script, &mut random, level, &[0, 29, 30, 31, 32, 255]);
    }
    damage_published(&mut script, &mut random, 60);
    damage_sits(&mut script, &mut random, 60);
    script.pass(&mut memchecked(), 5_000, &every_answer());
}

/// What is planted is seen.
#[test]
fn valgrind_on_plants() {
    let card = Tight::new().card;
    for slice in PLANTS.into_iter().chain(["unset"]) {
        let mut script = Script::new();
        script.card(&card.image);
        match slice {
            "unset" => script.unset(),
            _ => script.plant(slice, NAME, ADDRESSES),
        }
        expect_seen(&script, slice);
    }
    let image = TightInline::ending_with_file();
    for slice in PLANTS {
        let mut script = Script::new();
        script.card(&image);
        script.plant(slice, NAME, 0);
        expect_seen(&script, slice);
    }
    for slice in RUN_PLANTS {
        let mut script = Script::new();
        script.card(&card.image);
        script.plant_run(slice, NAME, ADDRESSES);
        expect_seen(&script, slice);
    }
    for slice in READER_PLANTS {
        let mut script = Script::new();
        script.card(&card.image);
        script.plant_reader(slice, NAME, ADDRESSES);
        expect_seen(&script, slice);
    }
    for slice in REPORT_PLANTS {
        let mut script = Script::new();
        script.card(&off_card());
        script.plant_report(slice);
        expect_seen(&script, slice);
    }
}

fn expect_seen(script: &Script, slice: &str) {
    let status = ran(script.given_to(&mut memchecked())).status;
    assert_eq!(status, 9, "{slice} is seen");
}

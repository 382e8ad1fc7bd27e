//! Prints tables of ratios, and whether all sides gave the same. `bench/run` builds what it needs.

mod calls;
mod cards;
mod depths;
mod directory_levels;
mod journal;
mod journalled;
mod keeps;
mod paths;
mod roots;
mod runs;
mod segments;
mod slots;
mod steps;
mod versions;
mod whole;

use calls::{Calls, COMPARE, MEMCMP, PULL, SAME_BLOCK};
use cards::{Card, ARCHIVE, OPTIONS, REFERENCE, WITHOUT_SURVEY};
use harptimber_bench::agreed::Agreed;
use harptimber_bench::grid::Grid;
use harptimber_bench::table::Table;
use harptimber_tests::sizes::SEGMENTS_MOST;
use std::process::{Command, ExitCode};
use steps::Steps;
use whole::Whole;

fn main() -> ExitCode {
    print_head();
    let mut agreed = Agreed::default();
    let files = cards::files();
    let cards = cards::cards(&files, &mut agreed);
    let calls = Calls::on(&cards, &mut agreed);
    beside_reference(&cards, &calls);
    beside_itself(&cards, &calls);
    growth_with_card(&cards, &calls);
    growth_with_depth(&mut agreed);
    growth_with_segments(&mut agreed);
    whole_files(&whole::columns(&cards, &files), &mut agreed);
    checksum(&mut agreed);
    packs_by_version(&mut agreed);
    journals_by_entries(&mut agreed);
    pulls_by_directory_level(&mut agreed);
    searches_by_slots(&mut agreed);
    pulls_by_names(&mut agreed);
    full_runs(&mut agreed);
    blocks_one_at_a_time(&mut agreed);
    agreed.finish()
}

fn print_head() {
    let grub = Command::new("grub-fstest").arg("--version").output();
    let grub = grub.expect("grub-fstest, which Debian's grub-common has");
    let grub = String::from_utf8_lossy(&grub.stdout);
    println!(
        "\
Every number in the tables is a ratio of two times of this run. No time is claimed.

  archive     libharptimber.a, called from this process; the checksum's own archive in table 7
  reference/  a second program for the same rules, in safe Rust, meant to be plain and not to be fast;
              both are built for release
  GRUB        its F2FS reader, by {}
  cards       written by mkfs.f2fs {OPTIONS} and sload.f2fs, sparse files, mapped for reading; those of
              tables 4, 5 and 8 to 14 are built in memory
  buffers     warm: each card is in the page cache, mapped and read before; what is lent to a pull is
              lent again to the next one, and not cleared in between
  times       the processor's, user and system, children included: other load shows only where it
              takes caches away
  ratios      medians over rounds, each of which times all sides and columns of a row in turn;
              {} rounds, for whole files {}

Before it is timed, every side has given the same bytes and answers.",
        grub.trim(),
        calls::OFTEN.rounds,
        whole::OFTEN.rounds,
    );
}

fn card_table(cards: &[Card]) -> Table {
    Table::new(cards.iter().map(Card::size))
}

fn beside_reference(cards: &[Card], calls: &Calls) {
    let mut table = card_table(cards);
    for (label, grid) in calls.on_all_cards() {
        table.row(label, &grid.parts(ARCHIVE, REFERENCE));
    }
    let behind = calls.indirect.parts(ARCHIVE, REFERENCE);
    table.late_row("pulls behind an indirect node", WITHOUT_SURVEY, &behind);
    let segments = calls.segments.parts(ARCHIVE, REFERENCE);
    table.row("segment report", &segments);
    let read = calls.keep_read.parts(ARCHIVE, REFERENCE);
    table.row("read of a keep file, full list", &read);
    let check = calls.check.parts(ARCHIVE, REFERENCE);
    table.row("check of a keep file, one pull's list", &check);
    table.print(
        "1. The archive beside reference/, by size of the card
   its time as a part of reference/'s; lower is better, below 1 is faster",
    );
}

fn beside_itself(cards: &[Card], calls: &Calls) {
    let mut table = card_table(cards);
    let compare = calls.compare.parts(ARCHIVE, MEMCMP);
    table.row("compare to memcmp and two openings", &compare);
    let in_order = calls.in_order.parts(ARCHIVE, SAME_BLOCK);
    table.row("pull in file order to single pull", &in_order);
    let keep = calls.keep.parts(ARCHIVE, PULL);
    table.row("keep to pull of the same block", &keep);
    let check = calls.check.parts(ARCHIVE, COMPARE);
    table.row("check of a keep file to compare, one pull", &check);
    let full_check = calls.full_check.parts(ARCHIVE, COMPARE);
    table.row("check of a keep file to compare, full list", &full_check);
    table.print(
        "2. The archive beside other calls of its own, by size of the card
   its time as a multiple; lower is better. A compare opens both cards and reads each listed block of
   both: beside it stand two openings, by the archive too, and memcmp over the same blocks. A pull keeps
   nothing for the next one, so the next block of a file costs a pull of its own. A keep file is checked
   without the kept card, beside a compare with it on the same lists; that may cost no more, so at most 1",
    );
}

fn growth_with_card(cards: &[Card], calls: &Calls) {
    let mut table = card_table(cards);
    for (label, grid) in calls.on_all_cards() {
        table.row(&format!("{label}, archive"), &grid.growth(ARCHIVE));
        table.row(&format!("{label}, reference/"), &grid.growth(REFERENCE));
    }
    table.print(
        "3. Growth with the card
   time on a card as a multiple of the same side's on the first; 1 is no growth, lower is better",
    );
}

fn growth_with_depth(agreed: &mut Agreed) {
    let grid = depths::depths(agreed);
    let mut table = Table::new(depths::DEPTHS.iter().map(u32::to_string));
    table.row("archive to its depth 1", &grid.growth(ARCHIVE));
    table.row("reference/ to its depth 1", &grid.growth(REFERENCE));
    table.row("archive to reference/", &grid.parts(ARCHIVE, REFERENCE));
    let added = grid.added(ARCHIVE, REFERENCE);
    table.late_row("the same, of what is added to depth 1", 1, &added);
    table.print(
        "4. Growth with the root directory, by its depth (hash levels); a pull whose name comes last
   both blocks of its bucket in every one are full, and the name is in the last slot of the last;
   lower is better. 10 of them take some 400,000 short names; behind 29 none has blocks",
    );
}

fn growth_with_segments(agreed: &mut Agreed) {
    let grid = segments::by_segments(agreed);
    let mut table = Table::new(segments::SEGMENTS.iter().map(u32::to_string));
    table.row("archive to reference/", &grid.parts(ARCHIVE, REFERENCE));
    for (label, side) in [("archive", ARCHIVE), ("reference/", REFERENCE)] {
        let fewest = segments::SEGMENTS[0];
        let growth = grid.growth(side);
        table.row(&format!("{label} to its {fewest} segments"), &growth);
        let steepness = grid.steepness(side, &segments::SEGMENTS);
        table.late_row(&format!("{label}, a segment more"), 1, &steepness);
    }
    table.print(&format!(
        "5. Growth of a segment report, by main segments
   time as a part of reference/'s, then as a multiple of the same side's for the fewest segments, then
   for each segment more than those, as a multiple of the last column's: 1 throughout is a straight
   line. {SEGMENTS_MOST} is the most that a card has room for"
    ));
}

fn whole_files(columns: &[Whole], agreed: &mut Agreed) {
    let grid = whole::whole(columns, agreed);
    let mut table = Table::new(columns.iter().map(Whole::head));
    let rows = [
        ("harptimber cat", whole::HARPTIMBER),
        ("reference/'s pulls, as a program", whole::REFERENCE_CAT),
        ("the archive's pulls, in this process", whole::PULLS_ALONE),
        ("the archive's runs, in this process", whole::RUNS_ALONE),
        ("cat of the same bytes in a plain file", whole::CAT),
    ];
    for (label, side) in rows {
        table.row(label, &grid.parts(side, whole::GRUB));
    }
    table.print(
        "6. Whole files beside GRUB's reader, by size of the file/size of the card
   time as a part of `grub-fstest CARD cat '(loop0)/NAME'`; lower is better, below 1 is faster.
   GRUB's time is a process from start to end with output to /dev/null, and so is each but those in this
   process",
    );
}

/// A program of its own, whose archive can't be linked with the library's.
fn checksum(agreed: &mut Agreed) {
    let output = Command::new(whole::beside_this("checksum")).output();
    let output = output.expect("the program `checksum`").stdout;
    let ratio = String::from_utf8_lossy(&output).trim().parse();
    agreed.see(ratio.is_ok(), "the checksum of a block");
    let Ok(ratio) = ratio else { return };
    let mut table = Table::new(["4,092 bytes".to_string()]);
    table.row("checksum, bit by bit to archive", &[ratio]);
    table.print(
        "7. The checksum of a checkpoint block, which is most of an opening
   time of a loop over bits as a multiple of the archive's; higher is better. The compiler may turn
   that loop into one over a table, and is left to it",
    );
}

fn packs_by_version(agreed: &mut Agreed) {
    let grids = versions::by_versions(agreed);
    let rows = ["pull", "lookup"].into_iter().zip(grids);
    let table = beside_first(versions::heads(), rows, "versions 1, 2");
    table.print(
        "8. Two packs, the second in use: plain versions, versions that wrapped, and no first pack
   time as a part of reference/'s, then as a multiple of the same side's with versions 1, 2; lower is
   better. The archive's multiples are about 1: a pack that isn't chosen costs it no checksum.
   reference/ tests both",
    );
}

fn journals_by_entries(agreed: &mut Agreed) {
    let grids = journal::by_entries(agreed);
    let rows = ["pull", "lookup"].into_iter().zip(grids);
    let table = beside_first(journal::heads(), rows, "empty journal");
    table.print(
        "9. The NAT journal by its entries, in plain packs and then, a full one, in compact packs
   time as a part of reference/'s, then as a multiple of the same side's with an empty journal in plain
   packs; lower is better. An opening compares each entry's number with those before it. The file's
   entry is the last one: a pull looks through the journal twice, for the root too",
    );
}

fn pulls_by_directory_level(agreed: &mut Agreed) {
    let grids = directory_levels::by_directory_level(agreed);
    let labels = ["near", "far out", "no name"];
    let heads = directory_levels::LEVELS.iter().map(u8::to_string);
    let table = beside_first(heads, labels.into_iter().zip(grids), "level 0");
    table.print(
        "10. A pull by the root's directory level
   time as a part of reference/'s, then as a multiple of the same side's at level 0; lower is better.
   Near: depth 1, the name in the first slot of the first block; the cards differ in the level alone, and
   1 is a level that costs nothing. Far out: the same in the block where the level has the name, at 16
   behind two nodes more, from 22 on behind three. No name: depth 63 and no blocks; the higher the level,
   the fewer hash levels lie within a file",
    );
}

fn searches_by_slots(agreed: &mut Agreed) {
    let grid = slots::by_slots(agreed);
    let mut table = Table::new(slots::heads().map(str::to_string));
    let pulls = grid.parts(ARCHIVE, REFERENCE);
    table.row("pull, archive to reference/", &pulls);
    let searches = grid.added(ARCHIVE, REFERENCE);
    table.late_row("search, archive to reference/", 1, &searches);
    table.print(
        "11. A pull of no name, by what the blocks hold in which it is sought
   time as a part of reference/'s; lower is better. Depth 9, and 18 blocks alike, which all stand in the
   inode; in the first column depth 0. A search takes what a pull takes more than in that column",
    );
}

fn pulls_by_names(agreed: &mut Agreed) {
    let grids = paths::by_names(agreed);
    let labels = ["with blocks", "inline"];
    let heads = paths::NAMES.iter().map(usize::to_string);
    let table = beside_first(heads, labels.into_iter().zip(grids), "one name");
    table.print(
        "12. A pull by the names of its path, through folders with a block each and through inline ones
   time as a part of reference/'s, then as a multiple of the same side's for one name; lower is better.
   A name more is a table answer, an inode and the slots of a folder with one entry",
    );
}

fn full_runs(agreed: &mut Agreed) {
    let [by_reader, by_pulls] = runs::full(agreed);
    let mut table = Table::new(runs::heads());
    for (label, of, to) in [
        ("archive to the reader", runs::ARCHIVE, runs::READER),
        (
            "archive to the reader without lists",
            runs::ARCHIVE,
            runs::UNLISTED,
        ),
        (
            "archive to memcpy of the same blocks",
            runs::ARCHIVE,
            runs::COPY,
        ),
        ("the reader to memcpy", runs::READER, runs::COPY),
    ] {
        table.row(label, &by_reader.parts(of, to));
    }
    let singly = by_pulls.parts(runs::ARCHIVE, runs::SINGLE_PULLS);
    table.row("archive to 512 single pulls", &singly);
    let reference = by_pulls.parts(runs::ARCHIVE, runs::REFERENCE);
    table.row("archive to reference/'s run", &reference);
    table.print(
        "13. A run of 512 blocks, by where a file of every kind of node has them
   time as a part of the other side's; lower is better, and below 1 is faster. The reader is a
   straightforward one in safe Rust, bench/src/run_reader/: it opens the card, walks the path once, reads
   each node once, copies the blocks, and sorts its lists at the end. memcpy knows where the blocks are.
   In the last two columns the blocks of a stretch lie on the card from last to first, and in no order",
    );
}

fn blocks_one_at_a_time(agreed: &mut Agreed) {
    let steps = Steps::timed(agreed);
    let mut table = Table::new(steps.heads.iter().cloned());
    let pull = steps.grid.parts(steps::READER, steps::PULL);
    table.row("reader to whole-image pull", &pull);
    let pread = steps.grid.parts(steps::READER, steps::PREADS);
    table.row("a step to a pread of its block", &pread);
    table.print(
        "14. A pull by the archive's reader, which is fed one block at a time from memory
   time as a multiple of the whole-image pull's, and of what it takes to read the same blocks from a file
   in the page cache, one pread each; lower is better. A step is handed the reader's 23,992 bytes and
   hands them back. A deep folder has every block in which a name is sought, up to the last hash level",
    );
    let words = |numbers: Vec<String>| numbers.join(", ");
    let asked = steps.asked.iter().map(usize::to_string).collect();
    println!("\n  blocks asked for, by column: {}", words(asked));
    let each = steps.nanoseconds().into_iter();
    let each = each.map(|ns| format!("{ns:.0}")).collect();
    println!(
        "  nanoseconds a step in this run, which are no claim: {}",
        words(each)
    );
}

/// Rows beside the reference, and beside the first column, which has a name.
fn beside_first<'a>(
    heads: impl Iterator<Item = String>,
    rows: impl Iterator<Item = (&'a str, Grid)>,
    first: &str,
) -> Table {
    let mut table = Table::new(heads);
    for (label, grid) in rows {
        let parts = grid.parts(ARCHIVE, REFERENCE);
        table.row(&format!("{label}, archive to reference/"), &parts);
        for (side, name) in [(ARCHIVE, "archive"), (REFERENCE, "reference/")] {
            let row = format!("{label}, {name} to its {first}");
            table.row(&row, &grid.growth(side));
        }
    }
    table
}

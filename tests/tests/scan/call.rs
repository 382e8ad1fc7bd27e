//! Scan: the shape of the call, and the memory around what is lent.

use std::os::unix::process::ExitStatusExt;
use std::process::{Command, Stdio};

use crate::cards::dentry::Dentry;
use crate::cards::dentry_block::DentryBlock;
use crate::cards::layout::dentry::{Layout, LAYOUTS, LONGEST_NAME};
use crate::cards::layout::BLOCK_SIZE;
use crate::cards::names::good_name;
use crate::scan_export::scan_as_if;
use crate::scans::{found, missing, Scans, INO, NAME, OUT_OF_SHAPE};
use crate::system::Guarded;

/// A block with this name in its first slot.
fn named(layout: Layout, name: &[u8]) -> DentryBlock {
    let mut block = DentryBlock::free(layout, 0);
    block.put(0, &Dentry::new(name, INO));
    block
}

#[test]
fn block_lengths() {
    let mut scans = Scans::new("scan by block length");
    for layout in LAYOUTS {
        let longer = [named(layout, NAME).bytes(), &[0; 1000]].concat();
        for len in [
            0, 1, 27, 30, 364, 387, 394, 2384, 2396, 3852, 4088, 4092, 4095, 4097, 4100, 5000,
        ] {
            scans.expect_in(layout, &longer[..len], NAME, OUT_OF_SHAPE);
            scans.expect_in(layout, &longer[..len], b"", OUT_OF_SHAPE);
        }
        scans.expect_in(layout, &longer[..BLOCK_SIZE], NAME, found(INO, 1));
    }
    scans.finish(2 * (16 * 2 + 1), &[0, 4]);
}

/// A name has 1 to 255 bytes, none of them 0 or the slash. Otherwise it isn't sought, even if the block has it.
#[test]
fn names() {
    let mut scans = Scans::new("scan by the shape of the name");
    let mut bad = vec![Vec::new()];
    bad.extend([256, 257, 511, 4096].map(|len| good_name(&mut scans.trial.random, len)));
    for len in 1..=LONGEST_NAME {
        let good = good_name(&mut scans.trial.random, len);
        for layout in LAYOUTS {
            scans.expect(&named(layout, NAME), &good, missing(2));
        }
        for byte in [0, b'/'] {
            let mut name = good.clone();
            name[scans.trial.random.below(len as u64) as usize] = byte;
            bad.push(name);
        }
    }
    for name in &bad {
        for layout in LAYOUTS {
            scans.expect(&named(layout, name), name, OUT_OF_SHAPE);
        }
    }
    scans.finish(2 * (255 * 3 + 5), &[2, 4]);
}

/// Set for a run of this program that reads past its guard: which layout it is to scan.
const PLANT: &str = "HARPTIMBER_SCAN_PLANT";

/// Scans bytes that end at a guard one byte before the name in the last slot does, as if they were all there.
fn scan_past_guard(layout: Layout) {
    let mut block = DentryBlock::free(layout, 0);
    block.put(layout.slots - 1, &Dentry::new(NAME, INO));
    let end = layout.name_at(layout.slots);
    let mut memory = Guarded::new(1);
    let lent = memory.lend_at_end(&block.bytes()[..end - 1]);
    // SAFETY: the guard is right behind it.
    let scanned = unsafe { scan_as_if(layout, lent, BLOCK_SIZE, NAME) };
    panic!("no guard: {scanned:?}");
}

/// Every block is lent so that it ends at a guard page. A scan that is told of more than there is, the last byte of a
/// name among it, ends the program: so would any read past the end.
#[test]
fn guard_is_seen() {
    const SIGSEGV: i32 = 11;
    if let Ok(planted) = std::env::var(PLANT) {
        let planted = LAYOUTS.into_iter().find(|layout| layout.name == planted);
        scan_past_guard(planted.expect("a layout"));
    }
    let program = std::env::current_exe().expect("this program");
    for layout in LAYOUTS {
        let mut again = Command::new(&program);
        again
            .args(["--exact", "call::guard_is_seen"])
            .env(PLANT, layout.name);
        let ended = again.stdout(Stdio::null()).stderr(Stdio::null()).status();
        let signal = ended.expect("a second run").signal();
        assert_eq!(signal, Some(SIGSEGV), "a read past the end, {layout:?}");
    }
}

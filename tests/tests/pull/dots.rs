//! Pull: names that several folders have, dots, and folders that a path comes by twice.

use harptimber_tests::calls::pulls::{Call, Pulls};
use harptimber_tests::cards::card::{Card, ROOT};
use harptimber_tests::cards::directory::{Dentry, DirLevel};
use harptimber_tests::cards::layout::inode::INLINE_DENTRY;
use harptimber_tests::cards::one_file::small_knobs;
use harptimber_tests::trial::Random;

/// The bytes of each file.
const SIZE: usize = 100;

/// A root and a folder in it, which have one name for different files, and each a name of its own.
struct Twice {
    card: Card,
    folder: u32,
    /// In the root, and in the folder.
    files: [u32; 2],
}

/// In the order of the files.
const IN_ROOT: usize = 0;
const IN_FOLDER: usize = 1;

/// Directories with blocks and inline.
const INLINES: [[u64; 2]; 4] = [
    [0, 0],
    [0, INLINE_DENTRY],
    [INLINE_DENTRY, 0],
    [INLINE_DENTRY, INLINE_DENTRY],
];

impl Twice {
    fn new(random: &mut Random, inlines: [u64; 2]) -> Twice {
        let mut card = Card::new(small_knobs(random), Random::new(random.number()));
        card.add_root(inlines[0], 1);
        let folder = card.add_folder(DirLevel(0), inlines[1], 1);
        let files = [(ROOT, "root"), (folder, "here")].map(|(at, own)| {
            card.enter(at);
            let ino = card.add_file(0, SIZE as u64);
            card.add_block(ino, 0);
            for name in ["road.bin", own] {
                card.link(0, 0, &Dentry::new(name.as_bytes(), ino));
            }
            ino
        });
        card.enter(ROOT);
        card.link(0, 0, &Dentry::new(b"runs", folder));
        card.image.settle(&format!("a name twice {inlines:?}"));
        Twice {
            card,
            folder,
            files,
        }
    }

    fn link(&mut self, at: u32, name: &str, ino: u32) {
        self.card.enter(at);
        self.card.link(0, 0, &Dentry::new(name.as_bytes(), ino));
    }

    /// The block of a file.
    fn data(&mut self, which: usize) -> u32 {
        let way = self.card.way(self.files[which], 0);
        self.card.image.get(way[0].node.block, way[0].slot) as u32
    }

    /// Expects the bytes of one file for each of these paths.
    fn expect_file(&mut self, pulls: &mut Pulls, which: usize, paths: &[&str]) {
        let data = self.data(which);
        let image = &self.card.image;
        for path in paths {
            pulls.expect_data(image, path.as_bytes(), 0, &image.block(data)[..SIZE]);
        }
    }

    fn expect(&self, pulls: &mut Pulls, paths: &[(&str, u32)]) {
        for &(path, answer) in paths {
            pulls.expect(&self.card.image, path.as_bytes(), 0, answer);
        }
    }

    /// What a pull lists that comes by both directories and ends at a file.
    fn lists(&mut self, which: usize) -> (Vec<u32>, Vec<u32>) {
        let file = self.files[which];
        let mut nodes = vec![file];
        let mut blocks = vec![self.card.inode_block(file), self.data(which)];
        for directory in [ROOT, self.folder] {
            self.card.enter(directory);
            nodes.push(directory);
            blocks.push(self.card.inode_block(directory));
            blocks.extend(self.card.directory.values());
        }
        (nodes, blocks)
    }
}

fn for_both_kinds(pulls: &mut Pulls, test: impl Fn(&mut Pulls, Twice)) {
    for inlines in INLINES {
        let twice = Twice::new(&mut pulls.trial.random, inlines);
        test(pulls, twice);
    }
}

/// A name is sought in its folder and nowhere else.
#[test]
fn one_name_in_two_folders() {
    let mut pulls = Pulls::new("pull of a name that two folders have");
    for_both_kinds(&mut pulls, |pulls, mut twice| {
        twice.expect_file(pulls, IN_ROOT, &["road.bin", "root"]);
        twice.expect_file(pulls, IN_FOLDER, &["runs/road.bin", "runs/here"]);
        let answers = [
            ("here", 2),
            ("runs/root", 2),
            ("runs/runs", 2),
            ("runs/runs/here", 2),
            ("here/road.bin", 2),
            ("road.bin/here", 12),
            ("root/road.bin", 12),
            ("runs", 12),
        ];
        twice.expect(pulls, &answers);
    });
    pulls.finish(4 * 12, &[0, 2, 12]);
}

/// "." and ".." are names like others: without entries they are missing.
#[test]
fn dots_without_entries() {
    let mut pulls = Pulls::new("pull of dots that no folder has");
    for_both_kinds(&mut pulls, |pulls, twice| {
        for path in [
            ".",
            "..",
            "./road.bin",
            "../road.bin",
            "runs/.",
            "runs/..",
            "runs/./here",
            "runs/../root",
        ] {
            twice.expect(pulls, &[(path, 2)]);
        }
    });
    pulls.finish(4 * 8, &[2]);
}

/// Dots lead where their entries say, here the wrong way round: up is down.
#[test]
fn dots_that_lead_elsewhere() {
    let mut pulls = Pulls::new("pull of dots that lead elsewhere");
    for_both_kinds(&mut pulls, |pulls, mut twice| {
        let folder = twice.folder;
        twice.link(ROOT, ".", folder);
        twice.link(ROOT, "..", folder);
        twice.link(folder, ".", ROOT);
        twice.link(folder, "..", folder);
        let to_root = [
            "runs/./road.bin",
            "runs/../../.././root",
            "././././././root",
        ];
        let to_folder = [
            "./road.bin",
            "../here",
            "runs/../here",
            "./././././././here",
            "../../../../../../../here",
        ];
        twice.expect_file(pulls, IN_ROOT, &to_root);
        twice.expect_file(pulls, IN_FOLDER, &to_folder);
        let answers = [
            (".", 12),
            ("runs/..", 12),
            ("runs/./here", 2),
            ("runs/../root", 2),
            ("root/..", 12),
            ("root/../root", 12),
            ("nowhere/../root", 2),
            ("./././././././././root", 4),
            (".../root", 2),
        ];
        twice.expect(pulls, &answers);
    });
    pulls.finish(4 * (3 + 5 + 9), &[0, 2, 4, 12]);
}

/// As Linux writes them.
#[test]
fn dots_as_written() {
    let mut pulls = Pulls::new("pull of paths with dots, as they are written");
    for_both_kinds(&mut pulls, |pulls, mut twice| {
        let folder = twice.folder;
        for (at, above) in [(ROOT, ROOT), (folder, ROOT)] {
            twice.link(at, ".", at);
            twice.link(at, "..", above);
        }
        let to_root = ["./root", "runs/../root", "../../root", "runs/./../root"];
        let to_folder = ["runs/./here", "./runs/here", "runs/../runs/./././here"];
        twice.expect_file(pulls, IN_ROOT, &to_root);
        twice.expect_file(pulls, IN_FOLDER, &to_folder);
    });
    pulls.finish(4 * 7, &[0]);
}

/// Directories that are come by several times are listed once, also those that the way leads out of again.
#[test]
fn folders_twice() {
    let mut pulls = Pulls::new("pull through a folder twice");
    for_both_kinds(&mut pulls, |pulls, mut twice| {
        let folder = twice.folder;
        twice.link(folder, "..", ROOT);
        twice.link(folder, "self", folder);
        for (path, which) in [
            ("runs/here", IN_FOLDER),
            ("runs/self/here", IN_FOLDER),
            ("runs/../runs/here", IN_FOLDER),
            ("runs/../runs/../runs/../runs/here", IN_FOLDER),
            ("runs/self/self/../runs/self/self/here", IN_FOLDER),
            ("runs/../root", IN_ROOT),
            ("runs/self/../runs/../root", IN_ROOT),
        ] {
            let (nodes, blocks) = twice.lists(which);
            let call = Call::new(&twice.card.image, path.as_bytes(), 0);
            pulls.expect_lists(&call, 0, &nodes, &blocks);
        }
    });
    pulls.finish(4 * 7, &[0]);
}

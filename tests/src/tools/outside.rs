//! Outside opinions on a card's files: GRUB's reader and dump.f2fs. They are asked beside the project's
//! own program, each about the same image file.

use std::collections::BTreeMap;
use std::ffi::OsStr;
use std::fs::{self, File};
use std::os::unix::ffi::OsStrExt;
use std::path::{Path, PathBuf};
use std::process::Command;

use crate::calls::pulls::{lists, Call};
use crate::cards::image::Image;
use crate::cards::layout::footer;
use crate::cards::layout::inode::{I_NAME, I_NAMELEN};
use crate::program::{self, program, Ran};
use crate::tools::published::{run, run_given, Scratch};

/// What reads files from a card.
#[derive(Clone, Copy, Debug, PartialEq, Eq, PartialOrd, Ord)]
pub enum Reader {
    /// `harptimber cat`.
    Harptimber,
    /// `grub-fstest IMAGE cat`, in Debian's grub-common.
    GrubCat,
    /// `grub-fstest IMAGE cp`.
    GrubCp,
    /// `dump.f2fs -i`, in Debian's f2fs-tools.
    Dump,
}

/// An image in a file.
pub struct CardFile<'a> {
    image: &'a Image,
    scratch: Scratch,
}

/// How many files each reader gave as they should be.
pub struct Opinions {
    name: &'static str,
    files: BTreeMap<Reader, u64>,
}

impl Opinions {
    pub fn new(name: &'static str) -> Opinions {
        Opinions {
            name,
            files: BTreeMap::new(),
        }
    }

    /// Expects these bytes of a file from each of the readers.
    pub fn expect(&mut self, readers: &[Reader], card: &CardFile, (name, bytes): (&[u8], &[u8])) {
        for &reader in readers {
            let read = card.read(reader, name);
            let differing = read.iter().zip(bytes).position(|(read, byte)| read != byte);
            assert!(
                read == bytes,
                "{}: {reader:?} gives {} bytes for '{}' of {}, the first other one at {differing:?}, on {:?}",
                self.name,
                read.len(),
                name.escape_ascii(),
                bytes.len(),
                card.image
            );
            *self.files.entry(reader).or_default() += 1;
        }
    }

    /// Each of these readers has to have given so many files.
    pub fn finish(&self, at_least: &[(Reader, u64)]) {
        let files: u64 = self.files.values().sum();
        println!("{}: {files} inputs compared, {:?}", self.name, self.files);
        for (reader, least) in at_least {
            let files = self.files.get(reader).copied().unwrap_or(0);
            assert!(
                files >= *least,
                "{}: {reader:?} gave {files} files",
                self.name
            );
        }
    }
}

impl CardFile<'_> {
    pub fn of(image: &Image) -> CardFile<'_> {
        let card = CardFile {
            image,
            scratch: Scratch::new(),
        };
        image.save(&card.path());
        fs::write(card.yes(), "Y\n").expect("a file with an answer");
        card
    }

    pub fn path(&self) -> PathBuf {
        self.scratch.path("card")
    }

    fn yes(&self) -> PathBuf {
        self.scratch.path("yes")
    }

    /// What a reader gives for a file.
    fn read(&self, reader: Reader, name: &[u8]) -> Vec<u8> {
        match reader {
            Reader::Harptimber => run(&mut self.cat(name)),
            Reader::GrubCat => run(&mut self.grub("cat", name)),
            Reader::GrubCp => self.grub_cp(name),
            Reader::Dump => self.dump(name),
        }
    }

    /// `harptimber pull` of a file's first block.
    pub fn pull_json(&self, name: &[u8]) -> Ran {
        program::run(&[&"pull", &"--json", &"--", &self.path(), &name, &"0"])
    }

    fn cat(&self, name: &[u8]) -> Command {
        let mut cat = Command::new(program());
        cat.args(["cat", "--"]).arg(self.path());
        cat.arg(OsStr::from_bytes(name));
        cat
    }

    fn grub(&self, command: &str, name: &[u8]) -> Command {
        let path = [b"(loop0)/", name].concat();
        let mut grub = Command::new("grub-fstest");
        grub.arg(self.path())
            .arg(command)
            .arg(OsStr::from_bytes(&path));
        grub
    }

    fn grub_cp(&self, name: &[u8]) -> Vec<u8> {
        let copy = self.scratch.path("copy");
        run(self.grub("cp", name).arg(&copy));
        taken(&copy)
    }

    /// It asks first, and then writes the file under its own name.
    fn dump(&self, name: &[u8]) -> Vec<u8> {
        let mut dump = Command::new("dump.f2fs");
        dump.arg("-i")
            .arg(format!("{:#x}", inode_number(self.image, name)));
        dump.arg(self.path()).current_dir(self.scratch.path("."));
        let yes = File::open(self.yes()).expect("a file with an answer");
        run_given(&mut dump, yes.into());
        let (_, name) = folder_and_name(name);
        let dumped = self.scratch.path("lost_found");
        taken(&dumped.join(OsStr::from_bytes(name)))
    }
}

/// A path's last name, and what comes before it.
fn folder_and_name(path: &[u8]) -> (Option<&[u8]>, &[u8]) {
    match path.iter().rposition(|&byte| byte == b'/') {
        Some(at) => (Some(&path[..at]), &path[at + 1..]),
        None => (None, path),
    }
}

/// The number of the inode that a path leads to. It has the last name, and is in a block that a pull of the path reads
/// and one of its folder doesn't.
pub fn inode_number(image: &Image, path: &[u8]) -> u32 {
    let blocks_of = |path| lists(&Call::new(image, path, 0)).1;
    let (folder, name) = folder_and_name(path);
    let before = folder.map(blocks_of).unwrap_or_default();
    let has_name = |&block: &u32| {
        let len = image.get(block, I_NAMELEN);
        let stored = &image.block(block)[I_NAME..];
        len == name.len() as u64 && stored.starts_with(name)
    };
    let mut later = blocks_of(path);
    later.retain(|block| !before.contains(block));
    let inode = later.into_iter().find(has_name);
    let inode = inode.unwrap_or_else(|| panic!("no inode at {}", path.escape_ascii()));
    image.get(inode, footer::NID) as u32
}

/// What a file has, which is removed.
fn taken(path: &Path) -> Vec<u8> {
    let bytes = fs::read(path).unwrap_or_else(|error| panic!("{}: {error}", path.display()));
    fs::remove_file(path).expect("a file to remove");
    bytes
}

//! Images that the published tools write: mkfs.f2fs and sload.f2fs, which Debian has in f2fs-tools.

use std::ffi::{OsStr, OsString};
use std::fs;
use std::os::unix::ffi::OsStrExt;
use std::os::unix::fs::symlink;
use std::path::{Path, PathBuf};
use std::process::{self, Command, Stdio};
use std::sync::atomic::{AtomicU32, Ordering};
use std::time::{Duration, UNIX_EPOCH};

use crate::cards::card::ROOT;
use crate::cards::image::Image;
use crate::cards::layout::inode::I_DIR_LEVEL;
use crate::cards::layout::BLOCK_SIZE;
use crate::cards::sparse::Sparse;
use crate::running::{Ran, Running};
use crate::system::{need_room, sparse_file};
use crate::trial::Random;

const MEGABYTE: usize = 1 << 20;

/// The megabytes of the largest card, 16 GiB.
pub const LARGEST: usize = 16_384;

/// sload.f2fs puts files up to this size into their inode.
pub const LONGEST_INLINE: usize = 3344;

/// A file's name and bytes.
pub type File = (Vec<u8>, Vec<u8>);

/// A file's bytes, at each place others.
pub fn contents(random: &mut Random, size: usize) -> Vec<u8> {
    let seed = random.number();
    let eight = (0..size.div_ceil(8) as u64).flat_map(|n| (seed ^ (n * n)).to_le_bytes());
    eight.take(size).collect()
}

/// A folder of a test's own, with an image file and what was put into it. It goes with the test.
pub struct Scratch(PathBuf);

impl Scratch {
    pub fn new() -> Scratch {
        static MADE: AtomicU32 = AtomicU32::new(0);
        let made = MADE.fetch_add(1, Ordering::Relaxed);
        let folder = Path::new(env!("CARGO_MANIFEST_DIR")).join("target/tmp");
        let folder = folder.join(format!("image-{}-{made}", process::id()));
        fs::create_dir_all(&folder).expect("a folder for images");
        Scratch(folder)
    }

    pub fn folder(&self) -> &Path {
        &self.0
    }

    pub fn path(&self, name: impl AsRef<Path>) -> PathBuf {
        self.0.join(name)
    }

    /// The names in it, in order.
    pub fn names(&self) -> Vec<OsString> {
        let entries = fs::read_dir(self.folder()).unwrap();
        let mut names: Vec<_> = entries.map(|entry| entry.unwrap().file_name()).collect();
        names.sort();
        names
    }

    pub fn image_path(&self) -> PathBuf {
        self.path("image")
    }

    fn files(&self) -> PathBuf {
        self.path("files")
    }

    /// Where a file is that the image was last filled with.
    pub fn file_path(&self, name: &[u8]) -> PathBuf {
        self.files().join(OsStr::from_bytes(name))
    }

    /// Writes a sparse image. In it mkfs.f2fs writes half of the node table and a little more, which is some 40 MB of
    /// 16 GiB.
    fn format(&self, megabytes: usize, options: &str) {
        let len = (megabytes * MEGABYTE) as u64;
        need_room(self.folder(), len / 256 + 8 * MEGABYTE as u64);
        sparse_file(&self.image_path(), len);
        run(Command::new("mkfs.f2fs")
            .args(options.split_whitespace())
            .arg(self.image_path()));
    }

    /// Puts files into the root directory, or into one below it if the name has a slash. With a date,
    /// no file on the card has another one.
    fn fill(&self, date: Option<u32>, files: &[File]) {
        self.lay_out(date, files);
        self.load(date);
    }

    /// Writes the files to a folder.
    fn lay_out(&self, date: Option<u32>, files: &[File]) {
        let folder = self.files();
        // In a file of their own, and on the card with an inode.
        let room = |(_, bytes): &File| 2 * (bytes.len() as u64 + 4 * BLOCK_SIZE as u64);
        need_room(self.folder(), files.iter().map(room).sum());
        if folder.exists() {
            fs::remove_dir_all(&folder).expect("a folder to remove");
        }
        fs::create_dir(&folder).expect("a folder for files");
        for (name, bytes) in files {
            let path = self.file_path(name);
            let around = path.parent().expect("a folder around a file");
            fs::create_dir_all(around).expect("a folder for files");
            fs::write(&path, bytes).expect("a file");
            date.inspect(|&date| put_date(&path, date));
        }
        date.inspect(|&date| put_date(&folder, date));
    }

    /// Puts that folder onto the card.
    fn load(&self, date: Option<u32>) {
        let option = date.map(|date| format!("-T{date}"));
        run(Command::new("sload.f2fs")
            .args(option)
            .arg("-f")
            .args([self.files(), self.image_path()]));
    }

    /// Reads the image.
    fn image(&self, origin: String) -> Image {
        let file = fs::File::open(self.image_path()).expect("the image");
        Image::read(origin, Sparse::read(&file))
    }
}

impl Drop for Scratch {
    fn drop(&mut self) {
        // What can't be removed is no fault of the library.
        let _ = fs::remove_dir_all(&self.0);
    }
}

/// Puts a date, in seconds since 1970, on a file or folder.
fn put_date(path: &Path, date: u32) {
    let time = UNIX_EPOCH + Duration::from_secs(u64::from(date));
    let file = fs::File::open(path).expect("a file to put a date on");
    file.set_modified(time).expect("the date of a file");
}

/// So long may a program take. Under valgrind each is slower.
fn limit_of(command: &Command) -> Duration {
    let slow = command.get_program() == "valgrind";
    Duration::from_secs(if slow { 300 } else { 120 })
}

/// Runs a program, which has to end well, and returns what it wrote to standard output.
pub fn run(command: &mut Command) -> Vec<u8> {
    run_given(command, Stdio::null())
}

/// The same with something to read.
pub fn run_given(command: &mut Command, input: Stdio) -> Vec<u8> {
    let ran = ran_given(command, input);
    let log = String::from_utf8_lossy(&ran.out);
    assert!(ran.status == 0, "{ran:?}\nwith all its output '{log}'");
    ran.out
}

/// Runs a program that may end as it likes.
pub fn ran(command: &mut Command) -> Ran {
    ran_given(command, Stdio::null())
}

fn ran_given(command: &mut Command, input: Stdio) -> Ran {
    let limit = limit_of(command);
    let started = Running::start(command.stdin(input).stdout(Stdio::piped()), limit);
    let running = started.unwrap_or_else(|error| {
        panic!("{error}; Debian has it in f2fs-tools, grub-common, make or valgrind")
    });
    running.end()
}

pub fn formatted(megabytes: usize, options: &str) -> Image {
    let scratch = Scratch::new();
    scratch.format(megabytes, options);
    scratch.image(format!("mkfs.f2fs {options} of {megabytes} MB"))
}

/// An image file with these files in its root directory.
pub fn file_with(megabytes: usize, options: &str, files: &[File]) -> Scratch {
    file_in_turn(megabytes, options, &[files])
}

/// The same, with files that come later over those that are there.
fn file_in_turn(megabytes: usize, options: &str, turns: &[&[File]]) -> Scratch {
    let scratch = Scratch::new();
    scratch.format(megabytes, options);
    for files in turns {
        scratch.fill(None, files);
    }
    scratch
}

/// Such an image in memory.
pub fn filled_with(megabytes: usize, options: &str, files: &[File]) -> Image {
    filled_in_turn(megabytes, options, &[files])
}

pub fn filled_in_turn(megabytes: usize, options: &str, turns: &[&[File]]) -> Image {
    let scratch = file_in_turn(megabytes, options, turns);
    scratch.image(format!(
        "sload.f2fs over mkfs.f2fs {options} of {megabytes} MB"
    ))
}

/// Files, and symbolic links each with where it leads.
pub fn filled_with_links(megabytes: usize, files: &[File], links: &[(&str, &str)]) -> Image {
    let scratch = Scratch::new();
    scratch.format(megabytes, "");
    scratch.lay_out(None, files);
    for (name, to) in links {
        symlink(to, scratch.file_path(name.as_bytes())).expect("a link");
    }
    scratch.load(None);
    scratch.image(format!("sload.f2fs with the links {links:?}"))
}

/// The same with one date everywhere and, by -r, without a random version in each node. Two such cards
/// differ where their files do, and in the volume's name.
pub fn filled_on(megabytes: usize, date: u32, files: &[File]) -> Image {
    let scratch = Scratch::new();
    let options = format!("-r -T {date}");
    scratch.format(megabytes, &options);
    scratch.fill(Some(date), files);
    scratch.image(format!(
        "sload.f2fs and mkfs.f2fs {options} of {megabytes} MB"
    ))
}

/// Files in a root directory with this level. No option of mkfs.f2fs gives it one, so it is written by hand; sload.f2fs
/// then puts the files where it says.
pub fn filled_with_level(megabytes: usize, level: u32, files: &[File]) -> Image {
    let scratch = Scratch::new();
    scratch.format(megabytes, "");
    let mut image = scratch.image("mkfs.f2fs".to_string());
    let root = root_block(&image);
    image.set(root, I_DIR_LEVEL, u64::from(level));
    image.save(&scratch.image_path());
    scratch.fill(None, files);
    scratch.image(format!(
        "sload.f2fs with level {level} over mkfs.f2fs of {megabytes} MB"
    ))
}

/// The block of the root directory's inode.
pub fn root_block(image: &Image) -> u32 {
    let found = reference::lookup::node_lookup(image.bytes(), ROOT);
    let (_, address) = found.expect("the root's number in the table");
    address
}

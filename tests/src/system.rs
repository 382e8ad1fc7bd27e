//! What Rust's library doesn't have: mapped memory, the room on a disk, the greatest length of files, and where a sparse
//! file has data. All of it is Linux's on 64 bits.

use std::ffi::{c_char, c_int, c_void, CString};
use std::fs::File;
use std::io::{Error, Result};
use std::ops::{Deref, DerefMut, Range};
use std::os::fd::AsRawFd;
use std::os::unix::ffi::OsStrExt;
use std::os::unix::fs::MetadataExt;
use std::path::Path;
use std::{ptr, slice};

/// Of x86-64.
const PAGE: usize = 4096;
const PROT_NONE: c_int = 0;
const PROT_READ: c_int = 1;
const PROT_WRITE: c_int = 2;
const MAP_PRIVATE: c_int = 0x2;
const MAP_ANONYMOUS: c_int = 0x20;
const MAP_NORESERVE: c_int = 0x4000;
const MADV_NOHUGEPAGE: c_int = 15;
const SEEK_DATA: c_int = 3;
const SEEK_HOLE: c_int = 4;
/// There is no data any more.
const ENXIO: i32 = 6;
/// The greatest length of files, which is two numbers: the limit now, and the most that it can be.
const RLIMIT_FSIZE: c_int = 1;

/// `struct statvfs`: among others the size in which room is counted, and how much an ordinary user can have.
#[derive(Default)]
#[repr(C)]
struct Disk {
    bsize: u64,
    frsize: u64,
    blocks: u64,
    bfree: u64,
    bavail: u64,
    others: [u64; 9],
}

extern "C" {
    fn mmap(
        address: *mut c_void,
        len: usize,
        protection: c_int,
        flags: c_int,
        file: c_int,
        offset: i64,
    ) -> *mut c_void;
    fn munmap(address: *mut c_void, len: usize) -> c_int;
    fn mprotect(address: *mut c_void, len: usize, protection: c_int) -> c_int;
    fn madvise(address: *mut c_void, len: usize, advice: c_int) -> c_int;
    fn lseek(file: c_int, offset: i64, whence: c_int) -> i64;
    fn statvfs(path: *const c_char, disk: *mut Disk) -> c_int;
    fn getrlimit(resource: c_int, limits: *mut [u64; 2]) -> c_int;
}

/// Maps so many bytes; without a file they are zeros.
fn map(len: usize, protection: c_int, flags: c_int, file: Option<&File>) -> Result<*mut u8> {
    let file = file.map_or(-1, AsRawFd::as_raw_fd);
    // SAFETY: a fresh mapping, which is over nothing that is in use.
    let start = unsafe { mmap(ptr::null_mut(), len, protection, flags, file, 0) };
    match start as isize {
        -1 => Err(Error::last_os_error()),
        _ => Ok(start.cast()),
    }
}

/// Zeros that can be written to. They are only addresses: a page takes memory once it is written to, and not yet when
/// it is read.
pub struct Zeros {
    start: *mut u8,
    len: usize,
}

impl Zeros {
    pub fn new(len: usize) -> Zeros {
        let flags = MAP_PRIVATE | MAP_ANONYMOUS | MAP_NORESERVE;
        let start = map(len, PROT_READ | PROT_WRITE, flags, None);
        let start = start.unwrap_or_else(|error| panic!("{len} bytes of zeros: {error}"));
        // A byte is to cost a page and not the 2 MB around it. A system without such pages refuses this, which is fine.
        // SAFETY: it changes no byte.
        unsafe { madvise(start.cast(), len, MADV_NOHUGEPAGE) };
        Zeros { start, len }
    }
}

impl Deref for Zeros {
    type Target = [u8];

    fn deref(&self) -> &[u8] {
        // SAFETY: mmap gave so many bytes, which are this value's own.
        unsafe { slice::from_raw_parts(self.start, self.len) }
    }
}

impl DerefMut for Zeros {
    fn deref_mut(&mut self) -> &mut [u8] {
        // SAFETY: as above.
        unsafe { slice::from_raw_parts_mut(self.start, self.len) }
    }
}

impl Drop for Zeros {
    fn drop(&mut self) {
        // SAFETY: this value is all that knows of the bytes.
        unsafe { munmap(self.start.cast(), self.len) };
    }
}

// SAFETY: they are bytes of its own, as a Vec's are.
unsafe impl Send for Zeros {}
unsafe impl Sync for Zeros {}

/// Pages between two that can't be touched: a read there ends the program.
pub struct Guarded {
    start: *mut u8,
    len: usize,
}

impl Guarded {
    pub fn new(pages: usize) -> Guarded {
        let len = pages * PAGE;
        let all = map(len + 2 * PAGE, PROT_NONE, MAP_PRIVATE | MAP_ANONYMOUS, None);
        let all = all.unwrap_or_else(|error| panic!("{pages} pages with guards: {error}"));
        let start = all.wrapping_add(PAGE);
        // SAFETY: all but the first and the last page of the mapping.
        let status = unsafe { mprotect(start.cast(), len, PROT_READ | PROT_WRITE) };
        assert_eq!(status, 0, "{}", Error::last_os_error());
        Guarded { start, len }
    }

    /// A copy of these bytes, from a place on.
    pub fn lend(&mut self, at: usize, bytes: &[u8]) -> &mut [u8] {
        assert!(at + bytes.len() <= self.len, "room between the guards");
        // SAFETY: so many bytes are there, which are this value's own.
        unsafe {
            let lent = slice::from_raw_parts_mut(self.start.add(at), bytes.len());
            lent.copy_from_slice(bytes);
            lent
        }
    }

    /// A copy of these bytes that ends where the last page does.
    pub fn lend_at_end(&mut self, bytes: &[u8]) -> &mut [u8] {
        self.lend(self.len - bytes.len(), bytes)
    }
}

impl Drop for Guarded {
    fn drop(&mut self) {
        let all = self.start.wrapping_sub(PAGE);
        // SAFETY: this value is all that knows of the pages.
        unsafe { munmap(all.cast(), self.len + 2 * PAGE) };
    }
}

/// The bytes of a file that nobody writes any more. They stay mapped as long as the program runs.
pub fn mapped(path: &Path) -> &'static [u8] {
    let mapped = File::open(path).and_then(|file| {
        let len = file.metadata()?.len() as usize;
        Ok((map(len, PROT_READ, MAP_PRIVATE, Some(&file))?, len))
    });
    let (start, len) = mapped.unwrap_or_else(|error| panic!("{}: {error}", path.display()));
    // SAFETY: mmap gave so many bytes, which are never taken back.
    unsafe { slice::from_raw_parts(start, len) }
}

/// The next part of a file, from a place on, that has data. What lies before it is a hole.
pub fn next_data(file: &File, from: u64) -> Option<Range<u64>> {
    let seek = |from: u64, whence| {
        // SAFETY: only numbers cross.
        let found = unsafe { lseek(file.as_raw_fd(), from as i64, whence) };
        u64::try_from(found).map_err(|_| Error::last_os_error())
    };
    match seek(from, SEEK_DATA) {
        Ok(start) => Some(start..seek(start, SEEK_HOLE).expect("an end of data")),
        Err(error) if error.raw_os_error() == Some(ENXIO) => None,
        Err(error) => panic!("data of a file: {error}"),
    }
}

/// How many bytes can still be written where a folder is.
fn free_room(folder: &Path) -> u64 {
    let path = CString::new(folder.as_os_str().as_bytes()).expect("a path");
    let mut disk = Disk::default();
    // SAFETY: the path ends with a zero, and the struct has the length and layout that is written.
    let status = unsafe { statvfs(path.as_ptr(), &mut disk) };
    assert_eq!(
        status,
        0,
        "{}: {}",
        folder.display(),
        Error::last_os_error()
    );
    disk.bavail * disk.frsize
}

/// There has to be so much room in a folder.
pub fn need_room(folder: &Path, bytes: u64) {
    let free = free_room(folder);
    assert!(
        free >= bytes,
        "{} has room for {free} bytes, and {bytes} are needed",
        folder.display()
    );
}

/// Files have to be allowed so many bytes: past the limit a signal would end the program.
fn need_length(len: u64) {
    let mut limits = [0; 2];
    // SAFETY: two numbers are written.
    let status = unsafe { getrlimit(RLIMIT_FSIZE, &mut limits) };
    assert_eq!(status, 0, "{}", Error::last_os_error());
    let limit = limits[0];
    assert!(
        len <= limit,
        "a file may have {limit} bytes, and {len} are needed"
    );
}

/// Cuts a file, or puts a hole behind it.
pub fn resize(path: &Path, len: u64) -> File {
    need_length(len);
    let file = File::options().read(true).write(true).open(path);
    let sized = file.and_then(|file| {
        file.set_len(len)?;
        Ok(file)
    });
    sized.unwrap_or_else(|error| panic!("{} can't have {len} bytes: {error}", path.display()))
}

/// A new file of so many bytes, that are all a hole.
pub fn sparse_file(path: &Path, len: u64) -> File {
    File::create(path).unwrap_or_else(|error| panic!("{}: {error}", path.display()));
    let file = resize(path, len);
    let taken = file.metadata().expect("a file's room").blocks() * 512;
    let most = len / 1024 + (1 << 16);
    assert!(
        taken <= most,
        "a hole of {len} bytes takes {taken} in {}",
        path.display()
    );
    file
}

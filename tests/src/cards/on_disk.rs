//! Images as files, for the tests of the program.

use std::fs::File;
use std::io::{Seek, SeekFrom, Write};
use std::path::PathBuf;
use std::sync::{Arc, Mutex, PoisonError, Weak};

use crate::cards::image::Image;
use crate::cards::layout::BLOCK_SIZE;
use crate::tools::published::Scratch;

/// An image that is also a file.
pub struct OnDisk {
    pub image: Image,
    pub scratch: Scratch,
}

impl OnDisk {
    pub fn new(image: Image) -> OnDisk {
        let on_disk = OnDisk {
            image,
            scratch: Scratch::new(),
        };
        on_disk.image.save(&on_disk.path());
        on_disk
    }

    pub fn path(&self) -> PathBuf {
        self.scratch.path("card.img")
    }

    /// Writes the blocks anew that a test has changed in the image.
    pub fn write_blocks(&self, blocks: &[u32]) {
        let file = File::options().write(true).open(self.path());
        let mut file = file.expect("the image");
        for &block in blocks {
            let place = u64::from(block) * BLOCK_SIZE as u64;
            file.seek(SeekFrom::Start(place)).expect("its place");
            file.write_all(self.image.block(block)).expect("its bytes");
        }
    }
}

/// Something that tests share as long as one of them uses it.
pub struct Shared<T>(Mutex<Weak<T>>);

impl<T> Shared<T> {
    pub const fn empty() -> Shared<T> {
        Shared(Mutex::new(Weak::new()))
    }

    pub fn get(&self, make: impl FnOnce() -> T) -> Arc<T> {
        let held = self.0.lock();
        let mut held = held.unwrap_or_else(PoisonError::into_inner);
        held.upgrade().unwrap_or_else(|| {
            let made = Arc::new(make());
            *held = Arc::downgrade(&made);
            made
        })
    }
}

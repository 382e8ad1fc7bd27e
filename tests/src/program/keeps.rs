//! Keep files for the program's tests, by the reference.

use std::fs;
use std::path::PathBuf;

use crate::calls::keep_files::reference_read;
use crate::calls::keep_parts::Parts;
use crate::cards::image::Image;
use crate::cards::on_disk::OnDisk;
use crate::sizes::{keep_most, NAMES_MOST};

/// The keep file of a pull, or what is answered in its place.
pub fn kept(image: &Image, path: &[u8], index: u32) -> Result<Vec<u8>, u32> {
    let mut room = vec![0; keep_most(NAMES_MOST) as usize];
    let kept = reference::keep::keep(image.bytes(), path, index, &mut room);
    room.truncate(kept.length as usize);
    match kept.answer {
        0 => Ok(room),
        answer => Err(answer),
    }
}

/// What is in a keep file.
pub fn parts(file: &[u8]) -> Parts {
    let fields = reference_read(file);
    assert_eq!(fields.answer, 0, "a keep file");
    Parts::of_file(file, &fields)
}

/// Puts bytes under a name beside a card.
pub fn beside(card: &OnDisk, name: &str, bytes: &[u8]) -> PathBuf {
    let path = card.scratch.path(name);
    fs::write(&path, bytes).unwrap();
    path
}

/// The keep file of a pull beside its card.
pub fn kept_beside(card: &OnDisk, name: &str, path: &[u8], index: u32) -> PathBuf {
    let file = kept(&card.image, path, index);
    beside(card, name, &file.expect("a card that opens, and a path"))
}

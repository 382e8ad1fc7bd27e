//! Images of disks with partition tables, made byte by byte. What isn't written takes no room.

use std::fs::File;
use std::os::unix::fs::FileExt;
use std::path::PathBuf;

use crate::cards::image::Image;
use crate::system::{need_room, resize, sparse_file};
use crate::tools::published::Scratch;

/// An MBR counts in these.
pub const SECTOR: u64 = 512;

pub const LINUX: u8 = 0x83;
/// The kinds of extended partitions.
pub const EXTENDED: [u8; 3] = [0x05, 0x0F, 0x85];
pub const PROTECTIVE: u8 = 0xEE;

/// Where an MBR has its entries.
pub const ENTRIES: u64 = 446;
pub const ENTRY_SIZE: u64 = 16;

/// An entry of an MBR: its kind, first sector and count of sectors.
#[derive(Clone, Copy, Debug)]
pub struct MbrEntry {
    pub kind: u8,
    pub first: u32,
    pub sectors: u32,
}

pub const EMPTY: MbrEntry = MbrEntry {
    kind: 0,
    first: 0,
    sectors: 0,
};

pub fn entry(kind: u8, first: u32, sectors: u32) -> MbrEntry {
    MbrEntry {
        kind,
        first,
        sectors,
    }
}

/// A used entry of a GPT: its number, and its first and last sector.
#[derive(Clone, Copy, Debug)]
pub struct GptEntry {
    pub number: u32,
    pub first: u64,
    pub last: u64,
}

/// How a GPT is laid out.
#[derive(Clone, Copy, Debug)]
pub struct GptForm {
    pub sector: u64,
    pub entry_size: u32,
    pub entries: u32,
}

impl GptForm {
    pub const USUAL: GptForm = GptForm {
        sector: 512,
        entry_size: 128,
        entries: 128,
    };

    fn table_len(self) -> u64 {
        u64::from(self.entry_size) * u64::from(self.entries)
    }

    fn table_sectors(self) -> u64 {
        self.table_len().div_ceil(self.sector)
    }
}

pub struct Disk {
    pub scratch: Scratch,
    file: File,
    pub len: u64,
}

impl Disk {
    pub fn new(len: u64) -> Disk {
        let scratch = Scratch::new();
        let file = sparse_file(&scratch.path("disk.img"), len);
        Disk { scratch, file, len }
    }

    pub fn path(&self) -> PathBuf {
        self.scratch.path("disk.img")
    }

    pub fn set_len(&self, len: u64) {
        resize(&self.path(), len);
    }

    pub fn put(&self, at: u64, bytes: &[u8]) {
        self.file.write_all_at(bytes, at).expect("a disk's bytes");
    }

    /// Changes one byte to any other.
    pub fn spoil(&self, at: u64) {
        let mut byte = [0];
        self.file.read_exact_at(&mut byte, at).expect("a byte");
        self.put(at, &[byte[0] ^ 0x5A]);
    }

    pub fn put_card(&self, at: u64, image: &Image) {
        let room = image.data().map(|(_, block)| block.len() as u64).sum();
        need_room(self.scratch.folder(), room);
        for (place, block) in image.data() {
            self.put(at + place as u64, block);
        }
    }

    /// Writes the sector of an MBR, or of an extended partition's chain.
    pub fn put_mbr(&self, sector: u64, entries: &[MbrEntry]) {
        let start = sector * SECTOR;
        for (i, entry) in entries.iter().enumerate() {
            let numbers = [entry.first.to_le_bytes(), entry.sectors.to_le_bytes()];
            let bytes = [&[0, 0, 0, 0, entry.kind, 0, 0, 0], numbers.as_flattened()].concat();
            self.put(start + ENTRIES + ENTRY_SIZE * i as u64, &bytes);
        }
        self.put(start + 510, &[0x55, 0xAA]);
    }

    /// Writes a GPT with its copy at the end.
    pub fn put_gpt(&self, form: GptForm, entries: &[GptEntry]) {
        self.put_mbr(0, &[entry(PROTECTIVE, 1, u32::MAX)]);
        let mut table = vec![0; form.table_len() as usize];
        for entry in entries {
            let at = (entry.number as usize - 1) * form.entry_size as usize;
            table[at..at + 32].fill(0xA5);
            table[at + 32..at + 40].copy_from_slice(&entry.first.to_le_bytes());
            table[at + 40..at + 48].copy_from_slice(&entry.last.to_le_bytes());
        }
        let last = self.len / form.sector - 1;
        let second_table = last - form.table_sectors();
        self.put_header(form, (1, 2), last, &table);
        self.put_header(form, (last, second_table), 1, &table);
    }

    /// Writes a header and its table to these sectors.
    fn put_header(&self, form: GptForm, (at, table_at): (u64, u64), other: u64, table: &[u8]) {
        let mut header = vec![0; 92];
        let mut put = |at: usize, bytes: &[u8]| header[at..at + bytes.len()].copy_from_slice(bytes);
        put(0, b"EFI PART\x00\x00\x01\x00");
        put(12, &92u32.to_le_bytes());
        put(24, &at.to_le_bytes());
        put(32, &other.to_le_bytes());
        put(72, &table_at.to_le_bytes());
        put(80, &form.entries.to_le_bytes());
        put(84, &form.entry_size.to_le_bytes());
        put(88, &crc32(table).to_le_bytes());
        let sum = crc32(&header);
        header[16..20].copy_from_slice(&sum.to_le_bytes());
        self.put(at * form.sector, &header);
        self.put(table_at * form.sector, table);
    }
}

/// The usual CRC-32, as a GPT has it.
pub fn crc32(bytes: &[u8]) -> u32 {
    let each = |crc: u32, &byte: &u8| {
        let shift = |crc: u32, _| (crc >> 1) ^ if crc & 1 == 1 { 0xEDB8_8320 } else { 0 };
        (0..8).fold(crc ^ u32::from(byte), shift)
    };
    !bytes.iter().fold(!0, each)
}

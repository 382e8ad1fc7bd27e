//! The checkpoint checksum's own archive. It never meets libharptimber.a in one program: both would
//! bring the same inner functions.

#[link(name = "crc32_export", kind = "static")]
extern "C" {
    fn crc32_export_checksum(bytes: *const u8, len: usize) -> u32;
}

pub fn checksum(bytes: &[u8]) -> u32 {
    // SAFETY: a slice's pointer is never null, and its bytes can be read.
    unsafe { crc32_export_checksum(bytes.as_ptr(), bytes.len()) }
}

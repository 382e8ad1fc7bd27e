//! The checksum of checkpoint blocks.

/// "the reflected CRC-32, polynomial EDB88320, start value F2F52010, no final complement"
pub fn checksum(bytes: &[u8]) -> u32 {
    crc32_from(0xF2F5_2010, bytes)
}

/// The reflected CRC-32 register after `bytes`, begun at `start`; one bit at a time.
fn crc32_from(start: u32, bytes: &[u8]) -> u32 {
    let mut register = start;
    for &byte in bytes {
        register ^= u32::from(byte);
        for _ in 0..8 {
            let low_bit = register & 1;
            register >>= 1;
            if low_bit == 1 {
                register ^= 0xEDB8_8320;
            }
        }
    }
    register
}

#[cfg(test)]
mod tests {
    use super::*;

    #[test]
    fn no_bytes_leave_the_start_value() {
        assert_eq!(checksum(b""), 0xF2F5_2010);
    }

    /// The published check value of this polynomial, which is stated for start value FFFFFFFF
    /// and with the final complement.
    #[test]
    fn published_check_value() {
        assert_eq!(!crc32_from(0xFFFF_FFFF, b"123456789"), 0xCBF4_3926);
    }
}

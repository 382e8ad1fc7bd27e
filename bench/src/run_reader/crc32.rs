//! The checksum of checkpoint blocks, eight bytes a step.

const POLYNOMIAL: u32 = 0xEDB8_8320;
const START: u32 = 0xF2F5_2010;

/// What a byte becomes after 0 to 7 bytes more.
static TABLES: [[u32; 256]; 8] = tables();

const fn tables() -> [[u32; 256]; 8] {
    let mut tables = [[0; 256]; 8];
    let mut n = 0;
    while n < 2048 {
        let (table, byte) = (n / 256, n % 256);
        let mut register = if table == 0 {
            byte as u32
        } else {
            tables[table - 1][byte]
        };
        let mut bit = 0;
        while bit < 8 {
            register = (register >> 1) ^ (POLYNOMIAL * (register & 1));
            bit += 1;
        }
        tables[table][byte] = register;
        n += 1;
    }
    tables
}

pub fn checksum(bytes: &[u8]) -> u32 {
    let mut register = START;
    let eights = bytes.chunks_exact(8);
    let rest = eights.remainder();
    for eight in eights {
        let low = register ^ u32::from_le_bytes([eight[0], eight[1], eight[2], eight[3]]);
        let bytes = low.to_le_bytes();
        register = TABLES[7][bytes[0] as usize]
            ^ TABLES[6][bytes[1] as usize]
            ^ TABLES[5][bytes[2] as usize]
            ^ TABLES[4][bytes[3] as usize]
            ^ TABLES[3][eight[4] as usize]
            ^ TABLES[2][eight[5] as usize]
            ^ TABLES[1][eight[6] as usize]
            ^ TABLES[0][eight[7] as usize];
    }
    for &byte in rest {
        register = (register >> 8) ^ TABLES[0][(register as u8 ^ byte) as usize];
    }
    register
}

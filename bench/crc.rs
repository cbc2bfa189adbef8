//! CRC-32C, eight bytes at a time.

const REVERSED_POLYNOMIAL: u32 = 0x82F6_3B78;

static TABLES: [[u32; 256]; 8] = tables();

const fn tables() -> [[u32; 256]; 8] {
    let mut tables = [[0; 256]; 8];
    let mut byte = 0;
    while byte < 256 {
        let (mut rest, mut bit) = (byte as u32, 0);
        while bit < 8 {
            rest = if rest & 1 == 1 { REVERSED_POLYNOMIAL ^ (rest >> 1) } else { rest >> 1 };
            bit += 1;
        }
        tables[0][byte] = rest;
        byte += 1;
    }
    let mut table = 1;
    while table < 8 {
        let mut byte = 0;
        while byte < 256 {
            let before = tables[table - 1][byte];
            tables[table][byte] = tables[0][(before & 255) as usize] ^ (before >> 8);
            byte += 1;
        }
        table += 1;
    }
    tables
}

pub fn of(bytes: &[u8]) -> u32 {
    let mut crc = !0;
    let mut chunks = bytes.chunks_exact(8);
    for chunk in &mut chunks {
        let word = u64::from_le_bytes(chunk.try_into().unwrap()) ^ crc as u64;
        crc = (0..8).fold(0, |sum, i| sum ^ TABLES[7 - i][(word >> (8 * i)) as usize & 255]);
    }
    for byte in chunks.remainder() {
        crc = TABLES[0][((crc ^ *byte as u32) & 255) as usize] ^ (crc >> 8);
    }
    !crc
}

//! CRC-16 with the polynomial x^16 + x^15 + x^2 + 1, least significant bit first, eight bytes at a time.

/// `TABLES[0]` has what eight zero bits make of a byte; each next table has what eight more make of it.
static TABLES: [[u16; 256]; 8] = tables();

const fn tables() -> [[u16; 256]; 8] {
    let mut tables = [[0; 256]; 8];
    let mut byte = 0;
    while byte < 256 {
        let mut remainder = byte as u16;
        let mut bit = 0;
        while bit < 8 {
            remainder = (remainder >> 1) ^ (if remainder & 1 == 1 { 0xA001 } else { 0 });
            bit += 1;
        }
        tables[0][byte] = remainder;
        byte += 1;
    }
    let mut table = 1;
    while table < 8 {
        let mut byte = 0;
        while byte < 256 {
            let before = tables[table - 1][byte];
            tables[table][byte] = (before >> 8) ^ tables[0][(before & 0xFF) as usize];
            byte += 1;
        }
        table += 1;
    }
    tables
}

fn remainder(start: u16, bytes: &[u8]) -> u16 {
    let mut sum = start;
    let (eights, rest) = bytes.as_chunks::<8>();
    for &[a, b, c, d, e, f, g, h] in eights {
        let entry = |table: usize, byte: u8| TABLES[table][usize::from(byte)];
        // Only the first two look-ups wait for the sum before.
        let later = entry(5, c) ^ entry(4, d) ^ entry(3, e) ^ entry(2, f) ^ entry(1, g) ^ entry(0, h);
        sum = entry(7, sum as u8 ^ a) ^ entry(6, (sum >> 8) as u8 ^ b) ^ later;
    }
    for &byte in rest {
        sum = (sum >> 8) ^ TABLES[0][usize::from(sum as u8 ^ byte)];
    }
    sum
}

/// CRC-16/ARC, of messages.
pub fn arc(bytes: &[u8]) -> u16 {
    remainder(0x0000, bytes)
}

/// CRC-16/MODBUS, of records.
pub fn modbus(bytes: &[u8]) -> u16 {
    remainder(0xFFFF, bytes)
}

/// Four capital digits, high digit first.
pub fn digits(sum: u16) -> [u8; 4] {
    [12, 8, 4, 0].map(|shift| b"0123456789ABCDEF"[usize::from(sum >> shift & 15)])
}

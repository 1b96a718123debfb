//! The two checksums: CRC-16/ARC for messages (001 clause 5.2) and
//! CRC-16/MODBUS for records (003 clause 5.5). They differ in the start only.

/// x^16 + x^15 + x^2 + 1 with the least significant bit first.
const POLYNOMIAL: u16 = 0xA001;

const TABLE: [u16; 256] = table();

const fn table() -> [u16; 256] {
    let mut table = [0; 256];
    let mut byte = 0;
    while byte < 256 {
        let mut remainder = byte as u16;
        let mut bit = 0;
        while bit < 8 {
            remainder = if remainder & 1 == 1 { (remainder >> 1) ^ POLYNOMIAL } else { remainder >> 1 };
            bit += 1;
        }
        table[byte] = remainder;
        byte += 1;
    }
    table
}

fn remainder(start: u16, bytes: &[u8]) -> u16 {
    bytes.iter().fold(start, |sum, &byte| (sum >> 8) ^ TABLE[usize::from((sum as u8) ^ byte)])
}

pub fn arc(bytes: &[u8]) -> u16 {
    remainder(0x0000, bytes)
}

pub fn modbus(bytes: &[u8]) -> u16 {
    remainder(0xFFFF, bytes)
}

/// Four capital digits, high digit first, as the examples of 001 print them.
pub fn digits(sum: u16) -> [u8; 4] {
    const CAPITALS: &[u8; 16] = b"0123456789ABCDEF";
    [12, 8, 4, 0].map(|shift| CAPITALS[usize::from(sum >> shift & 15)])
}

#[cfg(test)]
mod tests {
    use super::*;

    #[test]
    fn sample_values() {
        assert_eq!(&digits(arc(b"")), b"0000");
        assert_eq!(&digits(arc(b"123456789")), b"BB3D");
        assert_eq!(&digits(arc(b"SM?DI")), b"9A51");
        assert_eq!(&digits(modbus(b"123456789")), b"4B37");
    }

    #[test]
    fn examples_of_001_clause_5_3() {
        assert_eq!(&digits(arc(b"SM!DI00P94001234~PSTS65V00~")), b"749F");
        assert_eq!(&digits(arc(b"SM?GAN12~")), b"8602");
        assert_eq!(&digits(arc(b"SM!GA22")), b"CA00");
        assert_eq!(&digits(arc(b"GL!ER20")), b"A624");
        assert_eq!(&digits(arc(b"SM?JUNK")), b"420B");
        assert_eq!(&digits(arc(b"GL!ER21")), b"66E5");
    }
}

//! Ends records with their CRC-16/MODBUS, for console scripts: `record TEXT..` prints each text, which ends in its last
//! delimiter, with the four digits after it.

use reference::crc;

fn main() {
    for text in std::env::args().skip(1) {
        println!("{text}{}", String::from_utf8_lossy(&crc::digits(crc::modbus(text.as_bytes()))));
    }
}

//! A response, written where it belongs.

use super::{crc, text};

pub struct Reply<'a> {
    buffer: &'a mut [u8],
    at: usize,
}

impl<'a> Reply<'a> {
    /// The buffer has 1,024 bytes or more, which every response fits into.
    pub fn new(buffer: &'a mut [u8], header: &[u8], status: &[u8; 2]) -> Self {
        let mut reply = Reply { buffer, at: 0 };
        reply.put(header);
        reply.buffer[2] = b'!';
        reply.put(status);
        reply
    }

    fn put(&mut self, bytes: &[u8]) {
        self.buffer[self.at..self.at + bytes.len()].copy_from_slice(bytes);
        self.at += bytes.len();
    }

    fn field(&mut self, kind: u8, value: &[u8]) -> &mut Self {
        self.buffer[self.at] = kind;
        self.at += 1;
        self.put(value);
        self.buffer[self.at] = b'~';
        self.at += 1;
        self
    }

    pub fn string(&mut self, value: &[u8]) -> &mut Self {
        self.field(b'P', value)
    }

    /// The octets are hexadecimal digits already.
    pub fn octets(&mut self, digits: &[u8]) -> &mut Self {
        self.field(b'H', digits)
    }

    /// A register's number, at most two digits.
    pub fn number(&mut self, number: usize) -> &mut Self {
        let digits = text::two_digits(number as u8);
        self.field(b'N', if number < 10 { &digits[1..] } else { &digits })
    }

    /// Checksum and carriage return; the length of the whole.
    pub fn end(&mut self) -> usize {
        let sum = crc::arc(&self.buffer[..self.at]);
        self.put(&crc::digits(sum));
        self.put(b"\r");
        self.at
    }
}

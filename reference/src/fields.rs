//! PTVD fields (001 clause 5.4, Table 6; document 01, "Checksum and fields").
//! The ten requests list numbers and strings only, so only these are read;
//! a date or octets there are of another type than the command lists.

use crate::text;

/// Goes over the payload and remembers how far it has read. Every fault of a
/// field (type, form, range, no end) is `None`, which question 8 refuses.
pub struct Reader<'a> {
    payload: &'a [u8],
    position: usize,
}

impl<'a> Reader<'a> {
    pub fn new(payload: &'a [u8]) -> Self {
        Reader { payload, position: 0 }
    }

    /// N, 1 to 10 digits without leading zero, 0 to 2147483647, ~.
    pub fn number(&mut self) -> Option<u64> {
        text::decimal(self.value(b'N')?).filter(|&number| number <= 2_147_483_647)
    }

    /// P, bytes 20 to 7D hexadecimal, ~.
    pub fn string(&mut self) -> Option<&'a [u8]> {
        self.value(b'P').filter(|value| value.iter().all(|byte| (0x20..=0x7D).contains(byte)))
    }

    /// Nothing over.
    pub fn at_end(&self) -> bool {
        self.position == self.payload.len()
    }

    /// What stands between the type letter and the next ~ . A ~ cannot be quoted.
    fn value(&mut self, kind: u8) -> Option<&'a [u8]> {
        let rest = &self.payload[self.position..];
        let end = rest.iter().position(|&byte| byte == b'~')?;
        let (&first, value) = rest[..end].split_first()?;
        if first != kind {
            return None;
        }
        self.position += end + 1;
        Some(value)
    }
}

/// Writes the fields of a reply.
#[derive(Default)]
pub struct Writer {
    pub payload: Vec<u8>,
}

impl Writer {
    pub fn number(&mut self, number: usize) -> &mut Self {
        self.field(b'N', number.to_string().as_bytes())
    }

    pub fn string(&mut self, value: &[u8]) -> &mut Self {
        self.field(b'P', value)
    }

    /// `digits` are the octets in hexadecimal already, as rows keep them.
    pub fn octets(&mut self, digits: &[u8]) -> &mut Self {
        self.field(b'H', digits)
    }

    fn field(&mut self, kind: u8, value: &[u8]) -> &mut Self {
        self.payload.push(kind);
        self.payload.extend_from_slice(value);
        self.payload.push(b'~');
        self
    }
}

#[cfg(test)]
mod tests {
    use super::*;

    #[test]
    fn numbers() {
        let number = |payload: &[u8]| Reader::new(payload).number();
        assert_eq!(number(b"N0~"), Some(0));
        assert_eq!(number(b"N99~"), Some(99));
        assert_eq!(number(b"N2147483647~"), Some(2_147_483_647));
        for bad in [&b"N2147483648~"[..], b"N01~", b"N~", b"N1", b"P1~", b"~", b"", b"n1~", b"N 1~", b"N9999999999~"] {
            assert_eq!(number(bad), None);
        }
    }

    #[test]
    fn strings_and_position() {
        assert_eq!(Reader::new(b"P~").string(), Some(&b""[..]));
        assert_eq!(Reader::new(b"P\x1F~").string(), None);
        assert_eq!(Reader::new(b"P\x7F~").string(), None);
        let mut reader = Reader::new(b"PMy KMC Name~N1~N2~");
        assert_eq!(reader.string(), Some(&b"My KMC Name"[..]));
        assert_eq!(reader.number(), Some(1));
        assert!(!reader.at_end());
        assert_eq!(reader.number(), Some(2));
        assert!(reader.at_end());
    }
}

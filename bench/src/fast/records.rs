//! Delimited records and the identities inside them.

use super::{crc, text};

/// The fields after the type; nothing where type, checksum, last delimiter or field count are wrong.
/// That the bytes are printable is asked by others: of a request by question 8, of the supplement by the forms of its fields.
pub fn parse<'a, const N: usize>(record: &'a [u8], kind: &[u8], delimiter: u8) -> Option<[&'a [u8]; N]> {
    if !record.starts_with(kind) || record.get(kind.len()) != Some(&delimiter) || record.len() < kind.len() + 5 {
        return None;
    }
    let (covered, checksum) = record.split_at(record.len() - 4);
    let mut fields = [&covered[..0]; N];
    let mut at = kind.len() + 1;
    for field in &mut fields {
        let end = text::find(covered, at, delimiter);
        if end == covered.len() {
            return None;
        }
        *field = &covered[at..end];
        at = end + 1;
    }
    (at == covered.len() && checksum == crc::digits(crc::modbus(covered))).then_some(fields)
}

#[derive(Clone, Copy)]
pub struct Identity<'a> {
    maker: &'a [u8],
    pub name: &'a [u8],
    time: &'a [u8],
    pub fingerprint: &'a [u8],
}

impl<'a> Identity<'a> {
    pub fn parse(record: &'a [u8], kind: &[u8]) -> Option<Self> {
        let [maker, name, time, fingerprint] = parse(record, kind, b':')?;
        Some(Identity { maker, name, time, fingerprint })
    }

    pub fn in_form(&self) -> bool {
        text::is_ident(self.maker)
            && text::is_ident(self.name)
            && text::is_timestamp(self.time)
            && self.fingerprint.len() == 16
            && text::is_hex(self.fingerprint)
    }
}

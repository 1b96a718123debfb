//! The card of a KEY.1 record, read in one pass, and what is stored of it.

use super::text;
use reference::RegisterRow;

/// The values of an incoming card that are stored; an optional one that is absent has its default, and SGN none.
pub struct Card<'a> {
    act: &'a [u8],
    bdt: &'a [u8],
    clm: &'a [u8],
    dkg: &'a [u8],
    iut: &'a [u8],
    ken: &'a [u8],
    krn: &'a [u8],
    ktc: &'a [u8],
    sbm: &'a [u8],
    sgc: &'a [u8],
    sgn: Option<&'a [u8]>,
    ulm: &'a [u8],
}

fn is_hex_of(value: &[u8], length: usize) -> bool {
    value.len() == length && text::is_hex(value)
}

fn is_ten_digits(value: &[u8]) -> bool {
    value.len() == 10 && value.iter().fold(true, |yes, byte| yes & byte.is_ascii_digit())
}

impl<'a> Card<'a> {
    /// Nothing where the card is out of form (question 10). It comes out of a string and from between two bars, so no value has a byte that none may have.
    pub fn read(card: &'a [u8]) -> Option<Self> {
        let mut read = Card {
            act: b"",
            bdt: b"",
            clm: b"FFFFFFFF",
            dkg: b"",
            iut: b"20380119T031407Z",
            ken: b"",
            krn: b"",
            ktc: b"",
            sbm: b"FFFF",
            sgc: b"",
            sgn: None,
            ulm: b"999999999",
        };
        let mut at = 0;
        let mut last = [0; 3];
        while at < card.len() {
            let end = text::find(card, at, b';');
            let entry = card.get(at..end).filter(|_| end < card.len())?;
            let (name, value) = entry.split_first_chunk::<3>()?;
            if *name <= last || !name.iter().all(u8::is_ascii_uppercase) {
                return None;
            }
            read.take(name, value)?;
            last = *name;
            at = end + 1;
        }
        let required = [read.act, read.bdt, read.dkg, read.ken, read.krn, read.ktc, read.sgc];
        required.iter().all(|value| !value.is_empty()).then_some(read)
    }

    fn take(&mut self, name: &[u8; 3], value: &'a [u8]) -> Option<()> {
        let (place, good) = match name {
            b"ACT" => (&mut self.act, text::is_timestamp(value)),
            b"BDT" => (&mut self.bdt, text::is_timestamp(value)),
            b"CLM" => (&mut self.clm, is_hex_of(value, 8)),
            b"DKG" => (&mut self.dkg, value == b"02" || value == b"04"),
            b"IUT" => (&mut self.iut, text::is_timestamp(value)),
            b"KEN" => (&mut self.ken, text::is_decimal(value, 0, 255)),
            b"KRN" => (&mut self.krn, text::is_decimal(value, 1, 9)),
            b"KTC" => (&mut self.ktc, text::is_decimal(value, 0, 3)),
            b"SBM" => (&mut self.sbm, is_hex_of(value, 4)),
            b"SGC" => (&mut self.sgc, is_ten_digits(value)),
            b"ULM" => (&mut self.ulm, text::is_decimal(value, 0, 999_999_999)),
            // The one that may be empty (document 02, N2).
            b"SGN" => {
                self.sgn = Some(value);
                return (value.len() <= 24).then_some(());
            }
            // The engine's own are dropped, but not empty.
            b"CLU" | b"KCV" | b"KSL" | b"VND" => return (!value.is_empty()).then_some(()),
            _ => return Some(()),
        };
        *place = value;
        good.then_some(())
    }

    /// SGC and KRN as one number, as `Known` has them.
    pub fn key(&self) -> u64 {
        self.sgc.iter().chain(self.krn).fold(0, |number, byte| number * 10 + u64::from(byte - b'0'))
    }

    /// Fills a register row; gives the length of its card.
    pub fn store(&self, row: &mut RegisterRow, slot: &[u8], check: &[u8]) -> usize {
        let start: [(&[u8; 3], &[u8]); 13] = [
            (b"ACT", self.act),
            (b"BDT", self.bdt),
            (b"CLM", self.clm),
            (b"CLU", b"0"),
            (b"DKG", self.dkg),
            (b"IUT", self.iut),
            (b"KCV", check),
            (b"KEN", self.ken),
            (b"KRN", self.krn),
            (b"KSL", slot),
            (b"KTC", self.ktc),
            (b"SBM", self.sbm),
            (b"SGC", self.sgc),
        ];
        let group_name: Option<(&[u8; 3], &[u8])> = self.sgn.map(|value| (b"SGN", value));
        let end: [(&[u8; 3], &[u8]); 2] = [(b"ULM", self.ulm), (b"VND", b"0")];
        let mut at = 0;
        for (name, value) in start.into_iter().chain(group_name).chain(end) {
            row.card[at..at + 3].copy_from_slice(name);
            row.card[at + 3..at + 3 + value.len()].copy_from_slice(value);
            at += 4 + value.len();
            row.card[at - 1] = b';';
        }
        row.card[at..].fill(0);
        at
    }
}

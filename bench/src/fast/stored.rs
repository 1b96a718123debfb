//! A card as stored, judged in one pass. Up to KEN, and from KTC to ULM or SGN, all stands at fixed places, which are
//! compared by ranges without a branch.

use super::names::Names;
use super::text;

/// For each place of a text the lowest byte, the span of bytes above it, and whether a hexadecimal digit stands there.
struct Shape<const N: usize> {
    low: [u8; N],
    span: [u8; N],
    hex: [u8; N],
}

impl<const N: usize> Shape<N> {
    /// In the pattern # is a decimal digit, @ a hexadecimal one and * any byte; any other byte is itself.
    const fn new(pattern: &[u8; N]) -> Self {
        let mut shape = Shape { low: *pattern, span: [0; N], hex: [0; N] };
        let mut place = 0;
        while place < N {
            if pattern[place] == b'#' {
                (shape.low[place], shape.span[place]) = (b'0', 9);
            }
            if pattern[place] == b'*' {
                (shape.low[place], shape.span[place]) = (0, 255);
            }
            if pattern[place] == b'@' {
                (shape.low[place], shape.span[place], shape.hex[place]) = (b'0', b'F' - b'0', 1);
            }
            place += 1;
        }
        shape
    }

    fn fits(&self, text: &[u8; N]) -> bool {
        let mut wrong = 0;
        for (place, &byte) in text.iter().enumerate() {
            wrong |= u8::from(byte.wrapping_sub(self.low[place]) > self.span[place]);
            // Between 9 and A stand seven other bytes.
            wrong |= u8::from(byte.wrapping_sub(b':') < 7) & self.hex[place];
        }
        wrong == 0
    }
}

const START: usize = 96;
static FIRST: Shape<START> =
    Shape::new(b"ACT########T######Z;BDT########T######Z;CLM@@@@@@@@;CLU0;DKG0#;IUT########T######Z;KCV@@@@@@;KEN");
static SECOND: Shape<16> = Shape::new(b";KRN#;KSL*******");
static THIRD: Shape<32> = Shape::new(b";KTC#;SBM@@@@;SGC##########;ULM#");
/// The same in a card with SGN.
static NAMED: Shape<32> = Shape::new(b";KTC#;SBM@@@@;SGC##########;SGN*");

/// What a stored card says that other rows are compared with.
pub struct Held {
    /// SGC and KRN as one number, never 0.
    pub key: u64,
    /// The place of its slot among the names.
    pub slot: usize,
}

fn part<const N: usize>(card: &[u8; 256], at: usize) -> Option<&[u8; N]> {
    card.get(at..)?.first_chunk()
}

/// The length of a number of 1 to 9 digits without leading zero.
#[inline]
fn nine_digits(card: &[u8; 256], at: usize) -> Option<usize> {
    let bytes: &[u8; 10] = part(card, at)?;
    let word = text::word(bytes.first_chunk()?);
    let mut length = text::leading_digits(word);
    if length == 8 && bytes[8].is_ascii_digit() {
        length = 9;
    }
    let good = length == 1 || (length > 1 && bytes[0] != b'0');
    good.then_some(length)
}

/// The number under KEN, 0 to 255, and its length.
fn is_expiry(bytes: &[u8; 4], length: usize) -> bool {
    let value = |place: usize| u32::from(bytes[place] & 15);
    match length {
        1 => true,
        2 => bytes[0] != b'0',
        3 => bytes[0] != b'0' && value(0) * 100 + value(1) * 10 + value(2) <= 255,
        _ => false,
    }
}

/// The places of the second half of a card, for a comparison without a branch.
static PLACES: [u8; 128] = {
    let mut places = [0; 128];
    let mut place = 0;
    while place < 128 {
        places[place] = place as u8;
        place += 1;
    }
    places
};

/// Whether all is zero from a place on, which no stored card has in its first half.
fn is_zero_from(card: &[u8; 256], at: usize) -> bool {
    let (Some(used), Some(half)) = (at.checked_sub(128), card.last_chunk::<128>()) else { return false };
    let used = used.min(128) as u8;
    let mut all = 0;
    for (&byte, &place) in half.iter().zip(&PLACES) {
        all |= byte & if place < used { 0 } else { 0xFF };
    }
    all == 0
}

/// The place of ULM's value in a card with SGN: 0 to 24 bytes that a value may have (document 02, N2). A function of
/// its own, so that cards without SGN take no longer.
#[inline(never)]
fn after_group_name(card: &[u8; 256], at: usize) -> Option<usize> {
    if !NAMED.fits(part(card, at)?) {
        return None;
    }
    let at = at + 31;
    let bytes: &[u8; 32] = part(card, at)?;
    let length = text::find(bytes, 0, b';');
    let mut wrong = length > 24;
    for (&byte, &place) in bytes.iter().zip(&PLACES) {
        let other = (byte.wrapping_sub(0x20) > 0x7D - 0x20) | (byte == b'|');
        wrong |= other & (place < length as u8);
    }
    (!wrong && part(card, at + length)? == b";ULM").then_some(at + length + 4)
}

/// The card of a row that is not free, where it is as stored and its slot is among the names.
pub fn judge(card: &[u8; 256], names: &Names) -> Option<Held> {
    let first: &[u8; START] = card.first_chunk()?;
    let moment = |at: usize| part(card, at).is_some_and(text::is_moment);
    let generation = card[61];
    if !FIRST.fits(first) || !(generation == b'2' || generation == b'4') {
        return None;
    }
    if !(moment(3) & moment(23) & moment(66)) {
        return None;
    }

    let number: &[u8; 8] = part(card, START)?;
    let length = text::leading_digits(text::word(number));
    if !is_expiry(number.first_chunk()?, length) {
        return None;
    }
    let at = START + length;
    let second = part(card, at)?;
    let revision = second[4];
    if !SECOND.fits(second) || revision == b'0' {
        return None;
    }

    let at = at + 9;
    // A sound slot's name is in form, so the value of KSL is too.
    let (slot, length) = names.place(part(card, at)?)?;
    let at = at + length;
    let third = part(card, at)?;
    let at = if THIRD.fits(third) { at + 31 } else { after_group_name(card, at)? };
    if third[4] > b'3' {
        return None;
    }
    let group: &[u8; 10] = third[17..].first_chunk()?;

    let at = at + nine_digits(card, at)?;
    if part::<4>(card, at)? != b";VND" {
        return None;
    }
    let at = at + 4;
    let at = at + nine_digits(card, at)?;
    if card[at] != b';' || !is_zero_from(card, at + 1) {
        return None;
    }

    let digit = |byte: u8| u64::from(byte - b'0');
    let group = text::eight_digits(text::word(group.first_chunk()?)) * 100 + digit(group[8]) * 10 + digit(group[9]);
    Some(Held { key: group * 10 + digit(revision), slot })
}

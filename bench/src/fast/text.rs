//! The forms of single values. The loops have no early end, so that they run over whole vectors; a timestamp is judged as two words.

/// Whether each byte is 20 to 7D hexadecimal.
pub fn is_text(bytes: &[u8]) -> bool {
    bytes.iter().fold(true, |yes, byte| yes & (byte.wrapping_sub(0x20) <= 0x7D - 0x20))
}

/// Capitals only.
pub fn is_hex(bytes: &[u8]) -> bool {
    let digit = |byte: u8| (byte.wrapping_sub(b'0') < 10) | (byte.wrapping_sub(b'A') < 6);
    bytes.iter().fold(true, |yes, &byte| yes & digit(byte))
}

pub fn is_some_hex(bytes: &[u8]) -> bool {
    !bytes.is_empty() && is_hex(bytes)
}

pub fn is_zero(bytes: &[u8]) -> bool {
    bytes.iter().fold(0, |all, byte| all | byte) == 0
}

pub fn is_alphanumeric(byte: u8) -> bool {
    (byte.wrapping_sub(b'0') < 10) | ((byte | 0x20).wrapping_sub(b'a') < 26)
}

/// A byte of an IDENT after its first.
pub fn is_ident_byte(byte: u8) -> bool {
    is_alphanumeric(byte) | (byte.wrapping_sub(b',') < 3) | (byte == b'_')
}

/// IDENT, 1 to 40 bytes.
pub fn is_ident(bytes: &[u8]) -> bool {
    (1..=40).contains(&bytes.len())
        && is_alphanumeric(bytes[0])
        && bytes.iter().fold(true, |yes, &byte| yes & is_ident_byte(byte))
}

/// A decimal number of 1 to 10 digits without leading zero.
pub fn decimal(bytes: &[u8]) -> Option<u64> {
    if bytes.is_empty() || bytes.len() > 10 || (bytes.len() > 1 && bytes[0] == b'0') {
        return None;
    }
    let mut number = 0;
    for byte in bytes {
        let digit = byte.wrapping_sub(b'0');
        if digit > 9 {
            return None;
        }
        number = number * 10 + u64::from(digit);
    }
    Some(number)
}

pub fn is_decimal(bytes: &[u8], low: u64, high: u64) -> bool {
    decimal(bytes).is_some_and(|number| low <= number && number <= high)
}

/// The digits of a number below 100. The module's processor has no divide instruction (document 02, N4), so tens are
/// taken away, eight, four, two and one of them: a loop that takes one at a time the compiler makes a division again.
pub fn two_digits(number: u8) -> [u8; 2] {
    let (mut tens, mut ones) = (b'0', number);
    for times in [8, 4, 2, 1] {
        if ones >= times * 10 {
            ones -= times * 10;
            tens += times;
        }
    }
    [tens, b'0' + ones]
}

const ONES: u64 = 0x0101_0101_0101_0101;
const HIGHS: u64 = 0x80 * ONES;

pub fn word(bytes: &[u8; 8]) -> u64 {
    u64::from_le_bytes(*bytes)
}

/// The eight bytes at a place, 0 where there are not so many.
#[inline]
pub fn word_at(bytes: &[u8], at: usize) -> u64 {
    bytes.get(at..).and_then(|rest| rest.first_chunk()).map_or(0, word)
}

/// Whether all eight bytes are decimal digits.
pub fn are_digits(word: u64) -> bool {
    // A digit less 30 hexadecimal is at most 9, and no other byte is; 9 + 76 does not reach 80.
    let values = word ^ (0x30 * ONES);
    ((values.wrapping_add(0x76 * ONES)) | values) & HIGHS == 0
}

/// How many decimal digits a word starts with.
pub fn leading_digits(word: u64) -> usize {
    // Where a byte is no digit its own high bit is set in one of the two; carries reach later bytes only.
    let others = (word.wrapping_add(0x46 * ONES) | word.wrapping_sub(0x30 * ONES)) & HIGHS;
    others.trailing_zeros() as usize / 8
}

/// The number that eight digits say.
pub fn eight_digits(word: u64) -> u64 {
    let pairs = pairs(word);
    let fours = (pairs * 100 + (pairs >> 16)) & 0x0000_FFFF_0000_FFFF;
    (fours & 0xFFFF) * 10_000 + (fours >> 32)
}

/// The numbers that each two of eight digits say, sixteen bits apart.
fn pairs(word: u64) -> u64 {
    let values = word & (0x0F * ONES);
    (values * 10 + (values >> 8)) & 0x00FF_00FF_00FF_00FF
}

/// A number in each sixteen bits, the first lowest.
const fn lanes(numbers: [u64; 4]) -> u64 {
    numbers[0] | numbers[1] << 16 | numbers[2] << 32 | numbers[3] << 48
}

/// Whether the digits of YYYYMMDDThhmmssZ are a moment, given that they are digits.
#[inline]
pub fn is_moment(bytes: &[u8; 16]) -> bool {
    const TOP: u64 = lanes([0x8000; 4]);
    let (date, time) = halves(bytes);
    let (date, time) = (pairs(date), pairs(time >> 8) & lanes([0xFF, 0xFF, 0xFF, 0]));
    // The top bit of each sixteen stays where the number is not below the first bound, and not above the others.
    let from = (date | TOP) - lanes([19, 0, 1, 1]);
    let to = (TOP | lanes([99, 99, 12, 28])) - date;
    let clock = (TOP | lanes([23, 59, 59, 0])) - time;
    if from & clock & TOP != TOP {
        return false;
    }
    to & TOP == TOP || is_late_in_month(date)
}

/// Whether a month has the day, which is past 28.
#[cold]
fn is_late_in_month(date: u64) -> bool {
    let (century, year, month, day) = (date & 0xFF, date >> 16 & 0xFF, date >> 32 & 0xFF, date >> 48);
    let leap = if year == 0 { century % 4 == 0 } else { year % 4 == 0 };
    let days = match month {
        1 | 3 | 5 | 7 | 8 | 10 | 12 => 31,
        4 | 6 | 9 | 11 => 30,
        2 => 28 + u64::from(leap),
        _ => 0,
    };
    day <= days
}

fn halves(bytes: &[u8; 16]) -> (u64, u64) {
    let whole = u128::from_le_bytes(*bytes);
    (whole as u64, (whole >> 64) as u64)
}

pub fn is_timestamp(bytes: &[u8]) -> bool {
    let Ok(bytes) = <&[u8; 16]>::try_from(bytes) else { return false };
    let (date, time) = halves(bytes);
    // The bytes T and Z at the ends of the second half, with digits in their places for the test.
    let digits = time & 0x00FF_FFFF_FFFF_FF00 | 0x3000_0000_0000_0030;
    (time as u8 == b'T') & (time >> 56 == u64::from(b'Z')) & are_digits(date) & are_digits(digits) & is_moment(bytes)
}

/// The place of the first such byte from `start` on, or the length.
pub fn find(bytes: &[u8], start: usize, wanted: u8) -> usize {
    let rest = &bytes[start..];
    let (eights, last) = rest.as_chunks::<8>();
    for (place, eight) in eights.iter().enumerate() {
        let other = word(eight) ^ (u64::from(wanted) * ONES);
        // The first high bit stands in the first byte that is zero.
        let found = other.wrapping_sub(ONES) & !other & HIGHS;
        if found != 0 {
            return start + place * 8 + found.trailing_zeros() as usize / 8;
        }
    }
    let before = bytes.len() - last.len();
    before + last.iter().position(|&byte| byte == wanted).unwrap_or(last.len())
}

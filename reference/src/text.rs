//! The forms of single values: hexadecimal, decimal, timestamp, IDENT.

/// Capitals only (document 01, "What the caller lends").
pub fn is_hex(text: &[u8]) -> bool {
    text.iter().all(|byte| matches!(byte, b'0'..=b'9' | b'A'..=b'F'))
}

/// Exactly `length` hexadecimal digits.
pub fn is_hex_of(text: &[u8], length: usize) -> bool {
    text.len() == length && is_hex(text)
}

/// One or more hexadecimal digits: public key, nonce, encrypted key.
pub fn is_some_hex(text: &[u8]) -> bool {
    !text.is_empty() && is_hex(text)
}

pub fn is_digits_of(text: &[u8], length: usize) -> bool {
    text.len() == length && text.iter().all(u8::is_ascii_digit)
}

/// A decimal number of 1 to 10 digits without leading zero.
pub fn decimal(text: &[u8]) -> Option<u64> {
    let leading_zero = text.len() > 1 && text[0] == b'0';
    if text.is_empty() || text.len() > 10 || leading_zero || !text.iter().all(u8::is_ascii_digit) {
        return None;
    }
    Some(number(text))
}

/// YYYYMMDDThhmmssZ, Gregorian, years 1900 to 9999, no leap seconds, no hour 24
/// (document 01; 003 clause 5.1.4).
pub fn is_timestamp(text: &[u8]) -> bool {
    if text.len() != 16 || text[8] != b'T' || text[15] != b'Z' {
        return false;
    }
    if !text[..8].iter().chain(&text[9..15]).all(u8::is_ascii_digit) {
        return false;
    }
    let (year, month, day) = (number(&text[..4]), number(&text[4..6]), number(&text[6..8]));
    let (hour, minute, second) = (number(&text[9..11]), number(&text[11..13]), number(&text[13..15]));
    year >= 1900
        && (1..=12).contains(&month)
        && (1..=days(year, month)).contains(&day)
        && hour <= 23
        && minute <= 59
        && second <= 59
}

/// IDENT by the prose of 003 clause 5.1.3, at most 40 bytes: a letter or digit,
/// then letters, digits, underscore, hyphen, period, comma.
pub fn is_ident(text: &[u8]) -> bool {
    let Some((first, rest)) = text.split_first() else { return false };
    text.len() <= 40
        && first.is_ascii_alphanumeric()
        && rest.iter().all(|byte| byte.is_ascii_alphanumeric() || b"_-.,".contains(byte))
}

fn days(year: u64, month: u64) -> u64 {
    match month {
        4 | 6 | 9 | 11 => 30,
        2 if year.is_multiple_of(4) && (!year.is_multiple_of(100) || year.is_multiple_of(400)) => 29,
        2 => 28,
        _ => 31,
    }
}

/// The value of a text known to be at most ten digits.
fn number(digits: &[u8]) -> u64 {
    digits.iter().fold(0, |value, digit| value * 10 + u64::from(digit - b'0'))
}

#[cfg(test)]
mod tests {
    use super::*;

    #[test]
    fn timestamps() {
        assert!(is_timestamp(b"20000229T000000Z"));
        assert!(is_timestamp(b"19000101T000000Z"));
        assert!(is_timestamp(b"99991231T235959Z"));
        for bad in [
            b"19000229T000000Z",
            b"20130303T240000Z",
            b"18991231T235959Z",
            b"20130303T236000Z",
            b"20130303T235960Z",
            b"20130431T000000Z",
            b"20130001T000000Z",
            b"20131301T000000Z",
            b"20130100T000000Z",
            b"20130101t000000Z",
            b"20130101T000000z",
            b"2013010 T000000Z",
        ] {
            assert!(!is_timestamp(bad), "{}", String::from_utf8_lossy(bad));
        }
        assert!(!is_timestamp(b"20130303T000000"));
    }

    #[test]
    fn identifiers() {
        assert!(is_ident(b"A") && is_ident(b"0_-.,z") && is_ident(&[b'k'; 40]));
        assert!(!is_ident(b"") && !is_ident(&[b'k'; 41]));
        for bad in [&b"_A"[..], b"-A", b".A", b",A", b"A B", b"A:B", b"A;B", b"A|B", b"A~B", b"A\0", b"A\x80"] {
            assert!(!is_ident(bad));
        }
    }

    #[test]
    fn decimals_and_digits() {
        assert_eq!(decimal(b"0"), Some(0));
        assert_eq!(decimal(b"9999999999"), Some(9_999_999_999));
        for bad in [&b""[..], b"00", b"01", b"007", b"1a", b"+1", b"-1", b" 1", b"10000000000"] {
            assert_eq!(decimal(bad), None);
        }
        assert!(is_hex(b"0123456789ABCDEF") && !is_hex(b"a") && !is_hex(b"G") && !is_some_hex(b""));
    }
}

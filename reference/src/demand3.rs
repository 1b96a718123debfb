//! The sentences of demand 3 (document 01, "The words of demand 3") over a list of
//! requests and their answers, and the rows after it. Nothing here asks what an
//! engine does with a request: only bytes are read.
//!
//! For every list from empty tables:
//! 1. Each accepted load of s comes in an open session of s: an accepted SM?KR of s
//!    stands before it, not yet closed, restarted, deleted or reset.
//! 2. A key of g and r stands in n, under s, exactly when an accepted load of s, g
//!    and r answered n, and after it there is no accepted load of g and r, no
//!    deletion of s and no deletion of n. Its card is the one that load answered.
//! 3. The slot of a standing key fills exactly one slot row.

use crate::cards;
use crate::fields::Reader;
use crate::records::{self, Identity};
use crate::rows::{RegisterRow, SlotRow};

/// What one request and its answer mean to demand 3.
#[derive(Clone, PartialEq, Eq, Debug)]
pub enum Word {
    Load {
        s: Vec<u8>,
        g: Vec<u8>,
        r: Vec<u8>,
        n: u64,
        card: Vec<u8>,
    },
    /// An SM?KR whose KMC identity has the KMCID s.
    Open(Vec<u8>),
    /// An SM?KC whose KMC identity has the KMCID s.
    Restart(Vec<u8>),
    /// An SM?KF of s.
    Close(Vec<u8>),
    /// An SM?KX of s.
    DeleteSlot(Vec<u8>),
    /// An SM?KD of register n.
    DeleteKey(u64),
    Reset,
    /// An SM?GA, SM?GL or SM?KQ: they only read rows, and no sentence speaks of them.
    Read,
    /// Not accepted, or none of the ten.
    Nothing,
}

/// `answer` is the first `length` bytes of the buffer.
pub fn word(request: &[u8], answer: &[u8]) -> Word {
    read(request, answer).unwrap_or(Word::Nothing)
}

fn read(request: &[u8], answer: &[u8]) -> Option<Word> {
    // An answer of length 0 has no status.
    if answer.get(5..7)? != b"00" {
        return None;
    }
    let payload = request.get(5..request.len().checked_sub(5)?)?;
    let mut fields = Reader::new(payload);
    Some(match request.get(..5)? {
        b"SM?KL" => {
            let s = fields.string()?.to_vec();
            let [_, card, _] = records::parse(fields.string()?, b"KEY.1", b'|')?;
            let (g, r) = (entry(card, b"SGC")?.to_vec(), entry(card, b"KRN")?.to_vec());
            let mut reply = Reader::new(answer.get(7..answer.len().checked_sub(5)?)?);
            Word::Load { s, g, r, n: reply.number()?, card: reply.string()?.to_vec() }
        }
        b"SM?KR" => {
            let [kmc, _, _, _] = records::parse(fields.string()?, b"VKLOAD.RESP.1", b'|')?;
            Word::Open(Identity::parse(kmc, b"KMCID.1")?.name.to_vec())
        }
        b"SM?KC" => {
            let [kmc, _, _, _, _] = records::parse(fields.string()?, b"PK.ECDH.1", b'|')?;
            Word::Restart(Identity::parse(kmc, b"KMCID.1")?.name.to_vec())
        }
        b"SM?KF" => Word::Close(fields.string()?.to_vec()),
        b"SM?KX" => Word::DeleteSlot(fields.string()?.to_vec()),
        b"SM?KD" => Word::DeleteKey(fields.number()?),
        b"GL?RS" => Word::Reset,
        b"SM?GA" | b"SM?GL" | b"SM?KQ" => Word::Read,
        _ => Word::Nothing,
    })
}

/// Checks the three sentences; the error says which one fails and for what.
pub fn check(list: &[Word], slots: &[SlotRow], registers: &[RegisterRow]) -> Result<(), String> {
    for (place, word) in list.iter().enumerate() {
        if let Word::Load { s, .. } = word {
            if !session_open(&list[..place], s) {
                return Err(format!("1: request {} loads outside a session of {}", place + 1, show(s)));
            }
        }
    }
    for (place, word) in list.iter().enumerate() {
        if let Word::Load { s, g, r, n, card } = word {
            if ended(&list[place + 1..], s, g, r, *n) {
                continue;
            }
            let row = usize::try_from(*n).ok().and_then(|n| n.checked_sub(1)).and_then(|n| registers.get(n));
            if !row.is_some_and(|row| stands(row, g, r, s) && answered(row, card)) {
                return Err(format!(
                    "2: the key of request {} (SGC {}, KRN {}) does not stand in {n}",
                    place + 1,
                    show(g),
                    show(r)
                ));
            }
        }
    }
    for (place, row) in registers.iter().enumerate().filter(|(_, row)| !row.is_free()) {
        let number = place as u64 + 1;
        let origin = list.iter().enumerate().any(|(at, word)| match word {
            Word::Load { s, g, r, n, card } => {
                *n == number && stands(row, g, r, s) && answered(row, card) && !ended(&list[at + 1..], s, g, r, *n)
            }
            _ => false,
        });
        if !origin {
            return Err(format!("2: what stands in {number} is no load's: {}", show(cards::written(&row.card))));
        }
        let slot = entry(cards::written(&row.card), b"KSL").unwrap_or_default();
        let fillers = slots.iter().filter(|row| !row.is_free() && row.name() == slot).count();
        if fillers != 1 {
            return Err(format!("3: the slot {} of register {number} fills {fillers} rows", show(slot)));
        }
    }
    Ok(())
}

/// Is there an opening of s, and after the last one nothing that ends it?
fn session_open(before: &[Word], s: &[u8]) -> bool {
    before
        .iter()
        .rev()
        .find_map(|word| match word {
            Word::Open(name) if name == s => Some(true),
            Word::Close(name) | Word::Restart(name) | Word::DeleteSlot(name) if name == s => Some(false),
            Word::Reset => Some(false),
            _ => None,
        })
        .unwrap_or(false)
}

/// Does a later request take the key of g and r in n, under s, away?
fn ended(after: &[Word], s: &[u8], g: &[u8], r: &[u8], n: u64) -> bool {
    after.iter().any(|word| match word {
        Word::Load { g: other_g, r: other_r, .. } => other_g == g && other_r == r,
        Word::DeleteSlot(name) => name == s,
        Word::DeleteKey(number) => *number == n,
        _ => false,
    })
}

/// The row is not free and its card has SGC g, KRN r and KSL s.
fn stands(row: &RegisterRow, g: &[u8], r: &[u8], s: &[u8]) -> bool {
    let card = cards::written(&row.card);
    !row.is_free() && entry(card, b"SGC") == Some(g) && entry(card, b"KRN") == Some(r) && entry(card, b"KSL") == Some(s)
}

/// The 256 bytes are that card, then zeros.
fn answered(row: &RegisterRow, card: &[u8]) -> bool {
    row.card.strip_prefix(card).is_some_and(|rest| rest.iter().all(|&byte| byte == 0))
}

/// The value of a name in a card text.
pub(crate) fn entry<'a>(card: &'a [u8], name: &[u8; 3]) -> Option<&'a [u8]> {
    card.split(|&byte| byte == b';').find_map(|entry| entry.strip_prefix(name))
}

pub(crate) fn show(text: &[u8]) -> String {
    String::from_utf8_lossy(text).into_owned()
}

/// Tables are empty when every row is zero, whatever the row counts.
pub fn are_empty(slots: &[SlotRow], registers: &[RegisterRow]) -> bool {
    slots.iter().all(SlotRow::is_free) && registers.iter().all(RegisterRow::is_zero)
}

//! The sentences on marks (document 02, N3) over a list of requests and their answers, and the rows after it. As in
//! `demand3`, whose words they take, only bytes are read: nothing here asks what an engine does with a request.
//!
//! For every list from empty tables:
//! 1. A standing key is open exactly when since its last accepted load there was no accepted SM?KF of its slot and no
//!    accepted reset.
//! 2. A key may vend exactly when it stands and there was one.
//! 3. The slot of an open key is PENDING or LOADING.
//! 4. A register in which no key stands is all zero.

use crate::cards;
use crate::demand3::{entry, show, Word};
use crate::rows::{RegisterRow, SlotRow, CLOSED, LOADING, OPEN, PENDING};

/// Checks the four sentences; the error says which one fails and for what. `usable` is what the engine says of each
/// register from 0 on, past the last too.
pub fn check(list: &[Word], slots: &[SlotRow], registers: &[RegisterRow], usable: &[bool]) -> Result<(), String> {
    for (number, row) in (1..).zip(registers) {
        if row.is_free() && !row.is_zero() {
            return Err(format!("4: no key stands in {number}, and it has the mark {}", row.mark));
        }
        if row.is_free() {
            continue;
        }
        let due = if is_open(list, row) { OPEN } else { CLOSED };
        if row.mark != due {
            return Err(format!("1: the key in {number} has the mark {}, and {due} is due", row.mark));
        }
        let busy = |slot: &SlotRow| matches!(slot.state, PENDING | LOADING) && slot.name() == slot_of(row);
        if due == OPEN && !slots.iter().any(busy) {
            return Err(format!("3: the key in {number} is open under {}", show(slot_of(row))));
        }
    }
    for (number, &vends) in usable.iter().enumerate() {
        let row = number.checked_sub(1).and_then(|place| registers.get(place)).filter(|row| !row.is_free());
        if vends != row.is_some_and(|row| !is_open(list, row)) {
            return Err(format!("2: the key in {number} may{} vend", if vends { "" } else { " not" }));
        }
    }
    Ok(())
}

/// Whether neither an SM?KF of the key's slot nor a reset came after its last load.
fn is_open(list: &[Word], row: &RegisterRow) -> bool {
    let card = cards::written(&row.card);
    let ended = |word: &Word| match word {
        Word::Close(slot) => slot == slot_of(row),
        Word::Reset => true,
        _ => false,
    };
    let loaded = |word: &Word| match word {
        Word::Load { g, r, .. } => entry(card, b"SGC") == Some(g) && entry(card, b"KRN") == Some(r),
        _ => false,
    };
    list.iter().rev().take_while(|word| !loaded(word)).all(|word| !ended(word))
}

fn slot_of(row: &RegisterRow) -> &[u8] {
    entry(cards::written(&row.card), b"KSL").unwrap_or_default()
}

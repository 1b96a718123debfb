//! Which faults unsound rows and bad supplements have, so that a run can tell that each kind came up alone.

use crate::records::Identity;
use crate::rows::{self, RegisterRow, SlotRow, CLOSED, FREE, IDLE, LOADING, OPEN, PENDING};
use crate::{cards, text, Supplement};

/// Question 3's kinds.
pub const UNSOUND: [&str; 20] = [
    "state of none",
    "free slot not zero",
    "name out of form",
    "bytes after name",
    "fingerprint",
    "TVP of PENDING",
    "TVP in LOADING",
    "TVP in IDLE",
    "name twice",
    "free register not zero",
    "CLU not 0",
    "VND out of range",
    "SGN out of form",
    "SGN out of place",
    "card not as stored",
    "KSL of no slot",
    "key twice",
    "mark of none",
    "mark in a free register",
    "open under IDLE",
];

/// Question 4's kinds.
pub const BAD_PARTS: [&str; 9] = [
    "clock",
    "identity length",
    "identity record",
    "identity fields",
    "request length",
    "request bytes",
    "tag",
    "check",
    "passed",
];

/// The row, slots first, in which a fault stands, and its kind.
pub type Fault = (usize, &'static str);

/// The faults of rows; registers are counted on from the slots.
pub fn of_rows(slots: &[SlotRow], registers: &[RegisterRow]) -> Vec<Fault> {
    let mut faults = Vec::new();
    for (place, slot) in slots.iter().enumerate() {
        faults.extend(of_slot(slot).into_iter().map(|kind| (place, kind)));
        if slot.state != FREE && rows::slot_named(&slots[..place], slot.name()).is_some() {
            faults.push((place, "name twice"));
        }
    }
    let mut keys = Vec::new();
    for (place, register) in registers.iter().enumerate() {
        let row = rows::MOST_SLOTS + place;
        faults.extend(of_mark(slots, register).map(|kind| (row, kind)));
        match cards::stored(&register.card) {
            None if register.is_free() => {}
            None => faults.push((row, of_register(register))),
            Some(card) => {
                if rows::slot_named(slots, card.slot()).is_none() {
                    faults.push((row, "KSL of no slot"));
                }
                if keys.contains(&card.pair()) {
                    faults.push((row, "key twice"));
                }
                keys.push(card.pair());
            }
        }
    }
    faults
}

fn of_slot(slot: &SlotRow) -> Vec<&'static str> {
    let name = slot.name();
    let no_tvp = slot.tvp == [0; 16];
    match slot.state {
        FREE if slot.is_free() => return Vec::new(),
        FREE => return vec!["free slot not zero"],
        PENDING | LOADING | IDLE => {}
        _ => return vec!["state of none"],
    }
    [
        (!text::is_ident(name), "name out of form"),
        (slot.kmcid[name.len()..].iter().any(|&byte| byte != 0), "bytes after name"),
        (!text::is_hex(&slot.fingerprint), "fingerprint"),
        (slot.state == PENDING && !text::is_timestamp(&slot.tvp), "TVP of PENDING"),
        (slot.state == LOADING && !no_tvp, "TVP in LOADING"),
        (slot.state == IDLE && !no_tvp, "TVP in IDLE"),
    ]
    .into_iter()
    .filter_map(|(wrong, kind)| wrong.then_some(kind))
    .collect()
}

/// The fault of a mark. The slot of a key that has none, or that is not as stored, is another fault.
fn of_mark(slots: &[SlotRow], register: &RegisterRow) -> Option<&'static str> {
    let owner = cards::stored(&register.card).and_then(|card| rows::slot_named(slots, card.slot()));
    match register.mark {
        CLOSED => None,
        _ if register.is_free() => Some("mark in a free register"),
        OPEN => owner.filter(|&slot| slots[slot].state == IDLE).map(|_| "open under IDLE"),
        _ => Some("mark of none"),
    }
}

/// The fault of a register that is not free, and whose card is not as stored.
fn of_register(register: &RegisterRow) -> &'static str {
    let alone = |name: &[u8]| cards::stored(&with_entry(register, name, &[name, b"0;"].concat())).is_some();
    if register.card[0] == 0 {
        "free register not zero"
    } else if alone(b"CLU") {
        "CLU not 0"
    } else if alone(b"VND") {
        "VND out of range"
    } else if alone(b"SGN") {
        "SGN out of form"
    } else if cards::stored(&with_entry(register, b"SGN", b"")).is_some() {
        "SGN out of place"
    } else {
        "card not as stored"
    }
}

/// The card with another entry in place of each one of a name.
fn with_entry(register: &RegisterRow, name: &[u8], other: &[u8]) -> [u8; cards::SPACE] {
    let mut text = Vec::new();
    for entry in register.card.split_inclusive(|&byte| byte == b';') {
        let of_name = entry.starts_with(name) && entry.ends_with(b";");
        text.extend_from_slice(if of_name { other } else { entry });
    }
    text.resize(cards::SPACE, 0);
    text.try_into().expect("the space of a card")
}

/// The faults of a supplement.
pub fn of_supplement(supplement: &Supplement) -> Vec<&'static str> {
    let own = supplement.own_identity().filter(|own| !own.is_empty());
    let identity = own.and_then(|own| Identity::parse(own, b"SMID.1"));
    let request = supplement.load_request().filter(|request| !request.is_empty());
    let printable = |text: &[u8]| text.iter().all(|byte| (0x20..=0x7D).contains(byte));
    [
        (!text::is_timestamp(&supplement.clock), "clock"),
        (own.is_none(), "identity length"),
        (own.is_some() && identity.is_none(), "identity record"),
        (identity.is_some_and(|identity| !identity.in_form()), "identity fields"),
        (request.is_none(), "request length"),
        (request.is_some_and(|request| !printable(request)), "request bytes"),
        (!text::is_hex(&supplement.tag), "tag"),
        (!text::is_hex(&supplement.check), "check"),
        (supplement.passed > 1, "passed"),
    ]
    .into_iter()
    .filter_map(|(wrong, kind)| wrong.then_some(kind))
    .collect()
}

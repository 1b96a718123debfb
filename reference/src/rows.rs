//! The slot rows and the register rows that the caller lends
//! (document 01, "Slots and registers" and question 3; document 02, N3, for the marks).

use crate::{cards, text};

pub const FREE: u8 = 0;
pub const PENDING: u8 = 1;
pub const LOADING: u8 = 2;
pub const IDLE: u8 = 3;

/// The marks of a key: open from its load until SM?KF of its slot, or a reset.
pub const CLOSED: u8 = 0;
pub const OPEN: u8 = 1;

pub const MOST_SLOTS: usize = 8;
pub const MOST_REGISTERS: usize = 32;

#[repr(C)]
#[derive(Clone, Copy, PartialEq, Eq, Debug)]
pub struct SlotRow {
    pub state: u8,
    pub kmcid: [u8; 40],
    pub fingerprint: [u8; 16],
    pub tvp: [u8; 16],
}

#[repr(C)]
#[derive(Clone, Copy, PartialEq, Eq, Debug)]
pub struct RegisterRow {
    pub card: [u8; 256],
    pub mark: u8,
}

impl SlotRow {
    pub const FREE: SlotRow = SlotRow { state: FREE, kmcid: [0; 40], fingerprint: [0; 16], tvp: [0; 16] };

    pub fn is_free(&self) -> bool {
        *self == Self::FREE
    }

    /// The KMCID: all before the first zero.
    pub fn name(&self) -> &[u8] {
        let end = self.kmcid.iter().position(|&byte| byte == 0).unwrap_or(40);
        &self.kmcid[..end]
    }

    /// Fields in form, and present just where the state has them.
    fn is_sound(&self) -> bool {
        let name = self.name();
        let named = text::is_ident(name) && self.kmcid[name.len()..].iter().all(|&byte| byte == 0);
        let filled = named && text::is_hex(&self.fingerprint);
        match self.state {
            FREE => self.is_free(),
            PENDING => filled && text::is_timestamp(&self.tvp),
            LOADING | IDLE => filled && self.tvp == [0; 16],
            _ => false,
        }
    }
}

impl RegisterRow {
    pub const FREE: RegisterRow = RegisterRow { card: [0; 256], mark: CLOSED };

    /// By its card alone; where it is sound, its mark is zero too.
    pub fn is_free(&self) -> bool {
        self.card == Self::FREE.card
    }

    pub fn is_zero(&self) -> bool {
        *self == Self::FREE
    }
}

/// Question 1.
pub fn counts_in_range(slots: usize, registers: usize) -> bool {
    (1..=MOST_SLOTS).contains(&slots) && (1..=MOST_REGISTERS).contains(&registers)
}

/// Question 3.
pub fn are_sound(slots: &[SlotRow], registers: &[RegisterRow]) -> bool {
    for (place, slot) in slots.iter().enumerate() {
        if !slot.is_sound() {
            return false;
        }
        // Identifiers distinct.
        if slot.state != FREE && slots[..place].iter().any(|other| other.state != FREE && other.name() == slot.name()) {
            return false;
        }
    }
    let mut pairs = Vec::with_capacity(MOST_REGISTERS);
    for register in registers.iter().filter(|register| !register.is_zero()) {
        // A card as stored, which includes CLU 0 and the range of VND. A card of zeros is none: a free row is all zero.
        let Some(card) = cards::stored(&register.card) else { return false };
        let Some(slot) = slot_named(slots, card.slot()) else { return false };
        if !mark_is_sound(register.mark, slots[slot].state) || pairs.contains(&card.pair()) {
            return false;
        }
        pairs.push(card.pair());
    }
    true
}

/// Every open key's slot is PENDING or LOADING (document 02, N3); no other number is a mark.
fn mark_is_sound(mark: u8, state: u8) -> bool {
    match mark {
        CLOSED => true,
        OPEN => matches!(state, PENDING | LOADING),
        _ => false,
    }
}

/// The slot of that name, compared byte by byte. An empty name, or one over
/// 40 bytes, names none.
pub fn slot_named(slots: &[SlotRow], name: &[u8]) -> Option<usize> {
    if name.is_empty() || name.len() > 40 {
        return None;
    }
    slots.iter().position(|slot| slot.state != FREE && slot.name() == name)
}

/// The register that holds the key of SGC and KRN, from any slot.
pub fn register_holding(registers: &[RegisterRow], pair: (&[u8], &[u8])) -> Option<usize> {
    registers.iter().position(|register| cards::stored(&register.card).is_some_and(|card| card.pair() == pair))
}

pub fn lowest_free_slot(slots: &[SlotRow]) -> Option<usize> {
    slots.iter().position(SlotRow::is_free)
}

pub fn lowest_free_register(registers: &[RegisterRow]) -> Option<usize> {
    registers.iter().position(RegisterRow::is_free)
}

//! The rows of a call: places for one row more than the ranges allow, so that
//! every count from 0 to 9 and 0 to 33 can be tried.

use crate::rows::{self, RegisterRow, SlotRow, CLOSED, OPEN};

#[derive(Clone, PartialEq, Eq)]
pub struct Tables {
    pub slots: [SlotRow; rows::MOST_SLOTS + 1],
    pub registers: [RegisterRow; rows::MOST_REGISTERS + 1],
    pub slot_count: usize,
    pub register_count: usize,
}

impl Tables {
    pub fn empty(slot_count: usize, register_count: usize) -> Self {
        Tables {
            slots: [SlotRow::FREE; rows::MOST_SLOTS + 1],
            registers: [RegisterRow::FREE; rows::MOST_REGISTERS + 1],
            slot_count,
            register_count,
        }
    }

    /// The rows that the counts cover.
    pub fn slots(&self) -> &[SlotRow] {
        &self.slots[..self.slot_count]
    }

    pub fn registers(&self) -> &[RegisterRow] {
        &self.registers[..self.register_count]
    }

    /// Fills slot row `place`; a TVP belongs to PENDING only.
    pub fn put_slot(&mut self, place: usize, state: u8, name: &[u8], fingerprint: &[u8], tvp: &[u8]) {
        let row = &mut self.slots[place];
        *row = SlotRow::FREE;
        row.state = state;
        row.kmcid[..name.len()].copy_from_slice(name);
        row.fingerprint[..fingerprint.len()].copy_from_slice(fingerprint);
        row.tvp[..tvp.len()].copy_from_slice(tvp);
    }

    /// Fills register row `place` with a card text; the key is closed.
    pub fn put_card(&mut self, place: usize, card: &[u8]) {
        self.registers[place] = RegisterRow::FREE;
        self.registers[place].card[..card.len()].copy_from_slice(card);
    }

    /// The same, open.
    pub fn put_open_card(&mut self, place: usize, card: &[u8]) {
        self.put_card(place, card);
        self.registers[place].mark = OPEN;
    }

    /// Whether register `number`, counted from 1, is filled and marked closed: of sound rows just these keys may vend.
    pub fn is_closed(&self, number: usize) -> bool {
        let row = number.checked_sub(1).and_then(|place| self.registers().get(place));
        row.is_some_and(|row| !row.is_free() && row.mark == CLOSED)
    }

    /// The names of the slots in a state.
    pub fn names_in(&self, states: &[u8]) -> Vec<Vec<u8>> {
        self.slots().iter().filter(|slot| states.contains(&slot.state)).map(|slot| slot.name().to_vec()).collect()
    }
}

//! Question 3, in one pass over each row, and what that pass leaves for the questions after it.

use super::names::Names;
use super::{stored, text};
use reference::rows::{CLOSED, FREE, IDLE, LOADING, MOST_REGISTERS, MOST_SLOTS, OPEN, PENDING};
use reference::{RegisterRow, SlotRow};

/// What is known of rows that are sound.
pub struct Known {
    pub names: Names,
    /// SGC and KRN of each register as one number, 0 where the register is free.
    pub keys: [u64; MOST_REGISTERS],
    /// The slot place of each filled register.
    pub slots: [u8; MOST_REGISTERS],
}

pub fn counts_in_range(slots: usize, registers: usize) -> bool {
    (1..=MOST_SLOTS).contains(&slots) && (1..=MOST_REGISTERS).contains(&registers)
}

/// Whether a slot row is sound but for its name, and whether it has one.
fn slot_fields(row: &SlotRow) -> Option<bool> {
    let in_form = match row.state {
        FREE => text::is_zero(&row.kmcid) & text::is_zero(&row.fingerprint) & text::is_zero(&row.tvp),
        PENDING => text::is_hex(&row.fingerprint) & text::is_timestamp(&row.tvp),
        LOADING | IDLE => text::is_hex(&row.fingerprint) & text::is_zero(&row.tvp),
        _ => false,
    };
    in_form.then_some(row.state != FREE)
}

/// Keys met so far: one bit for each of 256 hashes, so that keys are compared only where a bit is set already.
struct Met([u64; 4]);

impl Met {
    /// Whether a key with the same hash was met before.
    #[inline]
    fn perhaps(&mut self, key: u64) -> bool {
        let hash = key.wrapping_mul(0x9E37_79B9_7F4A_7C15) >> 56;
        let (word, bit) = (&mut self.0[(hash / 64) as usize], 1 << (hash % 64));
        let met = *word & bit != 0;
        *word |= bit;
        met
    }
}

impl Known {
    pub const NOTHING: Known = Known { names: Names::NONE, keys: [0; MOST_REGISTERS], slots: [0; MOST_REGISTERS] };

    /// Question 3; nothing where the answer is no. The counts are in range.
    pub fn judge(&mut self, slots: &[SlotRow], registers: &[RegisterRow]) -> Option<()> {
        for row in slots {
            if slot_fields(row)? {
                self.names.push(&row.kmcid)?;
            } else {
                self.names.skip();
            }
        }
        let mut met = Met([0; 4]);
        for (place, row) in registers.iter().enumerate() {
            if row.card[0] == 0 {
                if row.mark != CLOSED || !text::is_zero(&row.card) {
                    return None;
                }
                continue;
            }
            let held = stored::judge(&row.card, &self.names)?;
            if met.perhaps(held.key) && self.keys[..place].contains(&held.key) {
                return None;
            }
            // An open key's slot is PENDING or LOADING (document 02, N3).
            if row.mark != CLOSED && (row.mark != OPEN || slots[held.slot].state == IDLE) {
                return None;
            }
            self.keys[place] = held.key;
            self.slots[place] = held.slot as u8;
        }
        Some(())
    }
}

//! The engine written for speed, held to the clear one by the comparison that the proved engine goes through.

use bench::fast;
use reference::harness::{self, Engine, NO_STATE};
use reference::{RegisterRow, SlotRow, Supplement};

struct Fast;

impl Engine for Fast {
    fn handle(
        &mut self,
        slots: &mut [SlotRow],
        registers: &mut [RegisterRow],
        slot_count: usize,
        register_count: usize,
        supplement: &Supplement,
        request: &[u8],
        response: &mut [u8],
    ) -> (u8, u8, usize) {
        // A count past the places is out of range.
        let (Some(slots), Some(registers)) = (slots.get_mut(..slot_count), registers.get_mut(..register_count)) else {
            return (1, NO_STATE, 0);
        };
        let answer = fast::handle(slots, registers, supplement, request, response);
        (answer.outcome, answer.state.unwrap_or(NO_STATE), answer.length)
    }

    fn usable(
        &mut self,
        slots: &[SlotRow],
        registers: &[RegisterRow],
        slot_count: usize,
        register_count: usize,
        register: usize,
    ) -> bool {
        match (slots.get(..slot_count), registers.get(..register_count)) {
            (Some(slots), Some(registers)) => fast::usable(slots, registers, register),
            _ => false,
        }
    }
}

#[test]
fn the_fast_engine_agrees() {
    print!("{}", harness::run(&mut Fast, 200_000, 1));
}

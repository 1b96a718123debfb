//! An engine behind extern "C", as a caller in C would see it; here it is `handle` and `usable`.
//! For another engine, declare its functions in an `extern "C"` block and link it.

use reference::harness::{try_run, Engine};
use reference::{handle, usable, RegisterRow, SlotRow, Supplement};

#[repr(C)]
struct Result {
    outcome: u8,
    state: u8,
    length: usize,
}

#[allow(clippy::too_many_arguments)]
unsafe extern "C" fn engine_handle(
    slots: *mut SlotRow,
    slot_count: usize,
    registers: *mut RegisterRow,
    register_count: usize,
    supplement: *const Supplement,
    request: *const u8,
    request_length: usize,
    response: *mut u8,
    response_length: usize,
) -> Result {
    // Counts past the places are refused before a row is looked at.
    if slot_count > 8 || register_count > 32 {
        return Result { outcome: 1, state: 255, length: 0 };
    }
    let answer = handle(
        std::slice::from_raw_parts_mut(slots, slot_count),
        std::slice::from_raw_parts_mut(registers, register_count),
        &*supplement,
        std::slice::from_raw_parts(request, request_length),
        std::slice::from_raw_parts_mut(response, response_length),
    );
    Result { outcome: answer.outcome, state: answer.state.unwrap_or(255), length: answer.length }
}

unsafe extern "C" fn engine_usable(
    slots: *const SlotRow,
    slot_count: usize,
    registers: *const RegisterRow,
    register_count: usize,
    register: usize,
) -> u8 {
    if slot_count > 8 || register_count > 32 {
        return 0;
    }
    let slots = std::slice::from_raw_parts(slots, slot_count);
    u8::from(usable(slots, std::slice::from_raw_parts(registers, register_count), register))
}

struct Foreign;

impl Engine for Foreign {
    fn handle(
        &mut self,
        slots: &mut [SlotRow],
        registers: &mut [RegisterRow],
        slot_count: usize,
        register_count: usize,
        supplement: &Supplement,
        request: &[u8],
        response: &mut [u8],
    ) -> (u8, u8, usize) {
        let result = unsafe {
            engine_handle(
                slots.as_mut_ptr(),
                slot_count,
                registers.as_mut_ptr(),
                register_count,
                supplement,
                request.as_ptr(),
                request.len(),
                response.as_mut_ptr(),
                response.len(),
            )
        };
        (result.outcome, result.state, result.length)
    }

    fn usable(
        &mut self,
        slots: &[SlotRow],
        registers: &[RegisterRow],
        slot_count: usize,
        register_count: usize,
        register: usize,
    ) -> bool {
        unsafe { engine_usable(slots.as_ptr(), slot_count, registers.as_ptr(), register_count, register) == 1 }
    }
}

#[test]
fn a_foreign_engine_is_compared() {
    let counts = try_run(&mut Foreign, 2000, 1).unwrap();
    assert!(counts.missing().is_empty());
}

#[test]
fn rows_have_the_layout_of_the_paper() {
    assert_eq!((std::mem::size_of::<SlotRow>(), std::mem::size_of::<RegisterRow>()), (73, 257));
    assert_eq!(std::mem::offset_of!(RegisterRow, mark), 256);
}

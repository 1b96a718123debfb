//! A safe wrapper of the two entry points of `include/diminurel.h`: safe for rows, supplements, requests and buffers of
//! any content and any length. [`Rows::handle`] and [`Rows::usable`] answer in types; [`handle`] and [`usable`] in the
//! header's numbers. `tests/session.rs` goes from power-up to a key that may vend.

#![no_std]

mod answers;

pub use answers::{Accepted, Refusal, Refused, Rows, SlotState};

/// The version of the library, as `include/diminurel.h` has it.
pub const VERSION: &str = env!("CARGO_PKG_VERSION");

/// All zero is free; else the state is 1 PENDING, 2 LOADING or 3 IDLE.
#[repr(C)]
#[derive(Clone, Copy, PartialEq, Eq, Debug)]
pub struct Slot {
    pub state: u8,
    pub kmcid: [u8; 40],
    pub fingerprint: [u8; 16],
    pub tvp: [u8; 16],
}

/// A stored card with zeros after it, and its mark: 0 closed, 1 open. All zero is free.
#[repr(C)]
#[derive(Clone, Copy, PartialEq, Eq, Debug)]
pub struct Register {
    pub card: [u8; 256],
    pub mark: u8,
}

impl Slot {
    pub const FREE: Slot = Slot { state: 0, kmcid: [0; 40], fingerprint: [0; 16], tvp: [0; 16] };
}

impl Register {
    pub const FREE: Register = Register::closed([0; 256]);

    /// A row that a version before 0.4.0 stored: a card of 256 bytes, and no mark. After such rows the host hands in
    /// GL?RS before anything else.
    pub const fn closed(card: [u8; 256]) -> Self {
        Register { card, mark: 0 }
    }

    /// Whether the key is open: from its load on, until SM?KF of its slot or GL?RS. Of sound rows just the keys that are
    /// not open may vend.
    pub const fn is_open(&self) -> bool {
        self.mark == 1
    }
}

/// What is handed in beside a request.
#[repr(C)]
#[derive(Clone, Copy, Debug)]
pub struct Supplement {
    pub clock: [u8; 16],
    pub identity: [u8; 128],
    pub identity_length: usize,
    pub request: [u8; 700],
    pub request_length: usize,
    pub tag: [u8; 48],
    pub check: [u8; 6],
    pub passed: u8,
}

/// The outcome (0, or the refusal's number), the slot state that is left (255 where there is none), and the length of
/// the response, as the header has them.
#[repr(C)]
#[derive(Clone, Copy, PartialEq, Eq, Debug)]
pub struct Reply {
    pub outcome: u8,
    pub state: u8,
    pub length: usize,
}

#[link(name = "diminurel", kind = "static")]
extern "C" {
    fn diminurel_handle(
        slots: *mut Slot,
        slot_count: usize,
        registers: *mut Register,
        register_count: usize,
        supplement: Supplement,
        request: *const u8,
        request_length: usize,
        response: *mut u8,
        response_length: usize,
    ) -> Reply;

    fn diminurel_usable(
        slots: *const Slot,
        slot_count: usize,
        registers: *const Register,
        register_count: usize,
        register: usize,
    ) -> u8;
}

/// Handles a request, and answers in the header's numbers.
pub fn handle(
    slots: &mut [Slot],
    registers: &mut [Register],
    supplement: &Supplement,
    request: &[u8],
    response: &mut [u8],
) -> Reply {
    // The engine has no precondition but that each slice is valid for its length and none overlaps another that is
    // written, which references are.
    unsafe {
        diminurel_handle(
            slots.as_mut_ptr(),
            slots.len(),
            registers.as_mut_ptr(),
            registers.len(),
            *supplement,
            request.as_ptr(),
            request.len(),
            response.as_mut_ptr(),
            response.len(),
        )
    }
}

/// Whether the key in a register, counted from 1, may vend: 1 for yes, 0 for no.
pub fn usable(slots: &[Slot], registers: &[Register], register: usize) -> u8 {
    // As above.
    unsafe { diminurel_usable(slots.as_ptr(), slots.len(), registers.as_ptr(), registers.len(), register) }
}

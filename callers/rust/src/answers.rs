//! The header's numbers as types.

use core::fmt;

use crate::{Register, Reply, Slot, Supplement};

/// The state of a slot.
#[derive(Clone, Copy, PartialEq, Eq, Debug)]
pub enum SlotState {
    Free,
    Pending,
    Loading,
    Idle,
}

/// Why a request was refused: the no of a question, by its number (`docs/REQUIREMENTS.md`).
#[derive(Clone, Copy, PartialEq, Eq, Debug)]
#[repr(u8)]
pub enum Refusal {
    RowCounts = 1,
    ShortBuffer = 2,
    UnsoundRows = 3,
    BadSupplement = 4,
    BadFrame = 5,
    BadChecksum = 6,
    UnknownHeader = 7,
    BadFields = 8,
    BadRecord = 9,
    BadForm = 10,
    Expired = 11,
    UnknownSlot = 12,
    NoFreeSlot = 13,
    WrongState = 14,
    OtherModule = 15,
    OtherFingerprint = 16,
    OtherTvp = 17,
    OtherTag = 18,
    CheckFailed = 19,
    NoFreeRegister = 20,
    EmptyRegister = 21,
    /// No question: the reply is none of the header's, so another library is linked.
    Misfit = 255,
}

/// An accepted request: the slot state that a session command leaves, and the response.
#[derive(Clone, Copy, PartialEq, Eq, Debug)]
pub struct Accepted<'a> {
    pub state: Option<SlotState>,
    pub response: &'a [u8],
}

/// A refused request, and the response; it is empty where there is none.
#[derive(Clone, Copy, PartialEq, Eq, Debug)]
pub struct Refused<'a> {
    pub refusal: Refusal,
    pub response: &'a [u8],
}

/// The rows of a module, lent to the engine. The host keeps them, all or nothing, before a response goes out.
#[derive(PartialEq, Eq, Debug)]
pub struct Rows<'a> {
    pub slots: &'a mut [Slot],
    pub registers: &'a mut [Register],
}

impl Rows<'_> {
    /// Handles a request. A refusal changes no row; bytes of the buffer beyond the response keep their value.
    pub fn handle<'a>(
        &mut self,
        supplement: &Supplement,
        request: &[u8],
        buffer: &'a mut [u8],
    ) -> Result<Accepted<'a>, Refused<'a>> {
        let reply = crate::handle(self.slots, self.registers, supplement, request, buffer);
        typed(reply, buffer).unwrap_or(Err(Refused { refusal: Refusal::Misfit, response: &[] }))
    }

    /// Whether the key in a register, counted from 1, may vend: exactly when it is marked closed. Only a 1 lets it.
    pub fn usable(&self, register: usize) -> bool {
        crate::usable(self.slots, self.registers, register) == 1
    }
}

impl Refusal {
    /// The twenty-one, in the sequence of their numbers from 1.
    pub const ALL: [Refusal; 21] = [
        Refusal::RowCounts,
        Refusal::ShortBuffer,
        Refusal::UnsoundRows,
        Refusal::BadSupplement,
        Refusal::BadFrame,
        Refusal::BadChecksum,
        Refusal::UnknownHeader,
        Refusal::BadFields,
        Refusal::BadRecord,
        Refusal::BadForm,
        Refusal::Expired,
        Refusal::UnknownSlot,
        Refusal::NoFreeSlot,
        Refusal::WrongState,
        Refusal::OtherModule,
        Refusal::OtherFingerprint,
        Refusal::OtherTvp,
        Refusal::OtherTag,
        Refusal::CheckFailed,
        Refusal::NoFreeRegister,
        Refusal::EmptyRegister,
    ];

    /// The header's number.
    pub const fn number(self) -> u8 {
        self as u8
    }
}

impl fmt::Display for Refusal {
    fn fmt(&self, f: &mut fmt::Formatter<'_>) -> fmt::Result {
        write!(f, "refusal {}: {self:?}", self.number())
    }
}

impl core::error::Error for Refusal {}

/// A reply in types; none where a number is none of the header's.
fn typed(reply: Reply, buffer: &[u8]) -> Option<Result<Accepted<'_>, Refused<'_>>> {
    let response = buffer.get(..reply.length)?;
    if reply.outcome == 0 {
        return Some(Ok(Accepted { state: state_left(reply.state)?, response }));
    }
    let refusal = Refusal::ALL.into_iter().find(|each| each.number() == reply.outcome)?;
    Some(Err(Refused { refusal, response }))
}

/// The slot state that is left, by its number; 255 is that of a command that leaves none.
fn state_left(number: u8) -> Option<Option<SlotState>> {
    match number {
        0 => Some(Some(SlotState::Free)),
        1 => Some(Some(SlotState::Pending)),
        2 => Some(Some(SlotState::Loading)),
        3 => Some(Some(SlotState::Idle)),
        255 => Some(None),
        _ => None,
    }
}

#[cfg(test)]
mod tests {
    use super::*;

    fn reply(outcome: u8, state: u8, length: usize) -> Reply {
        Reply { outcome, state, length }
    }

    #[test]
    fn numbers() {
        let all: [u8; 21] = core::array::from_fn(|place| place as u8 + 1);
        assert_eq!(Refusal::ALL.map(Refusal::number), all);
    }

    #[test]
    fn replies() {
        let buffer = *b"AB\r.";
        let response = &buffer[..3];
        let accepted = |state| Some(Ok(Accepted { state, response }));
        assert_eq!(typed(reply(0, 255, 3), &buffer), accepted(None));
        assert_eq!(typed(reply(0, 2, 3), &buffer), accepted(Some(SlotState::Loading)));
        let refused = Some(Err(Refused { refusal: Refusal::WrongState, response }));
        assert_eq!(typed(reply(14, 255, 3), &buffer), refused);
    }

    #[test]
    fn misfits() {
        for misfit in [reply(22, 255, 0), reply(255, 255, 0), reply(0, 4, 0), reply(0, 255, 5), reply(9, 255, 5)] {
            assert_eq!(typed(misfit, b"AB\r."), None);
        }
    }
}

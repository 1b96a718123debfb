//! What the caller lends beside the rows (document 01, "What the caller lends").

use crate::{records::Identity, text};

/// Plain numbers and byte arrays, so that every memory content is a value.
#[repr(C)]
#[derive(Clone, Copy, PartialEq, Eq)]
pub struct Supplement {
    pub clock: [u8; 16],
    /// The module's own SMID.1 record.
    pub identity: [u8; 128],
    pub identity_length: usize,
    /// The finished VKLOADREQ record.
    pub request: [u8; 700],
    pub request_length: usize,
    /// The expected tag.
    pub tag: [u8; 48],
    /// The check value, KCV of a stored card.
    pub check: [u8; 6],
    /// "Cryptographic check passed": 1 yes, 0 no.
    pub passed: u8,
}

impl Supplement {
    /// `None` when the length is past the space.
    pub fn own_identity(&self) -> Option<&[u8]> {
        self.identity.get(..self.identity_length)
    }

    /// `None` when the length is past the space.
    pub fn load_request(&self) -> Option<&[u8]> {
        self.request.get(..self.request_length)
    }

    /// Question 4: all of it, for each command alike.
    pub fn well_formed(&self) -> bool {
        let Some(own) = self.own_identity() else { return false };
        let Some(request) = self.load_request() else { return false };
        text::is_timestamp(&self.clock)
            && Identity::parse(own, b"SMID.1").is_some_and(|identity| identity.in_form())
            && !request.is_empty()
            && request.iter().all(|byte| (0x20..=0x7D).contains(byte))
            && text::is_hex(&self.tag)
            && text::is_hex(&self.check)
            && self.passed <= 1
    }
}

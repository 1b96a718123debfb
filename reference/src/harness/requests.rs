//! Requests and supplements built from their parts.

use crate::fields::Reader;
use crate::records;
use crate::{crc, Command, Supplement};

/// Header, payload, CRC-16/ARC, carriage return.
pub fn frame(header: &[u8], payload: &[u8]) -> Vec<u8> {
    let mut message = [header, payload].concat();
    let checksum = crc::digits(crc::arc(&message));
    message.extend_from_slice(&checksum);
    message.push(b'\r');
    message
}

pub fn string(value: &[u8]) -> Vec<u8> {
    [b"P", value, b"~"].concat()
}

/// GL?RS, SM?GL.
pub fn bare(command: Command) -> Vec<u8> {
    frame(command.header(), b"")
}

/// SM?KF, SM?KX, SM?KQ.
pub fn of_slot(command: Command, slot: &[u8]) -> Vec<u8> {
    frame(command.header(), &string(slot))
}

/// SM?KD, SM?GA.
pub fn of_register(command: Command, register: u64) -> Vec<u8> {
    frame(command.header(), format!("N{register}~").as_bytes())
}

/// KMCID.1 or SMID.1.
pub fn identity(kind: &[u8], maker: &[u8], name: &[u8], time: &[u8], fingerprint: &[u8]) -> Vec<u8> {
    records::build(kind, b':', &[maker, name, time, fingerprint])
}

/// SM?KC; `rest` are the two fields that have to be empty.
pub fn begin(kmc: &[u8], key: &[u8], expiry: &[u8], rest: [&[u8]; 2]) -> Vec<u8> {
    let record = records::build(b"PK.ECDH.1", b'|', &[kmc, key, expiry, rest[0], rest[1]]);
    frame(Command::KC.header(), &string(&record))
}

/// SM?KR.
pub fn respond(kmc: &[u8], module: &[u8], tvp: &[u8], tag: &[u8]) -> Vec<u8> {
    let record = records::build(b"VKLOAD.RESP.1", b'|', &[kmc, module, tvp, tag]);
    frame(Command::KR.header(), &string(&record))
}

/// SM?KL.
pub fn load(slot: &[u8], nonce: &[u8], card: &[u8], encrypted: &[u8]) -> Vec<u8> {
    let record = records::build(b"KEY.1", b'|', &[nonce, card, encrypted]);
    frame(Command::KL.header(), &[string(slot), string(&record)].concat())
}

/// The card of an SM?KL, where its fields and its record parse.
pub fn card_in(request: &[u8]) -> Option<&[u8]> {
    let mut fields = Reader::new(request.get(5..request.len().checked_sub(5)?)?);
    fields.string()?;
    let [_, card, _] = records::parse(fields.string()?, b"KEY.1", b'|')?;
    Some(card)
}

/// The register of an SM?GA or SM?KD, where its field parses.
pub fn register_in(request: &[u8]) -> Option<usize> {
    let number = Reader::new(request.get(5..request.len().checked_sub(5)?)?).number()?;
    usize::try_from(number).ok()
}

/// A supplement from its parts; `passed` is 1.
pub fn supplement(clock: &[u8; 16], own: &[u8], request: &[u8], tag: &[u8], check: &[u8]) -> Supplement {
    let mut supplement = Supplement {
        clock: *clock,
        identity: [0; 128],
        identity_length: own.len(),
        request: [0; 700],
        request_length: request.len(),
        tag: [0; 48],
        check: [0; 6],
        passed: 1,
    };
    supplement.identity[..own.len()].copy_from_slice(own);
    supplement.request[..request.len()].copy_from_slice(request);
    supplement.tag.copy_from_slice(tag);
    supplement.check.copy_from_slice(check);
    supplement
}

//! The ten commands and the eighteen questions (document 01, "Questions in order").

use crate::cards::{self, Card};
use crate::fields::{Reader, Writer};
use crate::records::{self, Identity};
use crate::rows::{self, RegisterRow, SlotRow, CLOSED, IDLE, LOADING, OPEN, PENDING};
use crate::supplement::Supplement;
use crate::{crc, text};

#[derive(Clone, Copy, PartialEq, Eq, Debug)]
pub enum Command {
    RS,
    KC,
    KR,
    KL,
    KF,
    KX,
    KD,
    GA,
    GL,
    KQ,
}

impl Command {
    pub const ALL: [Command; 10] = [
        Command::RS,
        Command::KC,
        Command::KR,
        Command::KL,
        Command::KF,
        Command::KX,
        Command::KD,
        Command::GA,
        Command::GL,
        Command::KQ,
    ];

    pub fn header(self) -> &'static [u8; 5] {
        match self {
            Command::RS => b"GL?RS",
            Command::KC => b"SM?KC",
            Command::KR => b"SM?KR",
            Command::KL => b"SM?KL",
            Command::KF => b"SM?KF",
            Command::KX => b"SM?KX",
            Command::KD => b"SM?KD",
            Command::GA => b"SM?GA",
            Command::GL => b"SM?GL",
            Command::KQ => b"SM?KQ",
        }
    }
}

#[derive(Clone, Copy, PartialEq, Eq, Debug)]
pub struct Answer {
    /// 0 accepted, else the refusal number 1 to 21.
    pub outcome: u8,
    /// The slot state that an accepted session command (KC, KR, KL, KF, KX) leaves.
    pub state: Option<u8>,
    /// How many bytes of the response buffer are the response.
    pub length: usize,
}

/// Answers one request. No refusal changes a row.
pub fn handle(
    slots: &mut [SlotRow],
    registers: &mut [RegisterRow],
    supplement: &Supplement,
    request: &[u8],
    response: &mut [u8],
) -> Answer {
    let silent = |outcome| Answer { outcome, state: None, length: 0 };
    // 1. Are the row counts in range?
    if !rows::counts_in_range(slots.len(), registers.len()) {
        return silent(1);
    }
    // 2. Is the response buffer long enough?
    if response.len() < 1024 {
        return silent(2);
    }
    // 3. Are the rows sound?
    if !rows::are_sound(slots, registers) {
        return silent(3);
    }
    // 4. Is the supplement well formed, all of it?
    if !supplement.well_formed() {
        return silent(4);
    }
    match decide(slots, registers, supplement, request) {
        Ok(decision) => {
            let (state, payload) = carry_out(&decision, slots, registers, supplement);
            let length = write(response, &answer_header(request), b"00", &payload);
            Answer { outcome: 0, state, length }
        }
        Err(outcome) => {
            // For 5 to 7 GL!ER stands in place of the request's own header.
            let header = if outcome <= 7 { *b"GL!ER" } else { answer_header(request) };
            let (status, payload) = refusal(outcome);
            Answer { outcome, state: None, length: write(response, &header, &status, &payload) }
        }
    }
}

/// A register's key may vend exactly when it is marked closed, whatever its slot's state (document 02, N3). `n` counts
/// from 1.
pub fn usable(slots: &[SlotRow], registers: &[RegisterRow], n: usize) -> bool {
    if !rows::counts_in_range(slots.len(), registers.len()) || !rows::are_sound(slots, registers) {
        return false;
    }
    let Some(register) = n.checked_sub(1).and_then(|place| registers.get(place)) else { return false };
    !register.is_free() && register.mark == CLOSED
}

/// What an accepted request does, with the row places (from 0) that were found.
#[allow(clippy::large_enum_variant)] // one at a time, on the stack
enum Decision<'a> {
    Reset,
    Begin { name: &'a [u8], fingerprint: &'a [u8], slot: usize },
    Respond { slot: usize },
    Load { slot: usize, card: Card<'a>, register: usize },
    Finish { slot: usize },
    DeleteSlot { slot: usize },
    DeleteKey { register: usize },
    Attributes { register: usize },
    List,
    Query { slot: usize },
}

/// Questions 5 to 18; the error is the refusal number.
fn decide<'a>(
    slots: &[SlotRow],
    registers: &[RegisterRow],
    supplement: &Supplement,
    request: &'a [u8],
) -> Result<Decision<'a>, u8> {
    // 5. Are length and the only carriage return, at the end, right?
    let returns = request.iter().filter(|&&byte| byte == b'\r').count();
    if !(10..=1024).contains(&request.len()) || request.last() != Some(&b'\r') || returns != 1 {
        return Err(5);
    }

    // 6. Is the checksum right?
    let (covered, end) = request.split_at(request.len() - 5);
    if end[..4] != crc::digits(crc::arc(covered)) {
        return Err(6);
    }

    // 7. Is the header one of the ten?
    let (header, payload) = covered.split_at(5);
    let Some(command) = Command::ALL.into_iter().find(|command| *command.header() == *header) else {
        return Err(7);
    };

    // 8. Are the payload's fields those of the command, nothing over?
    let fields = read_fields(command, payload).ok_or(8)?;

    // 9. KC, KR, KL: does the record parse, and each identity inside it?
    let record = parse_record(command, fields.record).ok_or(9)?;

    // 10. Are its fields, or its card, in form?
    if !record.in_form() {
        return Err(10);
    }

    // 11. KC: is the expiry later than the clock? Timestamps compare as texts.
    if let Record::PublicKey { expiry, .. } = record {
        if expiry <= &supplement.clock[..] {
            return Err(11);
        }
    }

    // The KMC identity names the slot of KC and KR, a field that of the others.
    let name = match record {
        Record::PublicKey { kmc, .. } | Record::Response { kmc, .. } => kmc.name,
        _ => fields.slot,
    };
    let known = rows::slot_named(slots, name);

    // 12. KR, KL, KF, KX, KQ: is the slot known?
    let needs_slot = matches!(command, Command::KR | Command::KL | Command::KF | Command::KX | Command::KQ);
    if needs_slot && known.is_none() {
        return Err(12);
    }

    // 13. KC: known slot or a free row?
    let slot = known.or_else(|| rows::lowest_free_slot(slots));
    if command == Command::KC && slot.is_none() {
        return Err(13);
    }

    // 14. KR: PENDING? KL: LOADING? KF: either?
    let state = known.map(|slot| slots[slot].state);
    let ready = match command {
        Command::KR => state == Some(PENDING),
        Command::KL => state == Some(LOADING),
        Command::KF => matches!(state, Some(PENDING | LOADING)),
        _ => true,
    };
    if !ready {
        return Err(14);
    }

    // 15. KR: module identity our own? Fingerprint and TVP the slot's? Tag as expected?
    if let (Record::Response { kmc, module_text, tvp, tag, .. }, Some(slot)) = (&record, known) {
        if Some(*module_text) != supplement.own_identity() {
            return Err(15);
        }
        if kmc.fingerprint != slots[slot].fingerprint {
            return Err(16);
        }
        if *tvp != slots[slot].tvp {
            return Err(17);
        }
        if *tag != supplement.tag {
            return Err(18);
        }
    }

    // 16. KC, KL: check passed?
    if matches!(command, Command::KC | Command::KL) && supplement.passed != 1 {
        return Err(19);
    }

    // 17. KL: held or free register?
    let card = match record {
        Record::Key { card, .. } => card,
        _ => None,
    };
    let target = card.and_then(|card| {
        rows::register_holding(registers, card.pair()).or_else(|| rows::lowest_free_register(registers))
    });
    if command == Command::KL && target.is_none() {
        return Err(20);
    }

    // 18. GA, KD: register filled (0 or beyond the rows is not)?
    let filled = filled_register(registers, fields.register);
    if matches!(command, Command::GA | Command::KD) && filled.is_none() {
        return Err(21);
    }

    // Eighteen yeses mean acceptance: what the command needs has been found.
    let decision = match command {
        Command::RS => Some(Decision::Reset),
        Command::KC => match (record, slot) {
            (Record::PublicKey { kmc, .. }, Some(slot)) => {
                Some(Decision::Begin { name: kmc.name, fingerprint: kmc.fingerprint, slot })
            }
            _ => None,
        },
        Command::KR => known.map(|slot| Decision::Respond { slot }),
        Command::KL => match (known, card, target) {
            (Some(slot), Some(card), Some(register)) => Some(Decision::Load { slot, card, register }),
            _ => None,
        },
        Command::KF => known.map(|slot| Decision::Finish { slot }),
        Command::KX => known.map(|slot| Decision::DeleteSlot { slot }),
        Command::KD => filled.map(|register| Decision::DeleteKey { register }),
        Command::GA => filled.map(|register| Decision::Attributes { register }),
        Command::GL => Some(Decision::List),
        Command::KQ => known.map(|slot| Decision::Query { slot }),
    };
    Ok(decision.expect("the questions have been answered with yes"))
}

/// The fields of a request; those that the command does not list stay empty.
#[derive(Default)]
struct Fields<'a> {
    slot: &'a [u8],
    record: &'a [u8],
    register: u64,
}

/// Question 8: KC P; KR P; KL P P; KF, KX, KQ P; KD, GA N; RS, GL none.
fn read_fields(command: Command, payload: &[u8]) -> Option<Fields<'_>> {
    let mut reader = Reader::new(payload);
    let mut fields = Fields::default();
    match command {
        Command::RS | Command::GL => {}
        Command::KC | Command::KR => fields.record = reader.string()?,
        Command::KL => {
            fields.slot = reader.string()?;
            fields.record = reader.string()?;
        }
        Command::KF | Command::KX | Command::KQ => fields.slot = reader.string()?,
        Command::KD | Command::GA => fields.register = reader.number()?,
    }
    reader.at_end().then_some(fields)
}

/// The record of a request, taken apart.
#[derive(Clone, Copy)]
enum Record<'a> {
    /// The command has none.
    None,
    /// PK.ECDH.1 (003 clause 7.2).
    PublicKey { kmc: Identity<'a>, key: &'a [u8], expiry: &'a [u8], issuer: &'a [u8], signature: &'a [u8] },
    /// VKLOAD.RESP.1 (003 clause 7.4).
    Response { kmc: Identity<'a>, module: Identity<'a>, module_text: &'a [u8], tvp: &'a [u8], tag: &'a [u8] },
    /// KEY.1 (003 clause 7.5); the card is `None` when it is out of form.
    Key { nonce: &'a [u8], card: Option<Card<'a>>, encrypted: &'a [u8] },
}

/// Question 9: type, field count and checksum of the record and of each identity inside.
fn parse_record(command: Command, record: &[u8]) -> Option<Record<'_>> {
    match command {
        Command::KC => {
            let [kmc, key, expiry, issuer, signature] = records::parse(record, b"PK.ECDH.1", b'|')?;
            let kmc = Identity::parse(kmc, b"KMCID.1")?;
            Some(Record::PublicKey { kmc, key, expiry, issuer, signature })
        }
        Command::KR => {
            let [kmc, module_text, tvp, tag] = records::parse(record, b"VKLOAD.RESP.1", b'|')?;
            let kmc = Identity::parse(kmc, b"KMCID.1")?;
            let module = Identity::parse(module_text, b"SMID.1")?;
            Some(Record::Response { kmc, module, module_text, tvp, tag })
        }
        Command::KL => {
            let [nonce, card, encrypted] = records::parse(record, b"KEY.1", b'|')?;
            Some(Record::Key { nonce, card: cards::incoming(card), encrypted })
        }
        _ => Some(Record::None),
    }
}

impl Record<'_> {
    /// Question 10.
    fn in_form(&self) -> bool {
        match self {
            Record::None => true,
            Record::PublicKey { kmc, key, expiry, issuer, signature } => {
                kmc.in_form()
                    && text::is_some_hex(key)
                    && text::is_timestamp(expiry)
                    && issuer.is_empty()
                    && signature.is_empty()
            }
            Record::Response { kmc, module, tvp, tag, .. } => {
                kmc.in_form() && module.in_form() && text::is_timestamp(tvp) && text::is_hex_of(tag, 48)
            }
            Record::Key { nonce, card, encrypted } => {
                text::is_some_hex(nonce) && card.is_some() && text::is_some_hex(encrypted)
            }
        }
    }
}

/// The place of register `number`, counted from 1, when it is filled.
fn filled_register(registers: &[RegisterRow], number: u64) -> Option<usize> {
    let place = usize::try_from(number).ok()?.checked_sub(1)?;
    registers.get(place).filter(|register| !register.is_free()).map(|_| place)
}

/// Changes the rows ("Slots and registers") and gives the slot state that a
/// session command leaves, and the fields of the reply.
fn carry_out(
    decision: &Decision,
    slots: &mut [SlotRow],
    registers: &mut [RegisterRow],
    supplement: &Supplement,
) -> (Option<u8>, Vec<u8>) {
    let mut reply = Writer::default();
    let state = match decision {
        // PENDING and LOADING become IDLE; every key is closed.
        Decision::Reset => {
            for slot in slots.iter_mut().filter(|slot| matches!(slot.state, PENDING | LOADING)) {
                slot.state = IDLE;
                slot.tvp = [0; 16];
            }
            registers.iter_mut().for_each(|register| register.mark = CLOSED);
            None
        }
        // PENDING with the record's fingerprint and the clock as TVP; the keys stay, and so do their marks.
        Decision::Begin { name, fingerprint, slot } => {
            let row = &mut slots[*slot];
            *row = SlotRow::FREE;
            row.state = PENDING;
            row.kmcid[..name.len()].copy_from_slice(name);
            row.fingerprint.copy_from_slice(fingerprint);
            row.tvp = supplement.clock;
            reply.string(name).string(supplement.load_request().unwrap_or_default());
            Some(PENDING)
        }
        // PENDING becomes LOADING, TVP cleared.
        Decision::Respond { slot } => {
            slots[*slot].state = LOADING;
            slots[*slot].tvp = [0; 16];
            reply.string(slots[*slot].name());
            Some(LOADING)
        }
        // Slots are unchanged; that one key is open, new or loaded again.
        Decision::Load { slot, card, register } => {
            let card = cards::store(card, slots[*slot].name(), &supplement.check);
            registers[*register] = RegisterRow { card, mark: OPEN };
            reply.number(register + 1).string(cards::written(&registers[*register].card));
            Some(LOADING)
        }
        // PENDING or LOADING becomes IDLE; just the keys whose KSL is it are closed.
        Decision::Finish { slot } => {
            slots[*slot].state = IDLE;
            slots[*slot].tvp = [0; 16];
            for register in registers.iter_mut().filter(|register| of_slot(register, slots[*slot].name())) {
                register.mark = CLOSED;
            }
            Some(IDLE)
        }
        // The row becomes free, as do just the registers whose KSL is it.
        Decision::DeleteSlot { slot } => {
            for register in registers.iter_mut() {
                if of_slot(register, slots[*slot].name()) {
                    *register = RegisterRow::FREE;
                }
            }
            slots[*slot] = SlotRow::FREE;
            Some(rows::FREE)
        }
        Decision::DeleteKey { register } => {
            registers[*register] = RegisterRow::FREE;
            None
        }
        Decision::Attributes { register } => {
            reply.string(cards::written(&registers[*register].card));
            None
        }
        // Ascending byte sequence, a shorter identifier before its extensions (document 02, N1): as slices compare.
        Decision::List => {
            let mut names: Vec<&[u8]> = slots.iter().filter(|slot| !slot.is_free()).map(SlotRow::name).collect();
            names.sort();
            for name in names {
                reply.string(name);
            }
            None
        }
        Decision::Query { slot } => {
            query(&slots[*slot], registers, &mut reply);
            None
        }
    };
    (state, reply.payload)
}

/// The fields of 001 clause 6.3.2: state, KMCID, current TVP and fingerprint, new
/// TVP and fingerprint, registers. A row holds one fingerprint and one TVP: the
/// new ones in PENDING, the current fingerprint in the other states.
fn query(slot: &SlotRow, registers: &[RegisterRow], reply: &mut Writer) {
    match slot.state {
        PENDING => {
            reply.string(b"PENDING").string(slot.name());
            reply.string(b"").octets(b"").string(&slot.tvp).octets(&slot.fingerprint);
        }
        state => {
            // Table 3 of 001 calls IDLE ACTIVE, and its name is printed.
            let printed = if state == LOADING { &b"LOADING"[..] } else { b"ACTIVE" };
            reply.string(printed).string(slot.name());
            reply.string(b"").octets(&slot.fingerprint).string(b"").octets(b"");
        }
    }
    for (place, register) in registers.iter().enumerate() {
        if of_slot(register, slot.name()) {
            reply.number(place + 1);
        }
    }
}

fn of_slot(register: &RegisterRow, name: &[u8]) -> bool {
    cards::stored(&register.card).is_some_and(|card| card.slot() == name)
}

/// The request's header with ! for ?.
fn answer_header(request: &[u8]) -> [u8; 5] {
    [request[0], request[1], b'!', request[3], request[4]]
}

/// Status and payload of refusals 5 to 21.
fn refusal(outcome: u8) -> ([u8; 2], Vec<u8>) {
    let status = match outcome {
        6 => b"20",
        7 => b"21",
        12 => b"27",
        20 => b"28",
        21 => b"22",
        _ => b"EE",
    };
    let mut reply = Writer::default();
    if status == b"EE" {
        let code = match outcome {
            // The codes of 003 clause 13, without their descriptions.
            15..=18 => format!("SM.3B.{}", outcome - 9),
            _ => format!("KM.{outcome:02}"),
        };
        reply.string(code.as_bytes());
    }
    (*status, reply.payload)
}

/// Writes header, status, payload, checksum and carriage return; bytes of the
/// buffer beyond them keep their value.
fn write(response: &mut [u8], header: &[u8; 5], status: &[u8; 2], payload: &[u8]) -> usize {
    let mut message = [&header[..], &status[..], payload].concat();
    let checksum = crc::digits(crc::arc(&message));
    message.extend_from_slice(&checksum);
    message.push(b'\r');
    response[..message.len()].copy_from_slice(&message);
    message.len()
}

//! The key-management engine written for speed, by the same paper as `reference` and held to it by the same comparison: no heap, no copy of a table, one pass over each
//! row, whose findings (keys and slots of the registers) serve the later questions too, checksums by table, eight bytes at a time.

mod crc;
mod incoming;
mod names;
mod records;
mod reply;
mod rows;
mod stored;
mod text;

use incoming::Card;
use records::Identity;
use reference::rows::{CLOSED, FREE, IDLE, LOADING, MOST_SLOTS, OPEN, PENDING};
use reference::{Answer, RegisterRow, SlotRow, Supplement};
use reply::Reply;
use rows::Known;

/// Answers one request. No refusal changes a row.
pub fn handle(
    slots: &mut [SlotRow],
    registers: &mut [RegisterRow],
    supplement: &Supplement,
    request: &[u8],
    response: &mut [u8],
) -> Answer {
    let silent = |outcome| Answer { outcome, state: None, length: 0 };
    if !rows::counts_in_range(slots.len(), registers.len()) {
        return silent(1);
    }
    if response.len() < 1024 {
        return silent(2);
    }
    let mut known = Known::NOTHING;
    if known.judge(slots, registers).is_none() {
        return silent(3);
    }
    if !is_well_formed(supplement) {
        return silent(4);
    }
    let mut call = Call { slots, registers, supplement, known: &known, header: b"GL!ER", response };
    match call.ask(request) {
        Ok((state, length)) => Answer { outcome: 0, state, length },
        Err(outcome) => Answer { outcome, state: None, length: call.refuse(outcome) },
    }
}

/// Whether the key of a register, counted from 1, may vend: exactly when it is marked closed (document 02, N3).
pub fn usable(slots: &[SlotRow], registers: &[RegisterRow], register: usize) -> bool {
    if !rows::counts_in_range(slots.len(), registers.len()) {
        return false;
    }
    let mut known = Known::NOTHING;
    if known.judge(slots, registers).is_none() {
        return false;
    }
    register
        .checked_sub(1)
        .filter(|&place| place < registers.len() && known.keys[place] != 0)
        .is_some_and(|place| registers[place].mark == CLOSED)
}

/// Question 4.
fn is_well_formed(supplement: &Supplement) -> bool {
    let Some(own) = supplement.own_identity() else { return false };
    let Some(request) = supplement.load_request() else { return false };
    text::is_timestamp(&supplement.clock)
        && Identity::parse(own, b"SMID.1").is_some_and(|identity| identity.in_form())
        && !request.is_empty()
        && text::is_text(request)
        && text::is_hex(&supplement.tag)
        && text::is_hex(&supplement.check)
        && supplement.passed <= 1
}

/// A call whose rows are sound and whose supplement is well formed.
struct Call<'a> {
    slots: &'a mut [SlotRow],
    registers: &'a mut [RegisterRow],
    supplement: &'a Supplement,
    known: &'a Known,
    /// Of the response: GL!ER until the request's own is known to be one of the ten.
    header: &'a [u8],
    response: &'a mut [u8],
}

/// The slot state that is left and the length of the response, or the number of the refusal.
type Asked = Result<(Option<u8>, usize), u8>;

/// The only field, a string. No byte of it is ~, which is no text.
fn only_string(payload: &[u8]) -> Result<&[u8], u8> {
    match payload {
        [b'P', value @ .., b'~'] if text::is_text(value) => Ok(value),
        _ => Err(8),
    }
}

/// The only field, a number.
fn only_number(payload: &[u8]) -> Result<u64, u8> {
    match payload {
        [b'N', value @ .., b'~'] => text::decimal(value).filter(|&number| number <= 2_147_483_647).ok_or(8),
        _ => Err(8),
    }
}

fn nothing(payload: &[u8]) -> Result<(), u8> {
    payload.is_empty().then_some(()).ok_or(8)
}

impl<'a> Call<'a> {
    /// Questions 5 to 7, and those of the command.
    fn ask(&mut self, request: &'a [u8]) -> Asked {
        if !(10..=1024).contains(&request.len()) {
            return Err(5);
        }
        let (message, end) = request.split_at(request.len() - 1);
        if end != b"\r" || message.iter().fold(false, |found, &byte| found | (byte == b'\r')) {
            return Err(5);
        }
        let (covered, checksum) = message.split_at(message.len() - 4);
        if checksum != crc::digits(crc::arc(covered)) {
            return Err(6);
        }
        let (header, payload) = covered.split_at(5);
        let command: fn(&mut Self, &'a [u8]) -> Asked = match header {
            b"GL?RS" => Self::reset,
            b"SM?KC" => Self::begin,
            b"SM?KR" => Self::respond,
            b"SM?KL" => Self::load,
            b"SM?KF" => Self::finish,
            b"SM?KX" => Self::delete_slot,
            b"SM?KD" => Self::delete_key,
            b"SM?GA" => Self::attributes,
            b"SM?GL" => Self::list,
            b"SM?KQ" => Self::query,
            _ => return Err(7),
        };
        self.header = header;
        command(self, payload)
    }

    fn accept(&mut self) -> Reply<'_> {
        Reply::new(self.response, self.header, b"00")
    }

    fn refuse(&mut self, outcome: u8) -> usize {
        let status = match outcome {
            6 => b"20",
            7 => b"21",
            12 => b"27",
            20 => b"28",
            21 => b"22",
            _ => b"EE",
        };
        let mut reply = Reply::new(self.response, self.header, status);
        if status == b"EE" {
            match outcome {
                15..=18 => reply.string(&[b'S', b'M', b'.', b'3', b'B', b'.', b'0' + outcome - 9]),
                _ => {
                    let [tens, ones] = text::two_digits(outcome);
                    reply.string(&[b'K', b'M', b'.', tens, ones])
                }
            };
        }
        reply.end()
    }

    /// Question 12.
    fn slot(&self, name: &[u8]) -> Result<usize, u8> {
        self.known.names.find(name).ok_or(12)
    }

    /// Question 18.
    fn register(&self, number: u64) -> Result<usize, u8> {
        let place = usize::try_from(number).ok().and_then(|number| number.checked_sub(1)).ok_or(21)?;
        if place < self.registers.len() && self.known.keys[place] != 0 {
            Ok(place)
        } else {
            Err(21)
        }
    }

    /// The name of a slot row, before its zeros.
    fn name(row: &SlotRow) -> &[u8] {
        let end = text::find(&row.kmcid, 0, 0);
        &row.kmcid[..end]
    }

    fn reset(&mut self, payload: &'a [u8]) -> Asked {
        nothing(payload)?;
        for row in self.slots.iter_mut().filter(|row| matches!(row.state, PENDING | LOADING)) {
            row.state = IDLE;
            row.tvp = [0; 16];
        }
        for row in self.registers.iter_mut() {
            row.mark = CLOSED;
        }
        Ok((None, self.accept().end()))
    }

    /// The registers whose KSL is a slot.
    fn keys_of(&mut self, place: usize) -> impl Iterator<Item = &mut RegisterRow> {
        let known = self.known.keys.iter().zip(&self.known.slots);
        let own = move |(key, slot): (&u64, &u8)| *key != 0 && usize::from(*slot) == place;
        self.registers.iter_mut().zip(known).filter(move |(_, known)| own(*known)).map(|(row, _)| row)
    }

    fn begin(&mut self, payload: &'a [u8]) -> Asked {
        let record = only_string(payload)?;
        let [kmc, key, expiry, issuer, signature] = records::parse(record, b"PK.ECDH.1", b'|').ok_or(9)?;
        let kmc = Identity::parse(kmc, b"KMCID.1").ok_or(9)?;
        let rest = issuer.is_empty() && signature.is_empty();
        if !(kmc.in_form() && text::is_some_hex(key) && text::is_timestamp(expiry) && rest) {
            return Err(10);
        }
        // Timestamps compare as texts.
        if *expiry <= self.supplement.clock[..] {
            return Err(11);
        }
        let free = || self.slots.iter().position(|row| row.state == FREE);
        let place = self.known.names.find(kmc.name).or_else(free).ok_or(13)?;
        if self.supplement.passed != 1 {
            return Err(19);
        }
        let row = &mut self.slots[place];
        row.state = PENDING;
        row.kmcid = [0; 40];
        row.kmcid[..kmc.name.len()].copy_from_slice(kmc.name);
        row.fingerprint.copy_from_slice(kmc.fingerprint);
        row.tvp = self.supplement.clock;
        let load_request = &self.supplement.request[..self.supplement.request_length];
        let length = self.accept().string(kmc.name).string(load_request).end();
        Ok((Some(PENDING), length))
    }

    fn respond(&mut self, payload: &'a [u8]) -> Asked {
        let record = only_string(payload)?;
        let [kmc, module, tvp, tag] = records::parse(record, b"VKLOAD.RESP.1", b'|').ok_or(9)?;
        let kmc = Identity::parse(kmc, b"KMCID.1").ok_or(9)?;
        // The module's own record parses and is in form (question 4).
        let own = module == &self.supplement.identity[..self.supplement.identity_length];
        let module_in_form = own || Identity::parse(module, b"SMID.1").ok_or(9)?.in_form();
        if !(kmc.in_form() && module_in_form && text::is_timestamp(tvp) && tag.len() == 48 && text::is_hex(tag)) {
            return Err(10);
        }
        let place = self.slot(kmc.name)?;
        let row = &mut self.slots[place];
        if row.state != PENDING {
            return Err(14);
        }
        if !own {
            return Err(15);
        }
        if kmc.fingerprint != row.fingerprint {
            return Err(16);
        }
        if tvp != row.tvp {
            return Err(17);
        }
        if tag != self.supplement.tag {
            return Err(18);
        }
        row.state = LOADING;
        row.tvp = [0; 16];
        Ok((Some(LOADING), self.accept().string(kmc.name).end()))
    }

    fn load(&mut self, payload: &'a [u8]) -> Asked {
        let end = text::find(payload, 0, b'~');
        let (first, second) = payload.split_at_checked(end + 1).ok_or(8)?;
        let (name, record) = (only_string(first)?, only_string(second)?);
        let [nonce, card, encrypted] = records::parse(record, b"KEY.1", b'|').ok_or(9)?;
        let card = Card::read(card).filter(|_| text::is_some_hex(nonce) && text::is_some_hex(encrypted)).ok_or(10)?;
        let slot = self.slot(name)?;
        if self.slots[slot].state != LOADING {
            return Err(14);
        }
        if self.supplement.passed != 1 {
            return Err(19);
        }
        let keys = &self.known.keys[..self.registers.len()];
        let place = |wanted: u64| keys.iter().position(|&key| key == wanted);
        let place = place(card.key()).or_else(|| place(0)).ok_or(20)?;
        let row = &mut self.registers[place];
        row.mark = OPEN;
        let length = card.store(row, name, &self.supplement.check);
        let mut reply = Reply::new(self.response, self.header, b"00");
        Ok((Some(LOADING), reply.number(place + 1).string(&row.card[..length]).end()))
    }

    fn finish(&mut self, payload: &'a [u8]) -> Asked {
        let place = self.slot(only_string(payload)?)?;
        let row = &mut self.slots[place];
        if !matches!(row.state, PENDING | LOADING) {
            return Err(14);
        }
        row.state = IDLE;
        row.tvp = [0; 16];
        for row in self.keys_of(place) {
            row.mark = CLOSED;
        }
        Ok((Some(IDLE), self.accept().end()))
    }

    fn delete_slot(&mut self, payload: &'a [u8]) -> Asked {
        let place = self.slot(only_string(payload)?)?;
        self.slots[place] = SlotRow::FREE;
        for row in self.keys_of(place) {
            *row = RegisterRow::FREE;
        }
        Ok((Some(FREE), self.accept().end()))
    }

    fn delete_key(&mut self, payload: &'a [u8]) -> Asked {
        let place = self.register(only_number(payload)?)?;
        self.registers[place] = RegisterRow::FREE;
        Ok((None, self.accept().end()))
    }

    fn attributes(&mut self, payload: &'a [u8]) -> Asked {
        let place = self.register(only_number(payload)?)?;
        let card = &self.registers[place].card;
        let end = text::find(card, 0, 0);
        let length = Reply::new(self.response, self.header, b"00").string(&card[..end]).end();
        Ok((None, length))
    }

    /// Ascending byte sequence, a shorter identifier before its extensions (document 02, N1), by insertion: slices
    /// compare so.
    fn list(&mut self, payload: &'a [u8]) -> Asked {
        nothing(payload)?;
        let mut names: [&[u8]; MOST_SLOTS] = [&[]; MOST_SLOTS];
        let mut count = 0;
        for name in self.slots.iter().filter(|row| row.state != FREE).map(Self::name) {
            let mut place = count;
            while place > 0 && names[place - 1] > name {
                names[place] = names[place - 1];
                place -= 1;
            }
            names[place] = name;
            count += 1;
        }
        let mut reply = Reply::new(self.response, self.header, b"00");
        for name in &names[..count] {
            reply.string(name);
        }
        Ok((None, reply.end()))
    }

    /// The fields of 001 clause 6.3.2, as `reference` has them.
    fn query(&mut self, payload: &'a [u8]) -> Asked {
        let name = only_string(payload)?;
        let place = self.slot(name)?;
        let row = &self.slots[place];
        let mut reply = Reply::new(self.response, self.header, b"00");
        match row.state {
            PENDING => {
                reply.string(b"PENDING").string(name);
                reply.string(b"").octets(b"").string(&row.tvp).octets(&row.fingerprint);
            }
            state => {
                reply.string(if state == LOADING { b"LOADING" } else { b"ACTIVE" }).string(name);
                reply.string(b"").octets(&row.fingerprint).string(b"").octets(b"");
            }
        }
        let keys = self.known.keys.iter().zip(&self.known.slots).take(self.registers.len());
        for (register, _) in keys.enumerate().filter(|(_, (&key, &slot))| key != 0 && usize::from(slot) == place) {
            reply.number(register + 1);
        }
        Ok((None, reply.end()))
    }
}

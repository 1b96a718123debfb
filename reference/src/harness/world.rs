//! Random rows, requests and supplements over few centres, supply groups and
//! revisions, so that histories meet the same slots and keys again and again.

use super::edits;
use super::generator::Generator;
use super::requests;
use super::tables::Tables;
use crate::rows::{self, CLOSED, FREE, IDLE, LOADING, OPEN, PENDING};
use crate::{cards, Command, RegisterRow, Supplement};

/// Most names share a beginning, also all of a shorter name, and differ after it in a byte of each kind, so that a list
/// in another sequence shows (document 02, N1). Five fill their place in a row.
const CENTRES: [&[u8]; 16] = [
    b"0",
    b"0000000000000000000000000000000000000000",
    b"K",
    b"KMC",
    b"KMC,1",
    b"KMC-567890123456789012345678901234567890",
    b"KMC.1",
    b"KMC1",
    b"KMC10",
    b"KMCA",
    b"KMC_1",
    b"KMCa",
    b"k-234567890_234567890.234567890,2345678",
    b"k-234567890_234567890.234567890,23456789",
    b"k-234567890_234567890.234567890,2345678A",
    b"kmc-567890123456789012345678901234567890",
];
const GROUPS: [&str; 3] = ["0000123456", "0000123457", "9999999999"];
const TAGS: [&[u8; 48]; 2] =
    [b"A9FE9315B7456852D261B5A42364C4F5AF9693DB0D6931B6", b"A9FE9315B7456852D261B5A42364C4F5AF9693DB0D6931B7"];
const FINGERPRINTS: [&[u8; 16]; 2] = [b"8E22231BC992010A", b"65AF90C4DBAF23D3"];

pub fn own_identity() -> Vec<u8> {
    requests::identity(b"SMID.1", b"Prism", b"12345678", b"20130303T153830Z", b"E7C42215AF1FE951")
}

pub struct World {
    pub generator: Generator,
    /// The centres' names in a sequence that each history has of its own.
    names: [&'static [u8]; CENTRES.len()],
    /// How many centres the requests take, and supply groups and revisions the cards.
    centres: usize,
    groups: usize,
    revisions: usize,
    /// Requests of this history, to be repeated.
    sent: Vec<Vec<u8>>,
}

impl World {
    pub fn new(seed: u64) -> Self {
        World { generator: Generator::new(seed), names: CENTRES, centres: 3, groups: 3, revisions: 3, sent: Vec::new() }
    }

    /// Empty tables for a new history: small ones, sometimes up to the largest.
    pub fn tables(&mut self) -> Tables {
        let generator = &mut self.generator;
        let slots = if generator.chance(85) { generator.between(1, 3) } else { generator.between(1, 8) };
        let registers = if generator.chance(85) { generator.between(1, 5) } else { generator.between(1, 32) };
        self.empty(slots, registers)
    }

    fn empty(&mut self, slots: usize, registers: usize) -> Tables {
        self.sent.clear();
        self.generator.shuffle(&mut self.names);
        // More centres than slots and more keys than registers in large tables too.
        self.centres = if slots > 3 && self.generator.chance(70) { 9 } else { 3 };
        (self.groups, self.revisions) = if registers > 9 && self.generator.chance(70) { (9, 9) } else { (3, 3) };
        Tables::empty(slots, registers)
    }

    /// Sound rows, also those that no history reaches: keys in every state, open wherever they may be, VND above 0.
    pub fn filled(&mut self) -> Tables {
        let (slots, registers) = (self.generator.between(1, 8), self.generator.between(1, 32));
        let mut tables = self.empty(slots, registers);
        for (place, name) in self.names.into_iter().enumerate().take(slots) {
            let state = *self.generator.pick(&[FREE, PENDING, LOADING, IDLE, IDLE]);
            if state != FREE {
                let tvp = self.generator.timestamp();
                let tvp: &[u8] = if state == PENDING { &tvp } else { b"" };
                tables.put_slot(place, state, name, *self.generator.pick(&FINGERPRINTS), tvp);
            }
        }
        let names = tables.names_in(&[PENDING, LOADING, IDLE]);
        for place in 0..registers {
            let text = self.card(false);
            let card = cards::incoming(&text).expect("a card in form");
            let held = rows::register_holding(tables.registers(), card.pair()).is_some();
            if names.is_empty() || held || self.generator.chance(20) {
                continue;
            }
            let (slot, check) = (self.generator.pick(&names), self.generator.hex(6));
            let space = cards::store(&card, slot, &check);
            let start = cards::written(&space).strip_suffix(b"0;").expect("VND is 0");
            let vended = *self.generator.pick(&[&b"0;"[..], b"1;", b"398674;", b"999999999;"]);
            tables.put_card(place, &[start, vended].concat());
            let may_be_open =
                rows::slot_named(tables.slots(), slot).is_some_and(|slot| tables.slots[slot].state != IDLE);
            if may_be_open && self.generator.chance(50) {
                tables.registers[place].mark = OPEN;
            }
        }
        tables
    }

    /// Well formed, but for `passed` in one call of twelve.
    pub fn supplement(&mut self) -> Supplement {
        let generator = &mut self.generator;
        let length = if generator.chance(90) { generator.between(1, 40) } else { generator.between(1, 700) };
        let request: Vec<u8> = (0..length).map(|_| generator.between(0x20, 0x7D) as u8).collect();
        let (clock, check) = (generator.timestamp(), generator.hex(6));
        let tag = *generator.pick(&TAGS);
        let mut supplement = requests::supplement(&clock, &own_identity(), &request, tag, &check);
        supplement.passed = u8::from(generator.below(12) > 0);
        supplement
    }

    /// Spoils one part of a supplement; which values are bad is left to question 4.
    pub fn spoil(&mut self, supplement: &mut Supplement) {
        let generator = &mut self.generator;
        let byte = generator.byte();
        match generator.below(9) {
            0 => supplement.clock[generator.below(16)] = byte,
            1 => supplement.identity[generator.below(supplement.identity_length.clamp(1, 128))] = byte,
            2 => supplement.identity_length = *generator.pick(&[0, 5, 59, 61, 128, 129, usize::MAX]),
            3 => supplement.request[generator.below(supplement.request_length.clamp(1, 700))] = byte,
            4 => supplement.request_length = *generator.pick(&[0, 701, usize::MAX]),
            5 => supplement.tag[generator.below(48)] = byte,
            6 => supplement.check[generator.below(6)] = byte,
            _ => supplement.passed = byte,
        }
    }

    /// Gives a register row another mark: mostly open or closed, else one near them or any. Whether the row is sound then
    /// is left to question 3.
    pub fn mark(&mut self, row: &mut RegisterRow) {
        let any = self.generator.byte();
        row.mark = match self.generator.below(10) {
            0..=4 => OPEN,
            5 => CLOSED,
            6..=7 => *self.generator.pick(&[2, 3, 128, 255]),
            _ => any,
        };
    }

    /// Gives a stored card an SGN of 0 to 26 bytes in its place, or of 0 to 24 beside it or anywhere. Whether the card
    /// is sound then is left to question 3.
    pub fn name_group(&mut self, row: &mut RegisterRow) {
        let generator = &mut self.generator;
        let text = cards::written(&row.card).to_vec();
        let mut entries: Vec<&[u8]> = text.split_inclusive(|&byte| byte == b';').collect();
        // In one card of four it is there a second time, if it was there before.
        if generator.chance(75) {
            entries.retain(|entry| !entry.starts_with(b"SGN"));
        }
        let own = entries.iter().position(|entry| entry.starts_with(b"ULM"));
        let place = match (own, generator.below(10)) {
            (Some(own), 0..=4) => own,
            (Some(own), 5..=6) => own.saturating_sub(1),
            (Some(own), 7..=8) => own + 1,
            _ => generator.below(entries.len() + 1),
        };
        let long = Some(place) == own && generator.chance(50);
        let length = if long { generator.between(25, 26) } else { generator.between(0, 24) };
        let name = [b"SGN", &generator.value(length)[..], b";"].concat();
        entries.insert(place, &name);
        let mut text = entries.concat();
        text.resize(cards::SPACE, 0);
        row.card.copy_from_slice(&text);
    }

    /// The next request of a history: mostly good, else torn, forged or repeated.
    pub fn request(&mut self, tables: &Tables, supplement: &Supplement) -> Vec<u8> {
        let good = self.good(tables, supplement);
        let generator = &mut self.generator;
        let request = match generator.below(100) {
            // Torn.
            0..=2 => good[..generator.below(good.len())].to_vec(),
            3..=4 => [&good[..generator.below(good.len())], b"\r"].concat(),
            // One byte changed: as it is, with the frame made right, with all made right.
            5..=12 => {
                let position = generator.below(good.len());
                let change = generator.below(512);
                let fix = generator.below(3);
                edits::edit(&good, &edits::records_in(&good), position, change, fix)
            }
            // Sent once more.
            13..=18 if !self.sent.is_empty() => generator.pick(&self.sent).clone(),
            // Another header over the same payload.
            19 => {
                let headers =
                    [&b"SM?DI"[..], b"SM?KK", b"sm?kc", b"SM!KC", b"GL?EC", Command::ALL[generator.below(10)].header()];
                requests::frame(headers[generator.below(6)], &good[5..good.len() - 5])
            }
            // A field more, or a field less.
            20 => requests::frame(
                &good[..5],
                &[&good[5..good.len() - 5], *generator.pick(&[&b"P~"[..], b"N1~", b"H~", b"N1", b"~"])].concat(),
            ),
            21 => requests::frame(&good[..5], b""),
            // Anything.
            22 => (0..generator.below(60)).map(|_| generator.byte()).collect(),
            _ => good,
        };
        if self.sent.len() < 24 {
            self.sent.push(request.clone());
        }
        request
    }

    /// A request right in its frame, and mostly one that the tables would accept.
    fn good(&mut self, tables: &Tables, supplement: &Supplement) -> Vec<u8> {
        let command = match self.generator.below(100) {
            0..=17 => Command::KC,
            18..=37 => Command::KR,
            38..=64 => Command::KL,
            65..=71 => Command::KF,
            72..=75 => Command::KX,
            76..=80 => Command::KD,
            81..=82 => Command::RS,
            83..=87 => Command::GA,
            88..=92 => Command::GL,
            _ => Command::KQ,
        };
        match command {
            Command::RS | Command::GL => requests::bare(command),
            Command::KC => self.begin(supplement),
            Command::KR => self.respond(tables, supplement),
            Command::KL => {
                let slot = self.slot(tables, &[LOADING]);
                let forged = self.generator.chance(8);
                let card = self.card(forged);
                let (nonce, encrypted) = (self.digits(24), self.digits(48));
                requests::load(&slot, &nonce, &card, &encrypted)
            }
            Command::KF => {
                let slot = self.slot(tables, &[PENDING, LOADING]);
                requests::of_slot(command, &slot)
            }
            Command::KX | Command::KQ => {
                let slot = self.slot(tables, &[PENDING, LOADING, IDLE]);
                requests::of_slot(command, &slot)
            }
            Command::KD | Command::GA => {
                let filled: Vec<usize> =
                    (0..tables.register_count).filter(|&place| !tables.registers[place].is_free()).collect();
                let register = if !filled.is_empty() && self.generator.chance(70) {
                    *self.generator.pick(&filled) as u64 + 1
                } else {
                    *self.generator.pick(&[0, 1, 2, 3, 4, 5, 6, 32, 33, 256, 257, 2_147_483_647, 2_147_483_648])
                };
                requests::of_register(command, register)
            }
        }
    }

    fn begin(&mut self, supplement: &Supplement) -> Vec<u8> {
        let forged = if self.generator.chance(12) { self.generator.below(8) } else { usize::MAX };
        let name = *self.generator.pick(&self.names[..self.centres]);
        let fingerprint = *self.generator.pick(&FINGERPRINTS);
        let kmc = match forged {
            0 => requests::identity(b"KMCID.1", b"Soft ware", name, b"20130301T173830Z", fingerprint),
            1 => requests::identity(
                b"KMCID.1",
                b"SW",
                &[name, &b"-4567890123456789012345678901234567890123"[..]].concat(),
                b"20130301T173830Z",
                fingerprint,
            ),
            2 => requests::identity(b"SMID.1", b"SW", name, b"20130301T173830Z", fingerprint),
            3 => requests::identity(b"KMCID.1", b"SW", name, b"20130229T173830Z", fingerprint),
            4 => requests::identity(b"KMCID.1", b"SW", name, b"20130301T173830Z", b"8e22231BC992010A"),
            _ => requests::identity(b"KMCID.1", b"SW", name, b"20130301T173830Z", fingerprint),
        };
        let expiry = match self.generator.below(20) {
            0 => supplement.clock,
            1 => self.generator.timestamp(),
            2 => *b"20130303T240000Z",
            _ => *b"99991231T115959Z",
        };
        let key = self.digits(194);
        let rest: [&[u8]; 2] = match forged {
            5 => [b"x", b""],
            6 => [b"", b"0"],
            _ => [b"", b""],
        };
        requests::begin(&kmc, if forged == 7 { b"" } else { &key }, &expiry, rest)
    }

    fn respond(&mut self, tables: &Tables, supplement: &Supplement) -> Vec<u8> {
        let name = self.slot(tables, &[PENDING]);
        let row = tables.slots().iter().find(|slot| slot.state == PENDING && slot.name() == name);
        let (mut fingerprint, mut tvp) =
            row.map_or((*FINGERPRINTS[0], *b"20130303T153839Z"), |row| (row.fingerprint, row.tvp));
        let mut module = own_identity();
        let mut tag = supplement.tag;
        // Forged in one part or more.
        if self.generator.chance(12) {
            for _ in 0..self.generator.between(1, 2) {
                match self.generator.below(6) {
                    0 => {
                        module = requests::identity(
                            b"SMID.1",
                            b"Prism",
                            b"12345679",
                            b"20130303T153830Z",
                            b"E7C42215AF1FE951",
                        )
                    }
                    1 => fingerprint = *b"0000000000000000",
                    2 => tvp = self.generator.timestamp(),
                    3 => tag = *TAGS[self.generator.below(2)],
                    4 => tag[self.generator.below(48)] = b'0',
                    _ => {
                        module =
                            requests::identity(b"SMID.1", b"Prism", b"1 2", b"20130303T153830Z", b"E7C42215AF1FE951")
                    }
                }
            }
        }
        let kmc = requests::identity(b"KMCID.1", b"SW", &name, b"20130301T173830Z", &fingerprint);
        requests::respond(&kmc, &module, &tvp, &tag)
    }

    /// A slot in one of the states, if there is one; else any centre or a stranger.
    fn slot(&mut self, tables: &Tables, states: &[u8]) -> Vec<u8> {
        let names = tables.names_in(states);
        if !names.is_empty() && self.generator.chance(90) {
            return self.generator.pick(&names).clone();
        }
        let strangers: [&[u8]; 6] = [
            b"",
            b"kmc1",
            b"KM",
            b"KMC1 ",
            b"k-234567890_234567890.234567890,234567890",
            b"k-234567890_234567890.234567890,234567",
        ];
        if self.generator.chance(80) {
            self.generator.pick(&self.names[..self.centres]).to_vec()
        } else {
            self.generator.pick(&strangers).to_vec()
        }
    }

    /// Mostly few hexadecimal digits, sometimes up to `most`.
    fn digits(&mut self, most: usize) -> Vec<u8> {
        let length =
            if self.generator.chance(80) { self.generator.between(1, 6) } else { self.generator.between(1, most) };
        self.generator.hex(length)
    }

    /// A card; a forged one has one fault.
    pub fn card(&mut self, forged: bool) -> Vec<u8> {
        let mut entries: Vec<(String, String)> = Vec::new();
        let mut put = |name: &str, value: String| entries.push((name.to_string(), value));
        let generator = &mut self.generator;
        let time = |generator: &mut Generator| String::from_utf8_lossy(&generator.timestamp()).into_owned();
        let digits = |generator: &mut Generator, length| String::from_utf8_lossy(&generator.hex(length)).into_owned();
        put("ACT", time(generator));
        put("BDT", time(generator));
        put("DKG", generator.pick(&["02", "04"]).to_string());
        put("KEN", generator.pick(&["0", "9", "10", "99", "100", "255"]).to_string());
        put("KRN", generator.between(1, self.revisions).to_string());
        put("KTC", generator.below(4).to_string());
        put(
            "SGC",
            match generator.below(self.groups) {
                place if place < 3 => GROUPS[place].to_string(),
                place => format!("{place:010}"),
            },
        );
        if generator.chance(30) {
            put("CLM", digits(generator, 8));
        }
        if generator.chance(30) {
            put("IUT", time(generator));
        }
        if generator.chance(30) {
            put("SBM", digits(generator, 4));
        }
        if generator.chance(30) {
            put("ULM", generator.pick(&["0", "1", "398674", "999999999"]).to_string());
        }
        for own in ["CLU", "KCV", "KSL", "VND"] {
            if generator.chance(12) {
                put(own, generator.pick(&["0", "KMC", "1 }{", "000000"]).to_string());
            }
        }
        // Of each length that it may have.
        if generator.chance(50) {
            let length = generator.between(0, 24);
            put("SGN", String::from_utf8_lossy(&generator.value(length)).into_owned());
        }
        for unknown in ["AAA", "EXP", "SGO", "ZZZ"] {
            if generator.chance(12) {
                put(unknown, generator.pick(&["", "0", "SURELOAD KMC TEST"]).to_string());
            }
        }
        entries.sort();
        if forged {
            return self.forged(entries);
        }
        text(&entries)
    }

    fn forged(&mut self, mut entries: Vec<(String, String)>) -> Vec<u8> {
        const BAD: [(&str, &str); 30] = [
            ("KRN", "0"),
            ("KRN", "10"),
            ("KRN", "01"),
            ("KRN", "A"),
            ("KEN", "256"),
            ("KEN", "007"),
            ("KEN", "1000"),
            ("KTC", "4"),
            ("KTC", "03"),
            ("DKG", "03"),
            ("DKG", "2"),
            ("DKG", "004"),
            ("SGC", "123456789"),
            ("SGC", "12345678901"),
            ("SGC", "00000000A0"),
            ("ACT", "20130229T000000Z"),
            ("BDT", "18991231T235959Z"),
            ("CLM", "44fa0000"),
            ("CLM", "FFFFFFF"),
            ("SBM", "FFF"),
            ("SBM", "FFFFF"),
            ("ULM", "1000000000"),
            ("ULM", "00"),
            ("IUT", "20380119T031407"),
            ("IUT", "x"),
            ("CLU", ""),
            ("KCV", ""),
            ("KSL", ""),
            ("VND", ""),
            ("ULM", ""),
        ];
        let generator = &mut self.generator;
        let place = generator.below(entries.len());
        match generator.below(9) {
            0 => {
                entries.remove(place);
            }
            1 => entries.insert(place, entries[place].clone()),
            2 => {
                let other = generator.below(entries.len());
                entries.swap(place, other);
            }
            3 => entries[place].0.make_ascii_lowercase(),
            4 => entries[place].1.clear(),
            5 => {
                let mut text = text(&entries);
                text.pop();
                return text;
            }
            6 => {
                let length = generator.between(25, 26);
                let name = String::from_utf8_lossy(&generator.value(length)).into_owned();
                entries.retain(|(other, _)| other != "SGN");
                entries.push(("SGN".to_string(), name));
                entries.sort();
            }
            _ => {
                let (name, value) = *generator.pick(&BAD);
                entries.retain(|(other, _)| other != name);
                entries.push((name.to_string(), value.to_string()));
                entries.sort();
            }
        }
        text(&entries)
    }
}

fn text(entries: &[(String, String)]) -> Vec<u8> {
    entries.iter().flat_map(|(name, value)| format!("{name}{value};").into_bytes()).collect()
}

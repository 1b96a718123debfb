//! The supply group name (document 02, N2): SGN of every length and every byte, in every place, in cards that come and
//! in cards as stored. What comes is kept, absent where it was absent and empty where it was empty.

use super::parts::{card_of, full_tables, long_name, put_slot, CARD_FAULTS};
use super::places::judge;
use super::scenes::{self, load, CARD, STORED};
use super::tables::Tables;
use super::{requests, Bench};
use crate::rows::{LOADING, MOST_REGISTERS, MOST_SLOTS, OPEN};
use crate::{Command, RegisterRow};

/// The most bytes that SGN may have.
const LONGEST: usize = 24;
/// The name of 003 Appendix A, which has as many, and two bytes more.
const NAME: &str = "SURELOAD KMC TEST VUDK 1{}";
/// Lengths that it may not have; up to 99 bytes are the name of 001 Annex F.
const TOO_LONG: [usize; 12] = [25, 26, 27, 32, 40, 48, 56, 64, 72, 80, 88, 99];

/// Cards without SGN, and with one of 0 to 24 bytes.
const KINDS: usize = 26;

pub fn group_names(bench: &mut Bench) -> Result<(), String> {
    lengths(bench)?;
    bytes(bench)?;
    semicolons(bench)?;
    places(bench)?;
    other_questions(bench)?;
    reloads(bench)?;
    stored_lengths(bench)?;
    stored_bytes(bench)?;
    stored_places(bench)?;
    stored_faults(bench)?;
    full_rows(bench)?;
    longest(bench)
}

/// The entry of each kind of card.
fn entry(kind: usize) -> String {
    kind.checked_sub(1).map_or_else(String::new, |length| format!("SGN{};", &NAME[..length]))
}

/// A card that comes, with this text after SGC.
fn coming(text: &str) -> Vec<u8> {
    [CARD, text.as_bytes()].concat()
}

/// What is stored for it under a slot: the entry of SGN, and the value of ULM.
fn due(slot: &str, entry: &str, limit: &str) -> String {
    format!(
        "ACT20130716T151031Z;BDT20130716T151031Z;CLMFFFFFFFF;CLU0;DKG04;IUT20380119T031407Z;KCV92E101;KEN255;KRN6;\
         KSL{slot};KTC2;SBMFFFF;SGC0000758825;{entry}ULM{limit};VND0;"
    )
}

/// A card as stored, with this text between SGC and ULM.
fn stored(text: &str) -> String {
    STORED.replace("ULM", &format!("{text}ULM"))
}

/// The scenes' tables with this card in register 1.
fn holding(card: &[u8]) -> Tables {
    let mut tables = scenes::tables();
    tables.put_card(0, card);
    tables
}

fn ask(bench: &mut Bench, outcome: u8, tables: &mut Tables, request: &[u8]) -> Result<(), String> {
    bench.expect(outcome, tables, &scenes::supplement(), request, 1024)
}

fn refused(bench: &mut Bench, text: &str) -> Result<(), String> {
    ask(bench, 10, &mut scenes::tables(), &load(&coming(text)))
}

/// An accepted load: what stands in the register, and what SM?KL and SM?GA tell, is the card that is due.
fn keeps(bench: &mut Bench, tables: &mut Tables, request: &[u8], register: usize, due: &str) -> Result<(), String> {
    ask(bench, 0, tables, request)?;
    told(bench, b"SM!KL", &format!("00N{register}~P{due}~"))?;
    let mut row = RegisterRow { mark: OPEN, ..RegisterRow::FREE };
    row.card[..due.len()].copy_from_slice(due.as_bytes());
    if tables.registers[register - 1] != row {
        return Err(format!("{due} does not stand in register {register}"));
    }
    shows(bench, tables, register, due)
}

/// SM?GA gives this card.
fn shows(bench: &mut Bench, tables: &mut Tables, register: usize, card: &str) -> Result<(), String> {
    ask(bench, 0, tables, &requests::of_register(Command::GA, register as u64))?;
    told(bench, b"SM!GA", &format!("00P{card}~"))
}

fn told(bench: &Bench, header: &[u8], payload: &str) -> Result<(), String> {
    if bench.answer() != requests::frame(header, payload.as_bytes()) {
        let answer = String::from_utf8_lossy(bench.answer());
        return Err(format!("both engines answer {answer} where {payload} is due"));
    }
    Ok(())
}

/// Absent, and of each length, with what may stand beside it.
fn lengths(bench: &mut Bench) -> Result<(), String> {
    for (before, after, limit) in [
        ("", "", "999999999"),
        ("", "ULM0;", "0"),
        ("SGM;", "SGO;ULM1000;VND7;ZZZ;", "1000"),
        ("", "ZZZ;", "999999999"),
    ] {
        for kind in 0..KINDS {
            let request = load(&coming(&format!("{before}{}{after}", entry(kind))));
            keeps(bench, &mut scenes::tables(), &request, 3, &due("KMC1", &entry(kind), limit))?;
        }
        for length in TOO_LONG {
            refused(bench, &format!("{before}SGN{};{after}", "x".repeat(length)))?;
        }
    }
    // As long as a request has room for.
    for length in [127, 128, 255, 256, 257, 279, 280, 281, 511, 512, 800] {
        refused(bench, &format!("SGN{};", "x".repeat(length)))?;
    }
    Ok(())
}

/// Each byte at the ends and inside: what no string and no record lets through is met before the card.
fn bytes(bench: &mut Bench) -> Result<(), String> {
    for byte in 0..=255 {
        for (length, place) in [(1, 0), (2, 0), (2, 1), (LONGEST, 0), (LONGEST, 12), (LONGEST, LONGEST - 1)] {
            let mut name = vec![b'x'; length];
            name[place] = byte;
            let request = load(&[CARD, b"SGN", &name, b";ULM7;"].concat());
            let outcome = match byte {
                b'\r' => 5,
                0..=0x1F | 0x7E..=0xFF => 8,
                b'|' => 9,
                // The entry ends there, and what follows is no entry.
                b';' => 10,
                _ => 0,
            };
            if outcome > 0 {
                ask(bench, outcome, &mut scenes::tables(), &request)?;
            } else {
                let entry = format!("SGN{};", String::from_utf8_lossy(&name));
                keeps(bench, &mut scenes::tables(), &request, 3, &due("KMC1", &entry, "7"))?;
            }
        }
    }
    Ok(())
}

/// A semicolon ends the entry, and what follows is judged as the next one.
fn semicolons(bench: &mut Bench) -> Result<(), String> {
    for (text, entry, limit) in [
        ("SGNTHE;TOWN;", "SGNTHE;", "999999999"),
        ("SGN;TOWN;", "SGN;", "999999999"),
        ("SGN;TOW;ULM5;", "SGN;", "5"),
        ("SGNULM5;ULM6;", "SGNULM5;", "6"),
        ("SGNSGN;", "SGNSGN;", "999999999"),
        ("SGNSURELOAD KMC TEST VUDK 1;TEST VUDK 2;", "SGNSURELOAD KMC TEST VUDK 1;", "999999999"),
    ] {
        // TEST VUDK 2 has the name TES and comes after SGN; so have TOWN and TOW the name TOW.
        keeps(bench, &mut scenes::tables(), &load(&coming(text)), 3, &due("KMC1", entry, limit))?;
    }
    for text in ["SGNthe;town;", "SGNA;B;", "SGNA;ABC;", "SGN;;", "SGNA;;", "SGN;ULM;", "SGN", "SGNA", "SGNA;TO"] {
        refused(bench, text)?;
    }
    Ok(())
}

/// SGN before each entry of a card that comes, and after the last: just one place is its own. Twice, it has none.
fn places(bench: &mut Bench) -> Result<(), String> {
    let card =
        "AAA;ACT20130716T151031Z;BDT20130716T151031Z;CLMFFFFFFFF;CLU7;DKG04;EXP;IUT20380119T031407Z;KCVx;KEN255;\
                KRN6;KSLy;KTC2;SBMFFFF;SGC0000758825;ULM1000;VND7;ZZZ;";
    let entries: Vec<&str> = card.split_inclusive(';').collect();
    for name in ["SGN;", "SGNMy group;"] {
        for place in 0..=entries.len() {
            let mut all = entries.clone();
            all.insert(place, name);
            let request = load(all.concat().as_bytes());
            if place > 0 && all[place - 1].starts_with("SGC") {
                keeps(bench, &mut scenes::tables(), &request, 3, &due("KMC1", name, "1000"))?;
                for second in ["SGN;", "SGNMy group;", "SGNZ;"] {
                    for place in 0..=all.len() {
                        let mut twice = all.clone();
                        twice.insert(place, second);
                        ask(bench, 10, &mut scenes::tables(), &load(twice.concat().as_bytes()))?;
                    }
                }
            } else {
                ask(bench, 10, &mut scenes::tables(), &request)?;
            }
        }
    }
    // Three capitals; names near it are unknown ones, of any length, and dropped.
    for text in ["SGn;", "sgn;", "Sgnx;", "SG;", "SG;N;", "SGO;SGN;", "SGNx;SGM;"] {
        refused(bench, text)?;
    }
    for name in ["SGD", "SGM", "SGO", "SHN", "TGN"] {
        for length in [0, 1, LONGEST, 25] {
            let request = load(&coming(&format!("{name}{};", "x".repeat(length))));
            keeps(bench, &mut scenes::tables(), &request, 3, &due("KMC1", "", "999999999"))?;
        }
    }
    Ok(())
}

/// The questions after 10, where SGN is right and where it is too long; and 9, which comes before.
fn other_questions(bench: &mut Bench) -> Result<(), String> {
    let supplement = scenes::supplement();
    let mut not_passed = supplement;
    not_passed.passed = 0;
    let full = full_tables(MOST_SLOTS, MOST_REGISTERS, LOADING);
    for (length, long) in [(0, false), (LONGEST, false), (25, true), (26, true)] {
        let card = coming(&format!("SGN{};", &NAME[..length]));
        let due = |outcome: u8| if long { 10 } else { outcome };
        let under = |slot: &[u8]| requests::load(slot, b"00", &card, b"00");
        for slot in [&b"KMC9"[..], b""] {
            ask(bench, due(12), &mut scenes::tables(), &under(slot))?;
        }
        for slot in [b"KMC2", b"KMC3"] {
            ask(bench, due(14), &mut scenes::tables(), &under(slot))?;
        }
        bench.expect(due(19), &mut scenes::tables(), &not_passed, &under(b"KMC1"), 1024)?;
        bench.expect(due(19), &mut full.clone(), &not_passed, &under(b"KMC1"), 1024)?;
        ask(bench, due(20), &mut full.clone(), &under(b"KMC1"))?;
        ask(bench, 10, &mut scenes::tables(), &requests::load(b"KMC1", b"", &card, b"00"))?;
        ask(bench, 10, &mut scenes::tables(), &requests::load(b"KMC1", b"00", &card, b""))?;
        // The record's checksum with its last digit changed.
        let mut request = under(b"KMC1");
        let end = request.len() - 5;
        request[end - 2] ^= 1;
        ask(bench, 9, &mut scenes::tables(), &requests::frame(&request[..5], &request[5..end]))?;
    }
    Ok(())
}

/// A reload, here of another slot, has the SGN of the card that comes, whatever the card had that it overwrites; a
/// refused one leaves that.
fn reloads(bench: &mut Bench) -> Result<(), String> {
    let mut tables = Tables::empty(2, 2);
    put_slot(&mut tables, 0, LOADING, b"A");
    put_slot(&mut tables, 1, LOADING, b"B");
    let under = |slot: &[u8], text: &str| requests::load(slot, b"00", &coming(text), b"00");
    for first in 0..KINDS {
        for second in 0..KINDS {
            keeps(bench, &mut tables, &under(b"A", &entry(first)), 1, &due("A", &entry(first), "999999999"))?;
            keeps(bench, &mut tables, &under(b"B", &entry(second)), 1, &due("B", &entry(second), "999999999"))?;
        }
        ask(bench, 10, &mut tables, &under(b"A", &format!("SGN{};", &NAME[..25])))?;
        shows(bench, &mut tables, 1, &due("B", &entry(KINDS - 1), "999999999"))?;
    }
    Ok(())
}

/// Both kinds of card are as stored; one of 25 bytes or more is not, even where it leaves no zero after it.
fn stored_lengths(bench: &mut Bench) -> Result<(), String> {
    for kind in 0..KINDS {
        let card = stored(&entry(kind));
        let mut tables = holding(card.as_bytes());
        judge(bench, true, &tables)?;
        shows(bench, &mut tables, 1, &card)?;
    }
    let room = 256 - stored("SGN;").len();
    for length in TOO_LONG.into_iter().filter(|length| *length <= room).chain([room - 1, room]) {
        judge(bench, false, &holding(stored(&format!("SGN{};", "x".repeat(length))).as_bytes()))?;
    }
    Ok(())
}

/// Each byte at each place of an SGN of 24 bytes, and as an SGN of its own.
fn stored_bytes(bench: &mut Bench) -> Result<(), String> {
    for byte in 0..=255 {
        let right = (0x20..=0x7D).contains(&byte) && byte != b';' && byte != b'|';
        for (length, place) in (0..LONGEST).map(|place| (LONGEST, place)).chain([(1, 0)]) {
            let card = stored(&format!("SGN{};", "x".repeat(length)));
            let start = card.len() - "ULM999999999;VND0;".len() - length - 1;
            let mut tables = holding(card.as_bytes());
            tables.registers[0].card[start + place] = byte;
            ask(bench, if right { 0 } else { 3 }, &mut tables, &requests::bare(Command::RS))?;
        }
    }
    Ok(())
}

/// SGN before each entry of a stored card, after the last, in place of each, and twice: just one place is its own.
fn stored_places(bench: &mut Bench) -> Result<(), String> {
    let entries: Vec<&str> = STORED.split_inclusive(';').collect();
    for name in ["SGN;", "SGNMy group;"] {
        let sixteen = stored(name);
        for place in 0..=entries.len() {
            let mut all = entries.clone();
            all.insert(place, name);
            let own = all.get(place + 1).is_some_and(|next| next.starts_with("ULM"));
            judge(bench, own, &holding(all.concat().as_bytes()))?;
            let mut twice: Vec<&str> = sixteen.split_inclusive(';').collect();
            twice.insert(place, name);
            judge(bench, false, &holding(twice.concat().as_bytes()))?;
        }
        for place in 0..entries.len() {
            let mut instead = entries.clone();
            instead[place] = name;
            judge(bench, false, &holding(instead.concat().as_bytes()))?;
        }
    }
    // Another name there; no semicolon; one more.
    for text in ["SGMx;", "SGO;", "sgn;", "SGNx", "SGN;;", "SGNx;SGO;"] {
        judge(bench, false, &holding(stored(text).as_bytes()))?;
    }
    Ok(())
}

/// Each other fault of a stored card beside an SGN that is right, and a byte after the end.
fn stored_faults(bench: &mut Bench) -> Result<(), String> {
    for name in ["SGN;".to_string(), format!("SGN{};", &NAME[..LONGEST])] {
        for (from, to) in CARD_FAULTS {
            judge(bench, false, &holding(stored(&name).replace(from, to).as_bytes()))?;
        }
        let end = stored(&name).len();
        for place in [end, end + 1, 254, 255] {
            let mut tables = holding(stored(&name).as_bytes());
            tables.registers[0].card[place] = 1;
            judge(bench, false, &tables)?;
        }
    }
    Ok(())
}

/// Full tables with cards of every kind beside each other: each card is told, then reloaded with the next kind.
fn full_rows(bench: &mut Bench) -> Result<(), String> {
    for shift in 0..KINDS {
        let mut tables = full_tables(MOST_SLOTS, MOST_REGISTERS, LOADING);
        let slot = |place: usize| format!("KMC{}", place % MOST_SLOTS + 1);
        let card = |place: usize, kind: usize| {
            let with_name = format!("{}ULM", entry((place * 7 + kind) % KINDS));
            card_of(place, slot(place).as_bytes()).replace("ULM", &with_name)
        };
        for place in 0..MOST_REGISTERS {
            tables.put_card(place, card(place, shift).as_bytes());
        }
        for place in 0..MOST_REGISTERS {
            shows(bench, &mut tables, place + 1, &card(place, shift))?;
            let next = card(place, shift + 1);
            let request = requests::load(slot(place).as_bytes(), b"00", next.as_bytes(), b"00");
            keeps(bench, &mut tables, &request, place + 1, &next.replace("KCV6C3DE4", "KCV92E101"))?;
        }
        judge(bench, true, &tables)?;
        for place in 0..MOST_SLOTS {
            ask(bench, 0, &mut tables, &requests::of_slot(Command::KQ, slot(place).as_bytes()))?;
            ask(bench, 0, &mut tables, &requests::of_register(Command::KD, place as u64 + 1))?;
            ask(bench, 0, &mut tables, &requests::of_slot(Command::KX, slot(place).as_bytes()))?;
        }
    }
    Ok(())
}

/// The longest cards: 222 bytes where the engine has stored them, 230 with a VND of nine digits; full tables of these.
fn longest(bench: &mut Bench) -> Result<(), String> {
    let (name, entry) = (long_name(0), entry(KINDS - 1));
    let slot = String::from_utf8_lossy(&name).into_owned();
    let mut tables = Tables::empty(MOST_SLOTS, MOST_REGISTERS);
    put_slot(&mut tables, MOST_SLOTS - 1, LOADING, &name);
    let card = |place: usize| {
        let card = card_of(place, &name).replace("VND0", "VND999999999");
        card.replace("ULM", &format!("{entry}ULM"))
    };
    for place in 0..MOST_REGISTERS - 1 {
        tables.put_card(place, card(place).as_bytes());
    }
    let loaded = due(&slot, &entry, "999999999");
    assert_eq!((loaded.len(), card(0).len()), (222, 230));
    let request = requests::load(&name, b"00", &coming(&entry), b"00");
    keeps(bench, &mut tables, &request, MOST_REGISTERS, &loaded)?;
    tables.put_card(MOST_REGISTERS - 1, card(MOST_REGISTERS - 1).as_bytes());
    for place in 0..MOST_REGISTERS {
        shows(bench, &mut tables, place + 1, &card(place))?;
    }
    ask(bench, 0, &mut tables, &requests::of_slot(Command::KQ, &name))?;
    ask(bench, 20, &mut tables, &request)?;
    judge(bench, true, &tables)?;
    ask(bench, 0, &mut tables, &requests::of_slot(Command::KF, &name))?;
    bench.expect_usable(&tables, &|register| (1..=MOST_REGISTERS).contains(&register))
}

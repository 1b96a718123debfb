//! Every optional value of a card given or not, and kept, with SGN and without; every value of each form at its edges.

use super::scenes::{self, begin, kmc, load, CARD, CLOCK, STORED, TAG};
use super::world::own_identity;
use super::{requests, Bench};
use crate::{Command, RegisterRow};

/// The optional values: name, what is stored where none is given, values to give.
const OPTIONAL: [(&str, &str, [&str; 4]); 4] = [
    ("CLM", "FFFFFFFF", ["00000000", "44FA0000", "FFFFFFFE", "FFFFFFFF"]),
    ("IUT", "20380119T031407Z", ["19000101T000000Z", "20380119T031408Z", "20000229T235959Z", "99991231T235959Z"]),
    ("SBM", "FFFF", ["0000", "0001", "FFFE", "8000"]),
    ("ULM", "999999999", ["0", "1", "999999998", "398674"]),
];

/// The engine's own names and a few that are unknown, with values that must not be stored.
const DROPPED: [(&str, &str); 8] = [
    ("AAA", ""),
    ("CLU", "7"),
    ("EXP", "20170506T215959Z"),
    ("KCV", "000000"),
    ("KSL", "KMC3"),
    ("SGO", "My group"),
    ("VND", "999999999"),
    ("ZZZ", "{ }"),
];

/// SGN, which has no default: it is stored as it comes, or not at all.
const GROUP_NAMES: [Option<&str>; 3] = [None, Some(""), Some("My group")];

pub fn card_values(bench: &mut Bench) -> Result<(), String> {
    for given in 0..16 {
        for value in 0..4 {
            for name in GROUP_NAMES {
                for dropped in [0, 1, 2, 4, 8, 16, 32, 64, 128, 255] {
                    stored(bench, given, value, name, dropped)?;
                }
            }
        }
    }
    kept(bench)?;
    numbers(bench)
}

/// The entries of a card in the sequence of their names.
fn card(mut entries: Vec<(&str, String)>) -> String {
    entries.sort();
    entries.iter().map(|(name, value)| format!("{name}{value};")).collect()
}

fn required() -> Vec<(&'static str, String)> {
    [("ACT", "20130716T151031Z"), ("BDT", "19991231T235959Z"), ("DKG", "04"), ("KEN", "255"), ("KRN", "6")]
        .into_iter()
        .chain([("KTC", "2"), ("SGC", "0000758825")])
        .map(|(name, value)| (name, value.to_string()))
        .collect()
}

/// The entries that are stored, with the optional values of the choice `given`: fifteen, and SGN where it is given.
fn due(given: usize, value: usize, name: Option<&str>) -> String {
    let mut entries = required();
    entries.extend(name.map(|name| ("SGN", name.to_string())));
    for (place, (name, default, values)) in OPTIONAL.iter().enumerate() {
        let chosen = if given >> place & 1 == 1 { values[value] } else { default };
        entries.push((name, chosen.to_string()));
    }
    for (name, own) in [("CLU", "0"), ("KCV", "92E101"), ("KSL", "KMC1"), ("VND", "0")] {
        entries.push((name, own.to_string()));
    }
    card(entries)
}

/// Loads a card with a choice of optional values, an SGN and names that are dropped: what is stored and told.
fn stored(bench: &mut Bench, given: usize, value: usize, name: Option<&str>, dropped: usize) -> Result<(), String> {
    let mut entries = required();
    entries.extend(name.map(|name| ("SGN", name.to_string())));
    for (place, (name, _, values)) in OPTIONAL.iter().enumerate() {
        if given >> place & 1 == 1 {
            entries.push((name, values[value].to_string()));
        }
    }
    for (place, (name, value)) in DROPPED.iter().enumerate() {
        if dropped >> place & 1 == 1 {
            entries.push((name, value.to_string()));
        }
    }
    let (supplement, mut tables) = (scenes::supplement(), scenes::tables());
    let incoming = card(entries);
    bench.expect(0, &mut tables, &supplement, &load(incoming.as_bytes()), 1024)?;
    let due = due(given, value, name);
    if bench.answer() != requests::frame(b"SM!KL", format!("00N3~P{due}~").as_bytes()) {
        return Err(format!("{incoming} is not stored as {due}"));
    }
    bench.expect(0, &mut tables, &supplement, &requests::of_register(Command::GA, 3), 1024)?;
    if bench.answer() != requests::frame(b"SM!GA", format!("00P{due}~").as_bytes()) {
        return Err(format!("{incoming} is not told as {due}"));
    }
    Ok(())
}

/// A card of all values stands as it was loaded, whatever is asked of its slot and of other registers.
fn kept(bench: &mut Bench) -> Result<(), String> {
    let supplement = scenes::supplement();
    let mut tables = scenes::tables();
    let optional = "CLM44FA0000;DKG02;IUT20150301T140000Z;KEN";
    let full = String::from_utf8_lossy(CARD).replace("DKG04;KEN", optional).replace("SGC", "SBM0001;SGC");
    bench.expect(0, &mut tables, &supplement, &load(format!("{full}SGNMy group;ULM1000;").as_bytes()), 1024)?;
    let card = tables.registers[2].card;
    for request in [
        requests::of_register(Command::KD, 1),
        requests::bare(Command::RS),
        begin(b"KMC1"),
        requests::respond(&kmc(b"KMC1"), &own_identity(), CLOCK, TAG),
        requests::load(b"KMC1", b"00", STORED.as_bytes(), b"00"),
        requests::of_slot(Command::KF, b"KMC1"),
        requests::of_slot(Command::KX, b"KMC3"),
        requests::of_slot(Command::KQ, b"KMC1"),
        requests::bare(Command::GL),
    ] {
        bench.expect(0, &mut tables, &supplement, &request, 1024)?;
        if tables.registers[2].card != card {
            return Err("a card changed that no request named".to_string());
        }
    }
    Ok(())
}

/// Every number from 0 past the edge, with and without a zero before it, in cards that come and in cards as stored.
fn numbers(bench: &mut Bench) -> Result<(), String> {
    let ranges = [("KEN255", 0, 255, 300), ("KRN1", 1, 9, 20), ("KTC2", 0, 3, 20)];
    for (entry, from, to, past) in ranges {
        for number in 0..=past {
            for zero in ["", "0"] {
                let right = (from..=to).contains(&number) && zero.is_empty();
                number_in_both(bench, entry, &format!("{}{zero}{number}", &entry[..3]), right)?;
            }
        }
    }
    for number in 0..=99 {
        number_in_both(bench, "DKG04", &format!("DKG{number:02}"), number == 2 || number == 4)?;
    }
    for length in 0..=12 {
        number_in_both(bench, "SGC0000123457", &format!("SGC{}", "7".repeat(length)), length == 10)?;
        number_in_both(bench, "ULM999999999", &format!("ULM{}", "9".repeat(length)), (1..=9).contains(&length))?;
        number_in_both(bench, "CLMFFFFFFFF", &format!("CLM{}", "A".repeat(length)), length == 8)?;
        number_in_both(bench, "SBMFFFF", &format!("SBM{}", "9".repeat(length)), length == 4)?;
    }
    Ok(())
}

fn number_in_both(bench: &mut Bench, from: &str, to: &str, right: bool) -> Result<(), String> {
    let supplement = scenes::supplement();
    let card = STORED.replace(from, to);
    bench.expect(if right { 0 } else { 10 }, &mut scenes::tables(), &supplement, &load(card.as_bytes()), 1024)?;
    let mut tables = scenes::tables();
    // Alone, so that no other register has its key.
    tables.registers[1] = RegisterRow::FREE;
    tables.put_card(0, card.as_bytes());
    bench.expect(if right { 0 } else { 3 }, &mut tables, &supplement, &requests::bare(Command::RS), 1024)
}

//! Every day 00 to 32 of every month 00 to 13, the leap rule and every time of day, wherever a timestamp stands.

use super::parts::full_tables;
use super::scenes::{self, kmc, load, CARD, CLOCK, FINGERPRINT, STORED, TAG};
use super::tables::Tables;
use super::world::own_identity;
use super::{requests, Bench};
use crate::rows::PENDING;
use crate::{Command, Supplement};

/// Years, and whether each is a leap year; said here once more, so that `handle` is checked as well.
const YEARS: [(u64, bool); 13] = [
    (0, false),
    (1899, false),
    (1900, false),
    (1904, true),
    (1999, false),
    (2000, true),
    (2023, false),
    (2024, true),
    (2100, false),
    (2200, false),
    (2400, true),
    (9996, true),
    (9999, false),
];
/// How many days the months 00 to 13 have.
const DAYS: [u64; 14] = [0, 31, 28, 31, 30, 31, 30, 31, 31, 30, 31, 30, 31, 0];

type Timestamp = [u8; 16];
/// What a call is made with.
type Setting = (Tables, Supplement, Vec<u8>);

/// Where a timestamp stands: the outcome where it is one, the outcome where it is none, and the call.
type Place = (u8, u8, fn(&Timestamp) -> Setting);

const PLACES: [Place; 14] = [
    (0, 4, clock),
    (0, 4, own_time),
    (0, 10, expiry),
    (0, 10, |time| of_request(requests::begin(&centre(b"KMC1", time), b"04", b"20130303T153840Z", [b"", b""]))),
    (0, 10, |time| of_request(requests::respond(&centre(b"KMC2", time), &own_identity(), CLOCK, TAG))),
    // A module of another time is another module, and another TVP is not the slot's.
    (15, 10, |time| of_request(requests::respond(&kmc(b"KMC2"), &module(time), CLOCK, TAG))),
    (17, 10, |time| of_request(requests::respond(&kmc(b"KMC2"), &own_identity(), time, TAG))),
    (0, 10, |time| of_request(load(&with_time(CARD, "ACT20130716T151031Z", "ACT@", time)))),
    (0, 10, |time| of_request(load(&with_time(CARD, "BDT20130716T151031Z", "BDT@", time)))),
    (0, 10, |time| of_request(load(&with_time(CARD, "KEN", "IUT@;KEN", time)))),
    (0, 3, slot_tvp),
    (0, 3, |time| of_card("ACT20040301T140000Z", "ACT@", time)),
    (0, 3, |time| of_card("BDT19930101T000000Z", "BDT@", time)),
    (0, 3, |time| of_card("IUT20150301T140000Z", "IUT@", time)),
];

pub fn dates(bench: &mut Bench) -> Result<(), String> {
    let times = times();
    for (right, wrong, setting) in PLACES {
        for (time, is_timestamp) in &times {
            let (mut tables, supplement, request) = setting(time);
            bench.expect(if *is_timestamp { right } else { wrong }, &mut tables, &supplement, &request, 1024)?;
        }
    }
    // The last days of February in every year.
    for year in 1890..=9999 {
        for day in 28..=30 {
            let (mut tables, supplement, request) = clock(&timestamp(year, 2, day, [12, 0, 0]));
            bench.call(&mut tables, &supplement, &request, 1024)?;
        }
    }
    Ok(())
}

/// Timestamps in form or nearly, and whether they are.
fn times() -> Vec<(Timestamp, bool)> {
    let mut times = Vec::new();
    for (year, leap) in YEARS {
        for month in 0..=13 {
            let days = DAYS[month as usize] + u64::from(leap && month == 2);
            for day in 0..=32 {
                let right = year >= 1900 && (1..=days).contains(&day);
                times.push((timestamp(year, month, day, [12, 0, 0]), right));
            }
        }
    }
    for number in 0..=99 {
        times.push((timestamp(2024, 6, 30, [number, 59, 59]), number <= 23));
        times.push((timestamp(2024, 6, 30, [23, number, 59]), number <= 59));
        times.push((timestamp(2024, 6, 30, [23, 59, number]), number <= 59));
    }
    times
}

fn timestamp(year: u64, month: u64, day: u64, [hour, minute, second]: [u64; 3]) -> Timestamp {
    let text = format!("{year:04}{month:02}{day:02}T{hour:02}{minute:02}{second:02}Z");
    text.into_bytes().try_into().expect("sixteen bytes")
}

fn of_request(request: Vec<u8>) -> Setting {
    (scenes::tables(), scenes::supplement(), request)
}

fn clock(time: &Timestamp) -> Setting {
    let supplement = Supplement { clock: *time, ..scenes::supplement() };
    (scenes::tables(), supplement, requests::bare(Command::RS))
}

fn own_time(time: &Timestamp) -> Setting {
    let supplement = requests::supplement(CLOCK, &module(time), b"VKLOAD.REQ.1|any|67DF", TAG, b"92E101");
    (scenes::tables(), supplement, requests::bare(Command::RS))
}

/// The clock stands at the first second of all, so that every expiry is later.
fn expiry(time: &Timestamp) -> Setting {
    let supplement = Supplement { clock: *b"19000101T000000Z", ..scenes::supplement() };
    (scenes::tables(), supplement, requests::begin(&kmc(b"KMC1"), b"04", time, [b"", b""]))
}

/// The TVP of the last of eight slots.
fn slot_tvp(time: &Timestamp) -> Setting {
    let mut tables = full_tables(8, 1, PENDING);
    tables.slots[7].tvp = *time;
    (tables, scenes::supplement(), requests::bare(Command::RS))
}

fn of_card(from: &str, to: &str, time: &Timestamp) -> Setting {
    let mut tables = scenes::tables();
    tables.put_card(0, &with_time(STORED.as_bytes(), from, to, time));
    (tables, scenes::supplement(), requests::bare(Command::RS))
}

fn centre(name: &[u8], time: &Timestamp) -> Vec<u8> {
    requests::identity(b"KMCID.1", b"ArbSWID", name, time, FINGERPRINT)
}

fn module(time: &Timestamp) -> Vec<u8> {
    requests::identity(b"SMID.1", b"Prism", b"12345678", time, b"E7C42215AF1FE951")
}

/// A card in which a text gives way to another, with the timestamp for @.
fn with_time(card: &[u8], from: &str, to: &str, time: &Timestamp) -> Vec<u8> {
    let to = to.replace('@', &String::from_utf8_lossy(time));
    String::from_utf8_lossy(card).replace(from, &to).into_bytes()
}

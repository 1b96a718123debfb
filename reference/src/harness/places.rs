//! Every command at every slot and register number of full tables, and question 3's faults in every row of them.

use super::parts::{card_of, full_tables, CARD_FAULTS};
use super::scenes::{self, begin, kmc, CARD, CLOCK, STORED, TAG};
use super::tables::Tables;
use super::world::own_identity;
use super::{requests, Bench};
use crate::rows::{FREE, IDLE, LOADING, PENDING};
use crate::{Command, RegisterRow, SlotRow};

const STATES: [u8; 3] = [PENDING, LOADING, IDLE];
const SLOTS: usize = 8;
const REGISTERS: usize = 32;

pub fn places(bench: &mut Bench) -> Result<(), String> {
    for place in 0..SLOTS {
        for state in STATES {
            at_slot(bench, state, place)?;
        }
        free_slot(bench, place)?;
        lone_state(bench, place)?;
        for register in 0..REGISTERS {
            loads(bench, place, register)?;
        }
    }
    for register in 0..=REGISTERS + 1 {
        at_register(bench, register)?;
    }
    for slot_count in 1..=SLOTS {
        for register_count in 1..=REGISTERS {
            last_rows(bench, slot_count, register_count)?;
        }
    }
    Ok(())
}

/// The name of a slot of full tables.
fn name(place: usize) -> Vec<u8> {
    format!("KMC{}", place + 1).into_bytes()
}

fn ask(bench: &mut Bench, outcome: u8, tables: &mut Tables, request: &[u8]) -> Result<(), String> {
    bench.expect(outcome, tables, &scenes::supplement(), request, 1024)
}

/// The commands that name a slot, where all are in one state.
fn at_slot(bench: &mut Bench, state: u8, place: usize) -> Result<(), String> {
    let tables = full_tables(SLOTS, REGISTERS, state);
    let name = name(place);
    let due = |states: &[u8]| if states.contains(&state) { 0 } else { 14 };
    for (outcome, request) in [
        (0, begin(&name)),
        (due(&[PENDING]), requests::respond(&kmc(&name), &own_identity(), CLOCK, TAG)),
        (due(&[LOADING]), held(&name, place)),
        (due(&[PENDING, LOADING]), requests::of_slot(Command::KF, &name)),
        (0, requests::of_slot(Command::KX, &name)),
        (0, requests::of_slot(Command::KQ, &name)),
    ] {
        let mut after = tables.clone();
        ask(bench, outcome, &mut after, &request)?;
        ask(bench, 0, &mut after, &requests::bare(Command::GL))?;
        bench.expect_usable(&after, &|register| after.is_closed(register))?;
    }
    Ok(())
}

/// A load of the key that a register of full tables holds.
fn held(slot: &[u8], register: usize) -> Vec<u8> {
    requests::load(slot, b"00", card_of(register, b"any").as_bytes(), b"00")
}

/// One free slot, and all free from there on: the lowest is taken.
fn free_slot(bench: &mut Bench, place: usize) -> Result<(), String> {
    for last in [place, SLOTS - 1] {
        let mut tables = full_tables(SLOTS, REGISTERS, IDLE);
        for free in place..=last {
            ask(bench, 0, &mut tables, &requests::of_slot(Command::KX, &name(free)))?;
        }
        ask(bench, 0, &mut tables, &begin(b"NEW"))?;
        if tables.slots[place].name() != b"NEW" {
            return Err(format!("slot {} was free, but another was taken", place + 1));
        }
        ask(bench, 0, &mut tables, &requests::of_slot(Command::KQ, b"NEW"))?;
    }
    Ok(())
}

/// One slot in a state, the others in another, with half of their keys open where they may be: GL?RS, and which keys
/// may vend.
fn lone_state(bench: &mut Bench, place: usize) -> Result<(), String> {
    for others in STATES {
        for state in STATES {
            let (mut tables, own) = (full_tables(SLOTS, REGISTERS, others), full_tables(SLOTS, REGISTERS, state));
            tables.slots[place] = own.slots[place];
            for register in (place..REGISTERS).step_by(SLOTS) {
                tables.registers[register] = own.registers[register];
            }
            bench.expect_usable(&tables, &|register| {
                let here = register.wrapping_sub(1) % SLOTS == place;
                let second = register.wrapping_sub(1) / SLOTS % 2 == 1;
                (1..=REGISTERS).contains(&register) && (second || IDLE == if here { state } else { others })
            })?;
            ask(bench, 0, &mut tables, &requests::bare(Command::RS))?;
            bench.expect_usable(&tables, &|register| (1..=REGISTERS).contains(&register))?;
        }
    }
    Ok(())
}

/// SM?KL of a held key, into the one free register, and into the lowest of those that are free from there on.
fn loads(bench: &mut Bench, place: usize, register: usize) -> Result<(), String> {
    let name = name(place);
    let full = full_tables(SLOTS, REGISTERS, LOADING);
    ask(bench, 0, &mut full.clone(), &held(&name, register))?;
    for last in [register, REGISTERS - 1] {
        let mut tables = full.clone();
        tables.registers[register..=last].fill(RegisterRow::FREE);
        ask(bench, 0, &mut tables, &requests::load(&name, b"00", CARD, b"00"))?;
        if tables.registers[register].is_free() {
            return Err(format!("register {} was free, but another was taken", register + 1));
        }
    }
    Ok(())
}

/// SM?GA and SM?KD of a register number, twice each; a number further on has no register.
fn at_register(bench: &mut Bench, register: usize) -> Result<(), String> {
    let mut tables = full_tables(SLOTS, REGISTERS, IDLE);
    let filled = (1..=REGISTERS).contains(&register);
    let due = if filled { 0 } else { 21 };
    let asked = |command| requests::of_register(command, register as u64);
    for (outcome, command) in [(due, Command::GA), (due, Command::KD), (21, Command::GA), (21, Command::KD)] {
        ask(bench, outcome, &mut tables, &asked(command))?;
    }
    bench.expect_usable(&tables, &|other| (1..=REGISTERS).contains(&other) && other != register)?;
    for further in [64, 128, 256, 65_536, 1 << 24, 1 << 30] {
        for command in [Command::GA, Command::KD] {
            ask(bench, 21, &mut tables, &requests::of_register(command, (register + further) as u64))?;
        }
    }
    // The only key of the tables.
    let mut tables = Tables::empty(SLOTS, REGISTERS);
    tables.slots = full_tables(SLOTS, 1, LOADING).slots;
    if filled {
        tables.put_card(register - 1, card_of(0, b"KMC8").as_bytes());
    }
    ask(bench, 0, &mut tables.clone(), &requests::of_slot(Command::KQ, b"KMC8"))?;
    ask(bench, 0, &mut tables.clone(), &requests::of_slot(Command::KX, b"KMC8"))?;
    ask(bench, 0, &mut tables.clone(), &held(b"KMC7", 0))?;
    ask(bench, due, &mut tables, &asked(Command::KD))
}

/// The commands at the last slot and the last register, for every count of rows.
fn last_rows(bench: &mut Bench, slot_count: usize, register_count: usize) -> Result<(), String> {
    let full = full_tables(slot_count, register_count, LOADING);
    let name = name(slot_count - 1);
    let mut pending = full_tables(slot_count, register_count, PENDING);
    ask(bench, 0, &mut pending, &requests::respond(&kmc(&name), &own_identity(), CLOCK, TAG))?;
    for (outcome, request) in [
        (0, begin(&name)),
        (13, begin(b"NEW")),
        (0, held(&name, register_count - 1)),
        (20, requests::load(&name, b"00", CARD, b"00")),
        (0, requests::of_slot(Command::KF, &name)),
        (0, requests::of_slot(Command::KX, &name)),
        (0, requests::of_slot(Command::KQ, &name)),
        (0, requests::bare(Command::GL)),
        (0, requests::of_register(Command::GA, register_count as u64)),
        (0, requests::of_register(Command::KD, register_count as u64)),
        (21, requests::of_register(Command::GA, register_count as u64 + 1)),
        (21, requests::of_register(Command::KD, register_count as u64 + 1)),
    ] {
        ask(bench, outcome, &mut full.clone(), &request)?;
    }
    Ok(())
}

/// Question 3 over every row of full tables.
pub fn unsound_places(bench: &mut Bench) -> Result<(), String> {
    for place in 0..SLOTS {
        for state in STATES {
            spoiled_slot(bench, state, place)?;
        }
        same_name(bench, place)?;
    }
    for place in 0..REGISTERS {
        spoiled_card(bench, place)?;
        same_key(bench, place)?;
    }
    Ok(())
}

/// Rows that must be sound or not: a request that does not look at them, and every key.
pub(super) fn judge(bench: &mut Bench, sound: bool, tables: &Tables) -> Result<(), String> {
    let mut after = tables.clone();
    ask(bench, if sound { 0 } else { 3 }, &mut after, &requests::bare(Command::RS))?;
    bench.expect_usable(&after, &|register| {
        sound && (1..=REGISTERS).contains(&register) && !after.registers[register - 1].is_free()
    })
}

/// Each kind of fault of a slot.
fn spoiled_slot(bench: &mut Bench, state: u8, place: usize) -> Result<(), String> {
    let faults: [fn(&mut SlotRow); 14] = [
        |row| row.state = FREE,
        |row| row.state = 4,
        |row| row.state = 255,
        |row| row.kmcid = [0; 40],
        |row| row.kmcid[0] = b'_',
        |row| row.kmcid[39] = b'x',
        |row| row.kmcid[4] = b' ',
        |row| row.fingerprint = [0; 16],
        |row| row.fingerprint[0] = b'a',
        |row| row.fingerprint[15] = b'G',
        |row| row.tvp = if row.state == PENDING { [0; 16] } else { *CLOCK },
        |row| row.tvp[15] ^= 1,
        |row| row.tvp[0] ^= 0x80,
        |row| *row = SlotRow::FREE,
    ];
    let full = full_tables(SLOTS, REGISTERS, state);
    judge(bench, true, &full)?;
    for fault in faults {
        let mut tables = full.clone();
        fault(&mut tables.slots[place]);
        judge(bench, false, &tables)?;
    }
    // Free and without keys, which is sound, then with a byte that is not zero.
    let mut free = full;
    ask(bench, 0, &mut free, &requests::of_slot(Command::KX, &name(place)))?;
    judge(bench, true, &free)?;
    let not_zero: [fn(&mut SlotRow); 3] =
        [|row| row.kmcid[39] = 1, |row| row.fingerprint[15] = 1, |row| row.tvp[15] = 1];
    for fault in not_zero {
        let mut tables = free.clone();
        fault(&mut tables.slots[place]);
        judge(bench, false, &tables)?;
    }
    Ok(())
}

/// A slot and each later one with one name.
fn same_name(bench: &mut Bench, place: usize) -> Result<(), String> {
    for other in place + 1..SLOTS {
        let mut tables = full_tables(SLOTS, REGISTERS, IDLE);
        tables.slots[other].kmcid = tables.slots[place].kmcid;
        for register in (other..REGISTERS).step_by(SLOTS) {
            tables.put_card(register, card_of(register, &name(place)).as_bytes());
        }
        judge(bench, false, &tables)?;
    }
    Ok(())
}

/// Each kind of fault of a card, and of a free register.
fn spoiled_card(bench: &mut Bench, place: usize) -> Result<(), String> {
    let full = full_tables(SLOTS, REGISTERS, LOADING);
    for (from, to) in CARD_FAULTS {
        let mut tables = full.clone();
        tables.put_card(place, STORED.replace(from, to).as_bytes());
        judge(bench, false, &tables)?;
    }
    for byte in [0, 1, 128, STORED.len(), STORED.len() + 1, 255] {
        let mut tables = full.clone();
        tables.registers[place].card[byte] = 1;
        judge(bench, false, &tables)?;
        tables.registers[place] = RegisterRow::FREE;
        judge(bench, true, &tables)?;
        tables.registers[place].card[byte] = 1;
        judge(bench, false, &tables)?;
    }
    Ok(())
}

/// A register and each later one with one key: of one slot and of two. With another revision it is another key.
fn same_key(bench: &mut Bench, place: usize) -> Result<(), String> {
    for other in place + 1..REGISTERS {
        for slot in [name(place % SLOTS), name(other % SLOTS)] {
            let mut tables = full_tables(SLOTS, REGISTERS, IDLE);
            let card = card_of(place, &slot);
            tables.put_card(other, card.as_bytes());
            judge(bench, false, &tables)?;
            tables.put_card(other, card.replace("KRN1", "KRN2").as_bytes());
            judge(bench, true, &tables)?;
        }
    }
    Ok(())
}

/// Each byte of each row of full tables with a few values; question 3 decides.
pub fn each_byte(bench: &mut Bench) -> Result<(), String> {
    let full = full_tables(SLOTS, REGISTERS, IDLE);
    let supplement = scenes::supplement();
    let request = requests::bare(Command::RS);
    for value in [0, b'1', b';', 0xFF] {
        for byte in 0..SLOTS * 40 {
            let mut tables = full.clone();
            tables.slots[byte / 40].kmcid[byte % 40] = value;
            bench.call(&mut tables, &supplement, &request, 1024)?;
        }
        for byte in 0..SLOTS * 16 {
            for part in 0..2 {
                let mut tables = full.clone();
                let row = &mut tables.slots[byte / 16];
                (if part == 0 { &mut row.fingerprint } else { &mut row.tvp })[byte % 16] = value;
                bench.call(&mut tables, &supplement, &request, 1024)?;
            }
        }
        for byte in 0..REGISTERS * 257 {
            let mut tables = full.clone();
            let row = &mut tables.registers[byte / 257];
            *row.card.get_mut(byte % 257).unwrap_or(&mut row.mark) = value;
            bench.call(&mut tables, &supplement, &request, 1024)?;
        }
    }
    Ok(())
}

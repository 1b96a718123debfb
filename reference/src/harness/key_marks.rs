//! The marks of keys (document 02, N3): SM?KL leaves its key open, SM?KF of its slot and GL?RS close it, and nothing else
//! changes a mark but by freeing its row. Just the closed keys may vend, whatever the states of their slots.

use super::history::{List, Sentences};
use super::parts::{card_of, put_slot};
use super::places::judge;
use super::scenes::{self, begin, good, kmc, CARD, CLOCK, STORED, TAG};
use super::tables::Tables;
use super::world::own_identity;
use super::{requests, Bench};
use crate::demand3::Word;
use crate::rows::{CLOSED, IDLE, LOADING, MOST_REGISTERS, MOST_SLOTS, OPEN, PENDING};
use crate::{Command, RegisterRow};

const STATES: [u8; 3] = [PENDING, LOADING, IDLE];

/// Which registers, counted from 0, have an open key.
type Choice<'a> = &'a dyn Fn(usize) -> bool;

/// All keys of full tables, none, every second one of each slot from the first or from the second on, all of every second
/// slot, a few.
const CHOICES: [fn(usize) -> bool; 6] = [
    |_| true,
    |_| false,
    |place| (place / MOST_SLOTS).is_multiple_of(2),
    |place| place / MOST_SLOTS % 2 == 1,
    |place| place % 2 == 0,
    |place| place * 5 % 7 < 2,
];

pub fn key_marks(bench: &mut Bench) -> Result<(), String> {
    every_mark(bench)?;
    every_list(bench)?;
    slot_commands(bench)?;
    register_commands(bench)?;
    refusals(bench)?;
    refreshes(bench)?;
    two_centres(bench)?;
    resets(bench)?;
    every_place(bench)
}

fn ask(bench: &mut Bench, outcome: u8, tables: &mut Tables, request: &[u8]) -> Result<(), String> {
    bench.expect(outcome, tables, &scenes::supplement(), request, 1024)
}

fn name(place: usize) -> Vec<u8> {
    format!("KMC{}", place + 1).into_bytes()
}

/// Full tables with these states; the registers are under each slot in turn.
fn full(states: impl Fn(usize) -> u8, open: Choice) -> Tables {
    let mut tables = Tables::empty(MOST_SLOTS, MOST_REGISTERS);
    for place in 0..MOST_SLOTS {
        put_slot(&mut tables, place, states(place), &name(place));
    }
    for place in 0..MOST_REGISTERS {
        tables.put_card(place, card_of(place, &name(place % MOST_SLOTS)).as_bytes());
        tables.registers[place].mark = u8::from(open(place));
    }
    tables
}

fn respond(slot: &[u8]) -> Vec<u8> {
    requests::respond(&kmc(slot), &own_identity(), CLOCK, TAG)
}

/// A load of the key that a register of full tables holds.
fn load(slot: &[u8], register: usize) -> Vec<u8> {
    requests::load(slot, b"00", card_of(register, b"any").as_bytes(), b"00")
}

/// What is due of each register: nothing where it is free, else whether its key is open. Just the closed keys may vend.
fn has_marks(bench: &mut Bench, tables: &Tables, due: &dyn Fn(usize) -> Option<bool>) -> Result<(), String> {
    for (place, row) in tables.registers().iter().enumerate() {
        let right = match due(place) {
            None => row.is_zero(),
            Some(open) => !row.is_free() && row.mark == if open { OPEN } else { CLOSED },
        };
        if !right {
            return Err(format!("register {} has the mark {}, and {:?} is due", place + 1, row.mark, due(place)));
        }
    }
    let count = tables.register_count;
    bench.expect_usable(tables, &|register| (1..=count).contains(&register) && due(register - 1) == Some(false))
}

/// Every number as a mark, of a key under each state and beside a card of zeros.
fn every_mark(bench: &mut Bench) -> Result<(), String> {
    for mark in 0..=255 {
        for (slot, may_be_open) in [("KMC1", true), ("KMC2", true), ("KMC3", false)] {
            let mut tables = scenes::tables();
            tables.put_card(0, STORED.replace("KSLKMC1", &format!("KSL{slot}")).as_bytes());
            tables.registers[0].mark = mark;
            is_judged(bench, mark == CLOSED || mark == OPEN && may_be_open, &tables, mark)?;
        }
        let mut tables = scenes::tables();
        tables.registers[2].mark = mark;
        is_judged(bench, mark == CLOSED, &tables, mark)?;
    }
    Ok(())
}

/// Rows that must be sound or not: which keys may vend as they are and after a reset, and, for a few marks, whether each
/// command is let past question 3.
fn is_judged(bench: &mut Bench, sound: bool, tables: &Tables, mark: u8) -> Result<(), String> {
    bench.expect_usable(tables, &|register| sound && tables.is_closed(register))?;
    judge(bench, sound, tables)?;
    if ![0, 1, 2, 3, 128, 255].contains(&mark) {
        return Ok(());
    }
    for request in Command::ALL.into_iter().flat_map(good) {
        ask(bench, if sound { 0 } else { 3 }, &mut tables.clone(), &request)?;
    }
    if !sound {
        let mut bad = scenes::supplement();
        bad.passed = 2;
        bench.expect(3, &mut tables.clone(), &bad, b"", 1024)?;
        bench.expect(2, &mut tables.clone(), &bad, b"", 1023)?;
    }
    Ok(())
}

/// Marks in every register of full tables: of keys under each state, of keys whose slot alone has it, and where the row
/// is free.
fn every_place(bench: &mut Bench) -> Result<(), String> {
    for place in 0..MOST_REGISTERS {
        for mark in [0, 1, 2, 255] {
            let sound = |state| mark == CLOSED || mark == OPEN && state != IDLE;
            for state in STATES {
                for others in [LOADING, IDLE] {
                    let here = |slot| if slot == place % MOST_SLOTS { state } else { others };
                    let open = |register: usize| register != place && here(register % MOST_SLOTS) != IDLE;
                    let mut tables = full(here, &open);
                    tables.registers[place].mark = mark;
                    judge(bench, sound(state), &tables)?;
                }
            }
            let mut tables = full(|_| LOADING, &|_| false);
            tables.registers[place] = RegisterRow { mark, ..RegisterRow::FREE };
            judge(bench, mark == CLOSED, &tables)?;
        }
    }
    Ok(())
}

/// The commands that name a slot, or none: over every choice of open keys, at every slot.
fn slot_commands(bench: &mut Bench) -> Result<(), String> {
    for place in 0..MOST_SLOTS {
        let slot = name(place);
        let own = |register: usize| register % MOST_SLOTS == place;
        for state in [PENDING, LOADING] {
            for open in CHOICES {
                let tables = full(|_| state, &open);
                for (outcome, request) in [
                    (0, requests::of_slot(Command::KQ, &slot)),
                    (0, requests::of_register(Command::GA, place as u64 + 1)),
                    (0, begin(&slot)),
                    (if state == PENDING { 0 } else { 14 }, respond(&slot)),
                ] {
                    let mut after = tables.clone();
                    ask(bench, outcome, &mut after, &request)?;
                    if after != tables {
                        has_marks(bench, &after, &|register| Some(open(register)))?;
                    }
                }
                let mut after = tables.clone();
                ask(bench, 0, &mut after, &requests::of_slot(Command::KF, &slot))?;
                has_marks(bench, &after, &|register| Some(open(register) && !own(register)))?;
                let mut after = tables.clone();
                ask(bench, 0, &mut after, &requests::of_slot(Command::KX, &slot))?;
                has_marks(bench, &after, &|register| (!own(register)).then(|| open(register)))?;
                let mut after = tables;
                ask(bench, 0, &mut after, &requests::bare(Command::RS))?;
                has_marks(bench, &after, &|_| Some(false))?;
            }
        }
        // An IDLE slot, the others LOADING: SM?KC closes none, SM?KF is refused, SM?KX frees its own.
        let tables = full(|slot| if slot == place { IDLE } else { LOADING }, &|register| !own(register));
        for (outcome, request) in [(0, begin(&slot)), (14, requests::of_slot(Command::KF, &slot))] {
            let mut after = tables.clone();
            ask(bench, outcome, &mut after, &request)?;
            has_marks(bench, &after, &|register| Some(!own(register)))?;
        }
        let mut after = tables;
        ask(bench, 0, &mut after, &requests::of_slot(Command::KX, &slot))?;
        has_marks(bench, &after, &|register| (!own(register)).then_some(true))?;
    }
    Ok(())
}

/// SM?KL and SM?KD at every register: just that one key is open after the load, new or held, of its own slot or of
/// another; just that row is zero after the deletion.
fn register_commands(bench: &mut Bench) -> Result<(), String> {
    for place in 0..MOST_REGISTERS {
        for (choice, open) in CHOICES.into_iter().take(3).enumerate() {
            let tables = full(|_| LOADING, &open);
            let due = |register: usize| Some(register == place || open(register));
            for slot in [place % MOST_SLOTS, (place + 1 + choice) % MOST_SLOTS] {
                let mut after = tables.clone();
                ask(bench, 0, &mut after, &load(&name(slot), place))?;
                has_marks(bench, &after, &due)?;
            }
            let mut after = tables;
            ask(bench, 0, &mut after, &requests::of_register(Command::KD, place as u64 + 1))?;
            has_marks(bench, &after, &|register| (register != place).then(|| open(register)))?;
            ask(bench, 0, &mut after, &requests::load(&name(choice), b"00", CARD, b"00"))?;
            has_marks(bench, &after, &due)?;
        }
    }
    Ok(())
}

/// What is refused leaves every mark, whichever question says no.
fn refusals(bench: &mut Bench) -> Result<(), String> {
    let supplement = scenes::supplement();
    let mut not_passed = supplement;
    not_passed.passed = 0;
    let forged = [b"B", &TAG[1..]].concat();
    let other = requests::identity(b"SMID.1", b"Prism", b"12345679", b"20130303T153830Z", b"E7C42215AF1FE951");
    let finish = requests::of_slot(Command::KF, b"KMC1");
    for open in CHOICES {
        let mut loading = full(|_| LOADING, &open);
        let mut pending = full(|_| PENDING, &open);
        for (outcome, request) in [
            (5, finish[..finish.len() - 1].to_vec()),
            (6, [&finish[..finish.len() - 5], b"....\r"].concat()),
            (7, requests::frame(b"SM?KG", b"PKMC1~")),
            (8, requests::frame(Command::KF.header(), b"N1~")),
            (8, requests::frame(Command::RS.header(), b"PKMC1~")),
            (9, requests::frame(Command::KL.header(), b"PKMC1~PKEY.1~")),
            (10, requests::load(b"KMC1", b"", CARD, b"00")),
            (11, requests::begin(&kmc(b"KMC1"), b"04", CLOCK, [b"", b""])),
            (12, requests::of_slot(Command::KF, b"KMC9")),
            (12, requests::of_slot(Command::KX, b"kmc1")),
            (12, requests::load(b"KMC", b"00", CARD, b"00")),
            (13, begin(b"NEW")),
            (20, requests::load(b"KMC1", b"00", CARD, b"00")),
            (21, requests::of_register(Command::KD, 33)),
        ] {
            for tables in [&mut loading, &mut pending] {
                let wrong_state = outcome == 20 && tables.slots[0].state == PENDING;
                ask(bench, if wrong_state { 14 } else { outcome }, tables, &request)?;
            }
        }
        ask(bench, 14, &mut loading, &respond(b"KMC1"))?;
        for place in 0..MOST_REGISTERS {
            ask(bench, 14, &mut pending, &load(b"KMC1", place))?;
            bench.expect(19, &mut loading, &not_passed, &load(b"KMC1", place), 1024)?;
        }
        for tables in [&mut loading, &mut pending] {
            bench.expect(19, tables, &not_passed, &begin(b"KMC1"), 1024)?;
        }
        for (outcome, request) in [
            (15, requests::respond(&kmc(b"KMC1"), &other, CLOCK, TAG)),
            (17, requests::respond(&kmc(b"KMC1"), &own_identity(), b"20130303T153840Z", TAG)),
            (18, requests::respond(&kmc(b"KMC1"), &own_identity(), CLOCK, &forged)),
        ] {
            ask(bench, outcome, &mut pending, &request)?;
        }
        for tables in [&loading, &pending] {
            has_marks(bench, tables, &|register| Some(open(register)))?;
        }
    }
    Ok(())
}

/// An operator's refresh: the keys of an IDLE slot vend until each is loaded again, and all of them after SM?KF.
fn refreshes(bench: &mut Bench) -> Result<(), String> {
    for keys in [1, 2, 7, 32] {
        let mut tables = Tables::empty(2, keys);
        put_slot(&mut tables, 1, IDLE, b"KMC2");
        for place in 0..keys {
            tables.put_card(place, card_of(place, b"KMC2").as_bytes());
        }
        for shift in 0..keys {
            let mut open = vec![false; keys];
            for request in [begin(b"KMC2"), respond(b"KMC2")] {
                ask(bench, 0, &mut tables, &request)?;
                has_marks(bench, &tables, &|place| Some(open[place]))?;
            }
            // A few loads, from another register on each time; then, at times, a second request before SM?KF, with its
            // response or without.
            for place in (0..keys.min(4)).map(|turn| (shift + turn * 3) % keys) {
                ask(bench, 0, &mut tables, &load(b"KMC2", place))?;
                open[place] = true;
                has_marks(bench, &tables, &|place| Some(open[place]))?;
            }
            if shift % 2 == 1 {
                for request in [begin(b"KMC2"), respond(b"KMC2")].iter().take(shift % 3) {
                    ask(bench, 0, &mut tables, request)?;
                    has_marks(bench, &tables, &|place| Some(open[place]))?;
                }
            }
            ask(bench, 0, &mut tables, &requests::of_slot(Command::KF, b"KMC2"))?;
            has_marks(bench, &tables, &|_| Some(false))?;
        }
    }
    Ok(())
}

/// Two centres whose sessions cross: a key goes with its KSL, so the session that closes it is that of its last load.
fn two_centres(bench: &mut Bench) -> Result<(), String> {
    for first in 0..MOST_SLOTS {
        for second in [1, 3, 7].map(|step| (first + step) % MOST_SLOTS) {
            let [a, b] = [name(first), name(second)];
            let mut tables = full(|_| LOADING, &|_| false);
            // Both load the key of the first's lowest register, the second after the first.
            for slot in [&a, &b] {
                ask(bench, 0, &mut tables, &load(slot, first))?;
                has_marks(bench, &tables, &|register| Some(register == first))?;
            }
            for (request, open) in [
                (requests::of_slot(Command::KF, &a), true),
                (begin(&a), true),
                (respond(&a), true),
                (begin(&b), true),
                (respond(&b), true),
                (requests::of_slot(Command::KF, &b), false),
                (begin(&b), false),
            ] {
                ask(bench, 0, &mut tables, &request)?;
                has_marks(bench, &tables, &|register| Some(open && register == first))?;
            }
            // Loaded by the first again it is the first's; the second's deletion leaves it, the first's frees it.
            ask(bench, 0, &mut tables, &load(&a, first))?;
            ask(bench, 0, &mut tables, &requests::of_slot(Command::KX, &b))?;
            let of = |register: usize, slot: usize| register % MOST_SLOTS == slot;
            has_marks(bench, &tables, &|register| (!of(register, second)).then_some(register == first))?;
            ask(bench, 0, &mut tables, &requests::of_slot(Command::KX, &a))?;
            has_marks(bench, &tables, &|register| (!of(register, first) && !of(register, second)).then_some(false))?;
        }
    }
    Ok(())
}

/// GL?RS over every choice of the states of four slots, with all keys open that may be; then each may vend.
fn resets(bench: &mut Bench) -> Result<(), String> {
    for number in 0..STATES.len().pow(4) {
        let state = |slot: usize| STATES[number / STATES.len().pow(slot as u32 % 4) % STATES.len()];
        let open = |register: usize| state(register % MOST_SLOTS) != IDLE;
        let mut tables = full(state, &open);
        has_marks(bench, &tables, &|register| Some(open(register)))?;
        ask(bench, 0, &mut tables, &requests::bare(Command::RS))?;
        has_marks(bench, &tables, &|_| Some(false))?;
    }
    Ok(())
}

/// The sentences over every short list of accepted requests: of one centre with two keys, from the beginning and from its
/// first refresh on, and of two centres from the middle of their sessions on. A refused request is tried after each of
/// them, and not gone on from.
fn every_list(bench: &mut Bench) -> Result<(), String> {
    let of = |command, slot: &[u8]| requests::of_slot(command, slot);
    let one = |slot: &[u8]| [begin(slot), respond(slot), load(slot, 0), of(Command::KF, slot), of(Command::KX, slot)];
    let rest = [requests::of_register(Command::KD, 1), requests::bare(Command::RS)];
    let alone = [&one(b"A")[..], &[load(b"A", 1)], &rest].concat();
    for (start, steps) in [(0, 5), (4, 5)] {
        let list = begun(bench, Tables::empty(1, 2), &one(b"A")[..start])?;
        go_on(bench, &list, &alone, steps)?;
    }
    let both = [&one(b"A")[..], &one(b"B"), &rest].concat();
    let sessions = [&one(b"A")[..2], &one(b"B")[..2]].concat();
    for loads in [&[][..], &[load(b"A", 0)], &[load(b"A", 0), load(b"B", 0)]] {
        let list = begun(bench, Tables::empty(2, 1), &[&sessions, loads].concat())?;
        go_on(bench, &list, &both, 4)?;
    }
    Ok(())
}

/// The list of these requests.
fn begun(bench: &mut Bench, tables: Tables, requests: &[Vec<u8>]) -> Result<List, String> {
    let mut list = List::new(tables, Sentences::All);
    for request in requests {
        list.call(bench, &scenes::supplement(), request, 1024)?;
    }
    Ok(list)
}

fn go_on(bench: &mut Bench, list: &List, requests: &[Vec<u8>], steps: usize) -> Result<(), String> {
    for request in requests {
        let mut longer = list.clone();
        longer.call(bench, &scenes::supplement(), request, 1024)?;
        if steps > 1 && longer.last() != Some(&Word::Nothing) {
            go_on(bench, &longer, requests, steps - 1)?;
        }
    }
    Ok(())
}

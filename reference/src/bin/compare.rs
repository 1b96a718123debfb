//! Compares the engine, through its wrapper in Rust, with `handle` and `usable`: `compare [calls [seed]]`, or
//! `compare fixed` with the fixed parts alone, or `compare fuzz [calls [seed]]` with the random calls alone and a seed
//! from the clock.

use reference::harness::{self, Engine};
use reference::{RegisterRow, SlotRow, Supplement};

use diminurel::{Register, Slot};

const SLOT_BEYOND: Slot = Slot { state: 0xA5, kmcid: [0xA5; 40], fingerprint: [0xA5; 16], tvp: [0xA5; 16] };
const REGISTER_BEYOND: Register = Register { card: [0xA5; 256], mark: 0xA5 };

/// As many rows as there are; those past the harness's places are of any content.
fn lent_slots(rows: &[SlotRow], count: usize) -> Vec<Slot> {
    let lent = |row: &SlotRow| Slot { state: row.state, kmcid: row.kmcid, fingerprint: row.fingerprint, tvp: row.tvp };
    (0..count).map(|place| rows.get(place).map_or(SLOT_BEYOND, lent)).collect()
}

fn lent_registers(rows: &[RegisterRow], count: usize) -> Vec<Register> {
    let lent = |row: &RegisterRow| Register { card: row.card, mark: row.mark };
    (0..count).map(|place| rows.get(place).map_or(REGISTER_BEYOND, lent)).collect()
}

fn lent_supplement(x: &Supplement) -> diminurel::Supplement {
    diminurel::Supplement {
        clock: x.clock,
        identity: x.identity,
        identity_length: x.identity_length,
        request: x.request,
        request_length: x.request_length,
        tag: x.tag,
        check: x.check,
        passed: x.passed,
    }
}

struct Linked;

impl Engine for Linked {
    fn handle(
        &mut self,
        slots: &mut [SlotRow],
        registers: &mut [RegisterRow],
        slot_count: usize,
        register_count: usize,
        supplement: &Supplement,
        request: &[u8],
        response: &mut [u8],
    ) -> (u8, u8, usize) {
        let mut lent = (lent_slots(slots, slot_count), lent_registers(registers, register_count));
        let reply = diminurel::handle(&mut lent.0, &mut lent.1, &lent_supplement(supplement), request, response);
        // Rows past the harness's places must be as they were.
        assert!(lent.0.iter().skip(slots.len()).all(|row| *row == SLOT_BEYOND));
        assert!(lent.1.iter().skip(registers.len()).all(|row| *row == REGISTER_BEYOND));
        for (own, row) in slots.iter_mut().zip(&lent.0) {
            *own = SlotRow { state: row.state, kmcid: row.kmcid, fingerprint: row.fingerprint, tvp: row.tvp };
        }
        for (own, row) in registers.iter_mut().zip(&lent.1) {
            *own = RegisterRow { card: row.card, mark: row.mark };
        }
        (reply.outcome, reply.state, reply.length)
    }

    fn usable(
        &mut self,
        slots: &[SlotRow],
        registers: &[RegisterRow],
        slot_count: usize,
        register_count: usize,
        register: usize,
    ) -> bool {
        match diminurel::usable(&lent_slots(slots, slot_count), &lent_registers(registers, register_count), register) {
            0 => false,
            1 => true,
            n => panic!("usable answers {n}"),
        }
    }
}

fn main() {
    let mut arguments = std::env::args().skip(1).peekable();
    let fixed = arguments.next_if(|word| word == "fixed").is_some();
    let fuzz = arguments.next_if(|word| word == "fuzz").is_some();
    let calls = arguments.next().map_or(200_000, |text| text.parse().expect("a number of calls"));
    let unsaid = || if fuzz { harness::clock_seed() } else { 1 };
    let seed = arguments.next().map_or_else(unsaid, |text| text.parse().expect("a seed"));
    let start = std::time::Instant::now();
    let counts = match (fixed, fuzz) {
        (true, _) => harness::fixed(&mut Linked),
        (_, true) => harness::fuzz(&mut Linked, calls, seed),
        _ => harness::run(&mut Linked, calls, seed),
    };
    print!("{counts}");
    println!("{:.1} s", start.elapsed().as_secs_f64());
}

//! Compares an engine under test with `handle` and `usable`, call by call: outcome,
//! state, length, every row and every byte of the response buffer.

pub mod card_values;
pub mod counts;
pub mod dates;
pub mod edits;
pub mod generator;
pub mod group_names;
pub mod history;
pub mod identities;
pub mod key_marks;
pub mod kinds;
pub mod lists;
pub mod parts;
pub mod places;
pub mod random_script;
pub mod requests;
pub mod scenes;
pub mod script;
pub mod tables;
pub mod world;

use crate::demand3::{self, Word};
use crate::{handle, rows, usable, RegisterRow, SlotRow, Supplement};
pub use counts::Counts;
use generator::Generator;
use script::{Call, Replay};
use std::time::{SystemTime, UNIX_EPOCH};
use tables::Tables;

/// The state value of an answer without one.
pub const NO_STATE: u8 = 255;

/// The engine under test. The slices have places for 8 and 32 rows; the true
/// counts stand beside them and may be out of range (0 to 9, 0 to 33).
pub trait Engine {
    /// Outcome, state left (255 for none), length of the response.
    #[allow(clippy::too_many_arguments)]
    fn handle(
        &mut self,
        slots: &mut [SlotRow],
        registers: &mut [RegisterRow],
        slot_count: usize,
        register_count: usize,
        supplement: &Supplement,
        request: &[u8],
        response: &mut [u8],
    ) -> (u8, u8, usize);

    /// May the key of a register, counted from 1, vend?
    fn usable(
        &mut self,
        slots: &[SlotRow],
        registers: &[RegisterRow],
        slot_count: usize,
        register_count: usize,
        register: usize,
    ) -> bool;
}

/// `handle` and `usable` as an engine under test.
pub struct Reference;

impl Engine for Reference {
    fn handle(
        &mut self,
        slots: &mut [SlotRow],
        registers: &mut [RegisterRow],
        slot_count: usize,
        register_count: usize,
        supplement: &Supplement,
        request: &[u8],
        response: &mut [u8],
    ) -> (u8, u8, usize) {
        // A count past the places is out of range.
        let (Some(slots), Some(registers)) = (slots.get_mut(..slot_count), registers.get_mut(..register_count)) else {
            return (1, NO_STATE, 0);
        };
        let answer = handle(slots, registers, supplement, request, response);
        (answer.outcome, answer.state.unwrap_or(NO_STATE), answer.length)
    }

    fn usable(
        &mut self,
        slots: &[SlotRow],
        registers: &[RegisterRow],
        slot_count: usize,
        register_count: usize,
        register: usize,
    ) -> bool {
        match (slots.get(..slot_count), registers.get(..register_count)) {
            (Some(slots), Some(registers)) => usable(slots, registers, register),
            _ => false,
        }
    }
}

/// What a run found, and a console script that replays it: empty where no call is to blame.
#[derive(Debug)]
pub struct Failure {
    pub text: String,
    pub script: Vec<u8>,
}

/// Longest buffer lent.
pub const LONGEST_BUFFER: usize = 1100;
/// Bytes after the lent buffer, which must keep their value too.
const GUARD: usize = 64;

/// Makes each call with both engines.
pub struct Bench<'a> {
    engine: &'a mut dyn Engine,
    generator: Generator,
    expected: [u8; LONGEST_BUFFER + GUARD],
    got: [u8; LONGEST_BUFFER + GUARD],
    length: usize,
    pub counts: Counts,
    /// The last call, or the calls of its history.
    replay: Replay,
    in_history: bool,
}

impl<'a> Bench<'a> {
    pub fn new(engine: &'a mut dyn Engine, seed: u64) -> Self {
        Bench {
            engine,
            generator: Generator::new(seed),
            expected: [0; LONGEST_BUFFER + GUARD],
            got: [0; LONGEST_BUFFER + GUARD],
            length: 0,
            counts: Counts::new(seed),
            replay: Replay { start: Tables::empty(0, 0), calls: Vec::new(), asked: None },
            in_history: false,
        }
    }

    /// The calls from here on are one history, which starts with these rows.
    pub fn begin_history(&mut self, tables: &Tables) {
        self.replay = Replay { start: tables.clone(), calls: Vec::new(), asked: None };
        self.in_history = true;
    }

    pub fn end_histories(&mut self) {
        self.in_history = false;
    }

    /// What went wrong in the last call, or after it.
    pub fn failure(&self, text: String) -> Failure {
        let script = self.replay.script(text.lines().next().unwrap_or_default());
        Failure { text, script }
    }

    /// Outside of a history each call, and each question of `usable`, stands for itself.
    fn remember_rows(&mut self, tables: &Tables) {
        if !self.in_history {
            self.replay.start.clone_from(tables);
            self.replay.calls.clear();
        }
    }

    fn remember_call(&mut self, tables: &Tables, supplement: &Supplement, request: &[u8], buffer: usize) {
        self.remember_rows(tables);
        self.replay.calls.push(Call { supplement: *supplement, request: request.to_vec(), buffer });
    }

    fn remember_question(&mut self, tables: &Tables, register: usize) {
        self.remember_rows(tables);
        self.replay.asked = Some(register);
    }

    /// The calls from here on are counted under this name.
    pub fn part(&mut self, name: &'static str) {
        self.counts.parts.push((name, 0));
    }

    /// The response of the last call.
    pub fn answer(&self) -> &[u8] {
        &self.expected[..self.length]
    }

    /// Makes one call, compares all, and leaves the rows after it in `tables`.
    /// The error is the call in hexadecimal.
    pub fn call(
        &mut self,
        tables: &mut Tables,
        supplement: &Supplement,
        request: &[u8],
        buffer: usize,
    ) -> Result<u8, String> {
        // In one call of four the buffer keeps the answer before.
        if !self.generator.chance(25) {
            let salt = self.generator.byte();
            for (place, byte) in self.expected.iter_mut().enumerate() {
                *byte = (place as u8).wrapping_mul(31) ^ salt;
            }
        }
        self.got = self.expected;
        let filling = self.expected;
        let before = tables.clone();
        self.remember_call(tables, supplement, request, buffer);

        let mut after = before.clone();
        let answer = handle(
            &mut after.slots[..before.slot_count],
            &mut after.registers[..before.register_count],
            supplement,
            request,
            &mut self.expected[..buffer],
        );
        let expected = (answer.outcome, answer.state.unwrap_or(NO_STATE), answer.length);

        let got = self.engine.handle(
            &mut tables.slots[..rows::MOST_SLOTS],
            &mut tables.registers[..rows::MOST_REGISTERS],
            before.slot_count,
            before.register_count,
            supplement,
            request,
            &mut self.got[..buffer],
        );

        let mut wrong = Vec::new();
        if expected != got {
            wrong.push(format!("outcome, state, length: expected {expected:?}, got {got:?}"));
        }
        if after.slots != tables.slots {
            wrong.push("slot rows".to_string());
        }
        if after.registers != tables.registers {
            wrong.push("register rows".to_string());
        }
        if self.expected != self.got {
            wrong.push("response buffer".to_string());
        }
        if !wrong.is_empty() {
            let mut text = format!(
                "difference in call {} of seed {}: {}\n",
                self.counts.calls() + 1,
                self.counts.seed,
                wrong.join("; ")
            );
            text += &describe(&before, supplement, request, buffer, &filling);
            text += &format!("expected buffer {}\ngot buffer      {}\n", hex(&self.expected), hex(&self.got));
            text += &format!("expected rows\n{}got rows\n{}", show_rows(&after), show_rows(tables));
            return Err(text);
        }

        self.length = answer.length;
        // No refusal changes a row, and SM?GA, SM?GL and SM?KQ only read them.
        let word = demand3::word(request, self.answer());
        if (answer.outcome > 0 || word == Word::Read) && *tables != before {
            return Err(format!(
                "both engines changed rows where none may change\n{}",
                describe(&before, supplement, request, buffer, &filling)
            ));
        }
        self.counts.count(&before, supplement, request, buffer, answer.outcome, &word);
        Ok(answer.outcome)
    }

    /// A call whose outcome the paper fixes in words, so that `handle` is checked as well.
    pub fn expect(
        &mut self,
        outcome: u8,
        tables: &mut Tables,
        supplement: &Supplement,
        request: &[u8],
        buffer: usize,
    ) -> Result<(), String> {
        let before = tables.clone();
        let came = self.call(tables, supplement, request, buffer)?;
        if came != outcome {
            return Err(format!(
                "both engines answered {came} where {outcome} is due\n{}",
                describe(&before, supplement, request, buffer, &[])
            ));
        }
        Ok(())
    }

    /// Asks whether a register is usable, and compares.
    pub fn usable(&mut self, tables: &Tables, register: usize) -> Result<bool, String> {
        let expected = usable(tables.slots(), tables.registers(), register);
        let got = self.engine.usable(
            &tables.slots[..rows::MOST_SLOTS],
            &tables.registers[..rows::MOST_REGISTERS],
            tables.slot_count,
            tables.register_count,
            register,
        );
        if expected != got {
            self.remember_question(tables, register);
            return Err(format!(
                "difference after call {} of seed {}: usable {register}: expected {expected}, got {got}\n\
                 slot count {}, register count {}, rows\n{}",
                self.counts.calls(),
                self.counts.seed,
                tables.slot_count,
                tables.register_count,
                show_rows(tables)
            ));
        }
        self.counts.count_usable(tables, register, got);
        Ok(got)
    }

    /// `usable` of a random register, and of the edges.
    pub fn some_usable(&mut self, tables: &Tables) -> Result<(), String> {
        let count = tables.register_count;
        for register in [0, 1, self.generator.between(1, count.max(1)), count, count + 1] {
            self.usable(tables, register)?;
        }
        if self.generator.chance(10) {
            self.usable(tables, usize::MAX)?;
        }
        Ok(())
    }

    /// `usable` of every register where the paper fixes in words which are, so that `usable` is checked as well.
    pub fn expect_usable(&mut self, tables: &Tables, due: &dyn Fn(usize) -> bool) -> Result<(), String> {
        let count = tables.register_count;
        // The last two would be 1 and 2 if they were cut to fewer bits.
        let beyond = [count + 1, 256, 257, 65_537, usize::MAX, usize::MAX / 2 + 2, usize::MAX / 2 + 3];
        for register in (0..=count).chain(beyond) {
            let came = self.usable(tables, register)?;
            if came != due(register) {
                self.remember_question(tables, register);
                return Err(format!("both engines say {came} to usable {register}\n{}", show_rows(tables)));
            }
        }
        Ok(())
    }
}

fn describe(before: &Tables, supplement: &Supplement, request: &[u8], buffer: usize, filling: &[u8]) -> String {
    format!(
        "slot count {}, register count {}, buffer {buffer}\nrequest {}\n        {}\nclock {}\nidentity {} {}\nload request {} {}\ntag {}\ncheck {}\npassed {}\nbuffer before {}\nrows before\n{}",
        before.slot_count,
        before.register_count,
        hex(request),
        String::from_utf8_lossy(request).escape_debug(),
        hex(&supplement.clock),
        supplement.identity_length,
        hex(&supplement.identity),
        supplement.request_length,
        hex(&supplement.request),
        hex(&supplement.tag),
        hex(&supplement.check),
        supplement.passed,
        hex(filling),
        show_rows(before)
    )
}

fn show_rows(tables: &Tables) -> String {
    let mut text = String::new();
    for (place, row) in tables.slots.iter().enumerate().filter(|(_, row)| !row.is_free()) {
        let bytes = [&[row.state], &row.kmcid[..], &row.fingerprint, &row.tvp].concat();
        text += &format!("  slot {} {}\n", place + 1, hex(&bytes));
    }
    for (place, row) in tables.registers.iter().enumerate().filter(|(_, row)| !row.is_zero()) {
        text += &format!("  register {} {} {}\n", place + 1, row.mark, hex(&row.card));
    }
    text
}

pub fn hex(bytes: &[u8]) -> String {
    bytes.iter().map(|byte| format!("{byte:02X}")).collect()
}

/// The whole run: the fixed parts, every single-byte edit (a sample of 8 times
/// `calls` when there are more), then `calls` random ones. The error is what it found.
pub fn try_run(engine: &mut dyn Engine, calls: u64, seed: u64) -> Result<Counts, Failure> {
    let mut bench = Bench::new(engine, seed);
    fixed_parts(&mut bench)
        .and_then(|()| all_edits(&mut bench, calls.saturating_mul(8)))
        .and_then(|()| random_parts(&mut bench, calls))
        .map_err(|text| bench.failure(text))?;
    bench.counts.complete()
}

/// The fixed parts alone, in which all that has to come up does without a random call.
pub fn try_fixed(engine: &mut dyn Engine) -> Result<Counts, Failure> {
    let mut bench = Bench::new(engine, 1);
    fixed_parts(&mut bench).map_err(|text| bench.failure(text))?;
    bench.counts.complete()
}

/// The random calls alone, for longer runs.
pub fn try_fuzz(engine: &mut dyn Engine, calls: u64, seed: u64) -> Result<Counts, Failure> {
    let mut bench = Bench::new(engine, seed);
    random_parts(&mut bench, calls).map_err(|text| bench.failure(text))?;
    Ok(bench.counts)
}

/// The shorter parts come first, so that most faults are found at once.
fn fixed_parts(bench: &mut Bench) -> Result<(), String> {
    type Part = fn(&mut Bench) -> Result<(), String>;
    let parts: [(&'static str, Part); 16] = [
        ("named cases", parts::named_cases),
        ("first questions", parts::first_questions),
        ("lists", lists::lists),
        ("group names", group_names::group_names),
        ("identities", identities::identities),
        ("card values", card_values::card_values),
        ("supplements", parts::supplements),
        ("rows", parts::rows),
        ("buffers", parts::buffers),
        ("places", places::places),
        ("dates", dates::dates),
        ("reading", parts::reading),
        ("row counts", parts::row_counts),
        ("marks", key_marks::key_marks),
        ("unsound places", places::unsound_places),
        ("bytes of rows", places::each_byte),
    ];
    for (name, part) in parts {
        bench.part(name);
        part(bench)?;
    }
    Ok(())
}

fn all_edits(bench: &mut Bench, most: u64) -> Result<(), String> {
    bench.part("edits");
    edits::all(bench, most, bench.counts.seed)
}

fn random_parts(bench: &mut Bench, calls: u64) -> Result<(), String> {
    let seed = bench.counts.seed;
    bench.part("mixed faults");
    parts::mixed(bench, calls / 4, seed)?;
    bench.part("histories");
    history::compare(bench, calls - calls / 4, seed)
}

/// As `try_run`; prints the seed first, and on a difference prints the call and a script that replays it, and stops.
pub fn run(engine: &mut dyn Engine, calls: u64, seed: u64) -> Counts {
    println!("seed {seed}");
    stop_on_failure(try_run(engine, calls, seed), seed)
}

/// As `run`, with `try_fixed`.
pub fn fixed(engine: &mut dyn Engine) -> Counts {
    stop_on_failure(try_fixed(engine), 1)
}

/// As `run`, with `try_fuzz`.
pub fn fuzz(engine: &mut dyn Engine, calls: u64, seed: u64) -> Counts {
    println!("seed {seed}");
    stop_on_failure(try_fuzz(engine, calls, seed), seed)
}

/// Another one each time.
pub fn clock_seed() -> u64 {
    SystemTime::now().duration_since(UNIX_EPOCH).map_or(1, |time| time.as_nanos() as u64)
}

fn stop_on_failure(result: Result<Counts, Failure>, seed: u64) -> Counts {
    let failure = match result {
        Ok(counts) => return counts,
        Err(failure) => failure,
    };
    eprintln!("{}", failure.text);
    if !failure.script.is_empty() {
        // Beside the program, among what is built.
        let program = std::env::current_exe().unwrap_or_default();
        let file = program.with_file_name(format!("difference-{seed}.txt"));
        eprint!("console script that replays it:\n{}", String::from_utf8_lossy(&failure.script));
        match std::fs::write(&file, &failure.script) {
            Ok(()) => eprintln!("the script is in {}", file.display()),
            Err(error) => eprintln!("the script cannot be written to {}: {error}", file.display()),
        }
    }
    panic!("the engines differ");
}

//! What came up in a run, and what did not.

use super::kinds::{self, BAD_PARTS, UNSOUND};
use super::tables::Tables;
use super::{requests, Failure, LONGEST_BUFFER};
use crate::demand3::Word;
use crate::rows::{self, IDLE, LOADING, MOST_REGISTERS, MOST_SLOTS, OPEN, PENDING};
use crate::{cards, Command, Supplement};
use std::fmt;

/// The refusals that the questions have for a command; 1 to 6 and 8 are for all, and 7 for none.
const REFUSALS: [&[usize]; 10] = [
    &[],
    &[9, 10, 11, 13, 19],
    &[9, 10, 12, 14, 15, 16, 17, 18],
    &[9, 10, 12, 14, 19, 20],
    &[12, 14],
    &[12],
    &[21],
    &[21],
    &[],
    &[12],
];

/// Cards without SGN, and with one of 0 to 24 bytes.
const GROUP_NAMES: usize = 26;

/// Keys that an accepted command meets: of the slot that it names, or any where it names none; of the register that it
/// deletes or loads into.
const MET: [&str; 4] = ["a closed key", "an open key", "a closed key of another slot", "an open key of another slot"];

/// How many of these there are for a command that changes rows; those that only read have none.
const MEETS: [usize; 10] = [2, 4, 4, 4, 4, 4, 2, 0, 0, 0];

/// Keys by the state of their slot.
const OWNERS: [(u8, &str); 3] = [(PENDING, "PENDING"), (LOADING, "LOADING"), (IDLE, "IDLE")];

/// How often each thing that matters came up.
#[derive(Clone, Debug)]
pub struct Counts {
    pub seed: u64,
    /// By outcome: 0 accepted, 1 to 21 refused.
    pub outcomes: [u64; 22],
    /// The same for each command, in the sequence of `Command::ALL`.
    pub commands: [[u64; 22]; 10],
    /// Accepted SM?GL by how many slots are listed: where the rows have the list's sequence already, and where not.
    pub lists: [[u64; 2]; MOST_SLOTS + 1],
    /// Accepted SM?GL in which a slot's name is the beginning of the next one's.
    pub extensions: u64,
    /// Accepted SM?KL by SGN of the card that came, and accepted SM?GA by SGN of the card that is told.
    pub loaded_names: [u64; GROUP_NAMES],
    pub told_names: [u64; GROUP_NAMES],
    /// Accepted SM?KL of a key that is held: whether the old card has SGN, and whether the new one has.
    pub reloads: [[u64; 2]; 2],
    /// SM?KL refused with 10 for nothing but an SGN of 25 bytes, of 26 and of more.
    pub long_names: [u64; 3],
    /// Accepted commands by the keys that they met, each counted once a call.
    pub met: [[u64; MET.len()]; 10],
    /// Answers of `usable`: no, yes.
    pub usable: [u64; 2],
    /// The same of keys that stand in sound rows, by the state of their slot.
    pub vending: [[u64; 2]; OWNERS.len()],
    /// Calls by slot count and register count.
    pub row_counts: [[u64; MOST_REGISTERS + 2]; MOST_SLOTS + 2],
    /// Calls by length of the buffer.
    pub buffers: [u64; LONGEST_BUFFER + 1],
    /// Refusals 3 with one fault, by its kind and by its row, slots first.
    pub unsound: [u64; UNSOUND.len()],
    pub unsound_rows: [u64; MOST_SLOTS + MOST_REGISTERS],
    /// Refusals 4 with one fault.
    pub bad_parts: [u64; BAD_PARTS.len()],
    /// Calls of each part of the run.
    pub parts: Vec<(&'static str, u64)>,
    /// Histories from empty tables on which demand 3 and the sentences on marks were checked after every call.
    pub histories: u64,
    /// Single-byte edits made, and how many there are.
    pub edits: (u64, u64),
}

impl Counts {
    pub fn new(seed: u64) -> Self {
        Counts {
            seed,
            outcomes: [0; 22],
            commands: [[0; 22]; 10],
            lists: [[0; 2]; MOST_SLOTS + 1],
            extensions: 0,
            loaded_names: [0; GROUP_NAMES],
            told_names: [0; GROUP_NAMES],
            reloads: [[0; 2]; 2],
            long_names: [0; 3],
            met: [[0; MET.len()]; 10],
            usable: [0; 2],
            vending: [[0; 2]; OWNERS.len()],
            row_counts: [[0; MOST_REGISTERS + 2]; MOST_SLOTS + 2],
            buffers: [0; LONGEST_BUFFER + 1],
            unsound: [0; UNSOUND.len()],
            unsound_rows: [0; MOST_SLOTS + MOST_REGISTERS],
            bad_parts: [0; BAD_PARTS.len()],
            parts: Vec::new(),
            histories: 0,
            edits: (0, 0),
        }
    }

    pub fn calls(&self) -> u64 {
        self.outcomes.iter().sum()
    }

    /// Counts a call by what it was made with, by its outcome and by what it and its answer mean to the sentences.
    pub fn count(
        &mut self,
        tables: &Tables,
        supplement: &Supplement,
        request: &[u8],
        buffer: usize,
        outcome: u8,
        word: &Word,
    ) {
        self.outcomes[usize::from(outcome)] += 1;
        if let Some((_, calls)) = self.parts.last_mut() {
            *calls += 1;
        }
        if let Some(place) = Command::ALL.iter().position(|command| request.starts_with(command.header())) {
            self.commands[place][usize::from(outcome)] += 1;
            match (Command::ALL[place], outcome) {
                (Command::GL, 0) => self.count_list(tables),
                (Command::KL, 0) => self.count_load(tables, request),
                (Command::KL, 10) => self.count_long_name(request),
                (Command::GA, 0) => self.count_told(tables, request),
                _ => {}
            }
            self.count_met(tables, place, word);
        }
        self.row_counts[tables.slot_count][tables.register_count] += 1;
        self.buffers[buffer] += 1;
        match outcome {
            3 => self.count_unsound(tables),
            4 => self.count_bad_part(supplement),
            _ => {}
        }
    }

    fn count_list(&mut self, tables: &Tables) {
        let mut names = tables.names_in(&[PENDING, LOADING, IDLE]);
        self.lists[names.len()][usize::from(!names.is_sorted())] += 1;
        names.sort();
        self.extensions += u64::from(names.windows(2).any(|pair| pair[1].starts_with(&pair[0])));
    }

    fn count_load(&mut self, tables: &Tables, request: &[u8]) {
        let Some(card) = requests::card_in(request).and_then(cards::incoming) else { return };
        self.loaded_names[kind(card.group_name())] += 1;
        let held = rows::register_holding(tables.registers(), card.pair());
        if let Some(old) = held.and_then(|register| cards::stored(&tables.registers[register].card)) {
            let [old, new] = [old, card].map(|card| usize::from(card.group_name().is_some()));
            self.reloads[old][new] += 1;
        }
    }

    fn count_met(&mut self, tables: &Tables, command: usize, word: &Word) {
        // The slot whose keys are its own, or none where all are; and the one row, where there is but one.
        let (own, only) = match word {
            Word::Reset => (None, None),
            Word::Restart(slot) | Word::Open(slot) | Word::Close(slot) | Word::DeleteSlot(slot) => (Some(slot), None),
            Word::Load { s, n, .. } => (Some(s), Some(*n)),
            Word::DeleteKey(n) => (None, Some(*n)),
            Word::Read | Word::Nothing => return,
        };
        let mut met = [false; MET.len()];
        for (number, row) in (1..).zip(tables.registers()) {
            if only.is_some_and(|only| only != number) {
                continue;
            }
            let Some(card) = cards::stored(&row.card) else { continue };
            let other = own.is_some_and(|own| card.slot() != own);
            met[usize::from(row.mark == OPEN) + 2 * usize::from(other)] = true;
        }
        for (count, met) in self.met[command].iter_mut().zip(met) {
            *count += u64::from(met);
        }
    }

    /// Counts an answer of `usable` to a register counted from 1.
    pub fn count_usable(&mut self, tables: &Tables, register: usize, yes: bool) {
        self.usable[usize::from(yes)] += 1;
        let row = register.checked_sub(1).and_then(|place| tables.registers().get(place));
        let Some(card) = row.and_then(|row| cards::stored(&row.card)) else { return };
        // A closed key that may not vend stands in rows that are not sound, or too many.
        let sound = yes
            || row.is_some_and(|row| row.mark == OPEN)
                && rows::counts_in_range(tables.slot_count, tables.register_count)
                && rows::are_sound(tables.slots(), tables.registers());
        if let Some(slot) = rows::slot_named(tables.slots(), card.slot()).filter(|_| sound) {
            let state = tables.slots[slot].state;
            if let Some(owner) = OWNERS.iter().position(|(owner, _)| *owner == state) {
                self.vending[owner][usize::from(yes)] += 1;
            }
        }
    }

    fn count_told(&mut self, tables: &Tables, request: &[u8]) {
        let row = requests::register_in(request).and_then(|register| tables.registers().get(register.checked_sub(1)?));
        if let Some(card) = row.and_then(|row| cards::stored(&row.card)) {
            self.told_names[kind(card.group_name())] += 1;
        }
    }

    /// Where the card is in form once its SGN is cut to 24 bytes.
    fn count_long_name(&mut self, request: &[u8]) {
        let Some(card) = requests::card_in(request) else { return };
        let (mut cut, mut length) = (Vec::new(), 0);
        for entry in card.split_inclusive(|&byte| byte == b';') {
            match entry {
                [b'S', b'G', b'N', name @ .., b';'] if name.len() > 24 => {
                    cut.extend_from_slice(&[&entry[..3], &name[..24], b";"].concat());
                    length = name.len();
                }
                _ => cut.extend_from_slice(entry),
            }
        }
        if length > 24 && cards::incoming(&cut).is_some() {
            self.long_names[(length - 25).min(2)] += 1;
        }
    }

    /// Of several faults none is known to be the one that was seen.
    fn count_unsound(&mut self, tables: &Tables) {
        if let [(row, kind)] = kinds::of_rows(tables.slots(), tables.registers())[..] {
            self.unsound_rows[row] += 1;
            self.unsound[place(&UNSOUND, kind)] += 1;
        }
    }

    fn count_bad_part(&mut self, supplement: &Supplement) {
        if let [kind] = kinds::of_supplement(supplement)[..] {
            self.bad_parts[place(&BAD_PARTS, kind)] += 1;
        }
    }

    /// What never came up.
    pub fn missing(&self) -> Vec<String> {
        let mut missing = Vec::new();
        let mut ask = |count: u64, name: String| {
            if count == 0 {
                missing.push(name);
            }
        };
        for (number, &count) in self.outcomes.iter().enumerate() {
            ask(count, format!("outcome {number}"));
        }
        for ((command, counts), own) in Command::ALL.iter().zip(self.commands).zip(REFUSALS) {
            for outcome in [0, 1, 2, 3, 4, 5, 6, 8].iter().chain(own) {
                ask(counts[*outcome], format!("outcome {outcome} of {}", name(command)));
            }
        }
        for (slots, &[same, other]) in self.lists.iter().enumerate() {
            ask(same, format!("list of {slots} slots in the sequence of the rows"));
            if slots > 1 {
                ask(other, format!("list of {slots} slots in another sequence than the rows"));
            }
        }
        ask(self.extensions, "list with a name that is the beginning of the next".to_string());
        for (kind, (&loaded, &told)) in self.loaded_names.iter().zip(&self.told_names).enumerate() {
            let name = kind.checked_sub(1).map_or("no SGN".to_string(), |length| format!("SGN of {length} bytes"));
            ask(loaded, format!("load with {name}"));
            ask(told, format!("SM?GA of a card with {name}"));
        }
        for (&count, new) in
            self.reloads.iter().flatten().zip(["no SGN over none", "SGN over none", "no SGN over one", "SGN over one"])
        {
            ask(count, format!("reload with {new}"));
        }
        for (&count, length) in self.long_names.iter().zip(["25 bytes", "26 bytes", "more than 26 bytes"]) {
            ask(count, format!("load refused for an SGN of {length}"));
        }
        for ((command, counts), kinds) in Command::ALL.iter().zip(&self.met).zip(MEETS) {
            for (&count, kind) in counts.iter().zip(MET).take(kinds) {
                ask(count, format!("{} over {kind}", name(command)));
            }
        }
        for (answer, &count) in ["no", "yes"].iter().zip(&self.usable) {
            ask(count, format!("usable {answer}"));
        }
        for (&(state, owner), &[open, closed]) in OWNERS.iter().zip(&self.vending) {
            ask(closed, format!("key that may vend under {owner}"));
            if state != IDLE {
                ask(open, format!("key that may not vend under {owner}"));
            }
        }
        for (slots, counts) in self.row_counts.iter().enumerate() {
            for (registers, &count) in counts.iter().enumerate() {
                ask(count, format!("{slots} slots and {registers} registers"));
            }
        }
        for (length, &count) in self.buffers.iter().enumerate() {
            ask(count, format!("buffer of {length} bytes"));
        }
        for (kind, &count) in UNSOUND.iter().zip(&self.unsound).chain(BAD_PARTS.iter().zip(&self.bad_parts)) {
            ask(count, format!("fault alone: {kind}"));
        }
        for (row, &count) in self.unsound_rows.iter().enumerate() {
            ask(count, format!("fault alone in row {} of slots and registers", row + 1));
        }
        missing
    }

    /// The counts, where all that has to come up did.
    pub fn complete(self) -> Result<Counts, Failure> {
        let missing = self.missing();
        if missing.is_empty() {
            return Ok(self);
        }
        Err(Failure { text: format!("never came up: {}\n{self}", missing.join(", ")), script: Vec::new() })
    }
}

/// Where a card is counted by its SGN.
fn kind(group_name: Option<&[u8]>) -> usize {
    group_name.map_or(0, |name| 1 + name.len())
}

fn place(kinds: &[&str], kind: &str) -> usize {
    kinds.iter().position(|other| *other == kind).expect("a kind of the list")
}

fn name(command: &Command) -> String {
    String::from_utf8_lossy(command.header()).into_owned()
}

/// How many of several counts are above zero, of how many, and the lowest.
fn spread<'a>(counts: impl Iterator<Item = &'a u64> + Clone) -> String {
    let came = counts.clone().filter(|&&count| count > 0).count();
    format!("{came} of {}, each {} times or more", counts.clone().count(), counts.min().unwrap_or(&0))
}

impl fmt::Display for Counts {
    fn fmt(&self, out: &mut fmt::Formatter) -> fmt::Result {
        writeln!(out, "seed {}, {} calls, no difference", self.seed, self.calls())?;
        for (name, calls) in &self.parts {
            writeln!(out, "  {name:<15} {calls:>9}")?;
        }
        if self.edits.1 > 0 {
            writeln!(out, "  single-byte edits: {} of {}", self.edits.0, self.edits.1)?;
        }
        writeln!(out, "  histories that demand 3 and the marks were checked on: {}", self.histories)?;
        writeln!(out, "  row counts: {}", spread(self.row_counts.iter().flatten()))?;
        writeln!(out, "  buffer lengths: {}", spread(self.buffers.iter()))?;
        writeln!(out, "  rows with a fault alone: {}", spread(self.unsound_rows.iter()))?;
        writeln!(out, "  lengths of lists: {}", spread(self.lists.iter().map(|[same, _]| same)))?;
        let others = spread(self.lists.iter().skip(2).map(|[_, other]| other));
        writeln!(out, "  lengths of lists in another sequence than the rows: {others}")?;
        writeln!(out, "  lists with a name that is the beginning of the next: {}", self.extensions)?;
        writeln!(out, "  loads by SGN, absent or of 0 to 24 bytes: {}", spread(self.loaded_names.iter()))?;
        writeln!(out, "  loads refused for a longer SGN alone: {}", self.long_names.iter().sum::<u64>())?;
        writeln!(out, "  reloads with SGN or without, over one or none: {}", spread(self.reloads.iter().flatten()))?;
        writeln!(out, "  cards of SM?GA by SGN: {}", spread(self.told_names.iter()))?;
        let met = self.met.iter().zip(MEETS).flat_map(|(counts, kinds)| &counts[..kinds]);
        writeln!(out, "  commands over closed keys and open ones, of their slot or another: {}", spread(met))?;
        writeln!(out, "calls and acceptances")?;
        for (command, counts) in Command::ALL.iter().zip(self.commands) {
            writeln!(out, "  {} {:>9} {:>9}", name(command), counts.iter().sum::<u64>(), counts[0])?;
        }
        writeln!(out, "refused")?;
        for (number, refused) in self.outcomes.iter().enumerate().skip(1) {
            writeln!(out, "  {number:>5} {refused:>9}")?;
        }
        writeln!(out, "unsound rows, bad supplements: fault alone")?;
        for (kind, count) in UNSOUND.iter().zip(&self.unsound).chain(BAD_PARTS.iter().zip(&self.bad_parts)) {
            writeln!(out, "  {kind:<22} {count:>9}")?;
        }
        writeln!(out, "usable\n    yes {:>9}\n     no {:>9}", self.usable[1], self.usable[0])?;
        writeln!(out, "keys in sound rows that may vend, and that may not")?;
        for ((_, owner), [open, closed]) in OWNERS.iter().zip(&self.vending) {
            writeln!(out, "  under {owner:<7} {closed:>9} {open:>9}")?;
        }
        Ok(())
    }
}

#[cfg(test)]
mod tests {
    use super::*;

    /// Where all came up once the counts are complete; each one at zero is told by its name.
    #[test]
    fn none_is_zero() {
        let counts = Counts {
            outcomes: [1; 22],
            commands: [[1; 22]; 10],
            lists: [[1; 2]; MOST_SLOTS + 1],
            extensions: 1,
            loaded_names: [1; GROUP_NAMES],
            told_names: [1; GROUP_NAMES],
            reloads: [[1; 2]; 2],
            long_names: [1; 3],
            met: [[1; MET.len()]; 10],
            usable: [1; 2],
            vending: [[1; 2]; OWNERS.len()],
            row_counts: [[1; MOST_REGISTERS + 2]; MOST_SLOTS + 2],
            buffers: [1; LONGEST_BUFFER + 1],
            unsound: [1; UNSOUND.len()],
            unsound_rows: [1; MOST_SLOTS + MOST_REGISTERS],
            bad_parts: [1; BAD_PARTS.len()],
            ..Counts::new(1)
        };
        assert!(counts.clone().complete().is_ok());
        let told = |change: &dyn Fn(&mut Counts)| {
            let mut counts = counts.clone();
            change(&mut counts);
            counts.complete().unwrap_err().text.lines().next().unwrap_or_default().to_string()
        };
        assert_eq!(told(&|counts| counts.outcomes[18] = 0), "never came up: outcome 18");
        assert_eq!(told(&|counts| counts.commands[5][12] = 0), "never came up: outcome 12 of SM?KX");
        let list = "never came up: list of 8 slots in another sequence than the rows";
        assert_eq!(told(&|counts| counts.lists[8][1] = 0), list);
        assert_eq!(
            told(&|counts| counts.lists[0][0] = 0),
            "never came up: list of 0 slots in the sequence of the rows"
        );
        let extension = "never came up: list with a name that is the beginning of the next";
        assert_eq!(told(&|counts| counts.extensions = 0), extension);
        assert_eq!(told(&|counts| counts.loaded_names[0] = 0), "never came up: load with no SGN");
        assert_eq!(told(&|counts| counts.loaded_names[25] = 0), "never came up: load with SGN of 24 bytes");
        let shown = "never came up: SM?GA of a card with SGN of 0 bytes";
        assert_eq!(told(&|counts| counts.told_names[1] = 0), shown);
        assert_eq!(told(&|counts| counts.reloads[1][0] = 0), "never came up: reload with no SGN over one");
        let long = "never came up: load refused for an SGN of 25 bytes";
        assert_eq!(told(&|counts| counts.long_names[0] = 0), long);
        assert_eq!(told(&|counts| counts.met[4][3] = 0), "never came up: SM?KF over an open key of another slot");
        assert_eq!(told(&|counts| counts.met[0][1] = 0), "never came up: GL?RS over an open key");
        assert_eq!(told(&|counts| counts.usable[1] = 0), "never came up: usable yes");
        assert_eq!(told(&|counts| counts.vending[0][1] = 0), "never came up: key that may vend under PENDING");
        assert_eq!(told(&|counts| counts.vending[1][0] = 0), "never came up: key that may not vend under LOADING");
        assert_eq!(told(&|counts| counts.row_counts[9][33] = 0), "never came up: 9 slots and 33 registers");
        assert_eq!(told(&|counts| counts.buffers[1023] = 0), "never came up: buffer of 1023 bytes");
        assert_eq!(told(&|counts| counts.unsound[12] = 0), "never came up: fault alone: SGN out of form");
        assert_eq!(told(&|counts| counts.unsound[16] = 0), "never came up: fault alone: key twice");
        assert_eq!(told(&|counts| counts.unsound[19] = 0), "never came up: fault alone: open under IDLE");
        assert_eq!(told(&|counts| counts.bad_parts[8] = 0), "never came up: fault alone: passed");
        let row = "never came up: fault alone in row 40 of slots and registers";
        assert_eq!(told(&|counts| counts.unsound_rows[39] = 0), row);
    }
}

//! SM?GL over rows in many sequences: the list is in ascending byte sequence of the slots' names, a shorter name before
//! its extensions (document 02, N1).

use super::parts::{long_name, put_slot};
use super::scenes::{self, begin};
use super::tables::Tables;
use super::{requests, Bench};
use crate::rows::{IDLE, LOADING, MOST_SLOTS, PENDING};
use crate::Command;
use std::array;

const STATES: [u8; 3] = [PENDING, LOADING, IDLE];

/// Eight names in the sequence of their list.
type Names = [Vec<u8>; MOST_SLOTS];

/// The number of the name that each row has.
type Sequence = [usize; MOST_SLOTS];

pub fn lists(bench: &mut Bench) -> Result<(), String> {
    for names in name_sets() {
        come_and_go(bench, &names)?;
        for sequence in sequences() {
            over_rows(bench, &names, &sequence, u8::MAX)?;
        }
        // Every choice of the rows, the others free: rows in mixed sequence, and backwards.
        for choice in 0..=u8::MAX {
            over_rows(bench, &names, &array::from_fn(|row| row * 3 % MOST_SLOTS), choice)?;
            over_rows(bench, &names, &array::from_fn(|row| MOST_SLOTS - 1 - row), choice)?;
        }
        // Five names in every sequence, with free rows between.
        for number in 0..120 {
            let mut five = permutation(number).into_iter();
            let choice = 0b1010_1101;
            let sequence = array::from_fn(|row| if choice >> row & 1 == 1 { five.next().unwrap_or(0) } else { 0 });
            over_rows(bench, &names, &sequence, choice)?;
        }
    }
    two_names(bench)
}

/// Names that other rules than N1's put in another sequence.
fn name_sets() -> [Names; 6] {
    let texts = |names: [&str; MOST_SLOTS]| names.map(|name| name.as_bytes().to_vec());
    let long = "k".repeat(39);
    [
        // Names with their extensions; capitals before small letters.
        texts(["A", "AB", "ABC", "ABCD", "B", "Z", "a", "ab"]),
        // Each kind of byte after the same beginning.
        texts(["K", "K,", "K-", "K.", "K9", "KZ", "K_", "Ka"]),
        // Numbers, which compare as texts.
        texts(["9", "KMC1", "KMC10", "KMC100", "KMC11", "KMC2", "KMC20", "KMC9"]),
        // Long names before short ones, and after them.
        [
            "0".repeat(40),
            "1".into(),
            "A".repeat(39),
            "A".repeat(40),
            "AB".into(),
            "B".into(),
            "Z".repeat(40),
            "a".into(),
        ]
        .map(String::into_bytes),
        // A name of 39 bytes, and names of 40 that differ in the last only.
        ["", ",", "-", ".", "0", "Z", "_", "a"].map(|last| format!("{long}{last}").into_bytes()),
        // The longest list: eight names of 40 bytes.
        array::from_fn(long_name),
    ]
}

/// Rows that ascend, descend, start anywhere and go by steps, and rows of which two are exchanged.
fn sequences() -> Vec<Sequence> {
    let mut sequences = Vec::new();
    for place in 0..MOST_SLOTS {
        for step in [1, 3, 5, 7] {
            sequences.push(array::from_fn(|row| (place + row * step) % MOST_SLOTS));
        }
        for other in 0..place {
            let mut exchanged: Sequence = array::from_fn(|row| row);
            exchanged.swap(place, other);
            sequences.push(exchanged);
        }
    }
    sequences
}

/// One of the 120 sequences of five names.
fn permutation(mut number: usize) -> [usize; 5] {
    let mut left = vec![0, 1, 4, 5, 6];
    array::from_fn(|_| {
        let place = number % left.len();
        number /= left.len();
        left.remove(place)
    })
}

/// The list of the rows that are chosen, each with the name that the sequence has there; the others are free.
fn over_rows(bench: &mut Bench, names: &Names, sequence: &Sequence, choice: u8) -> Result<(), String> {
    let mut tables = Tables::empty(MOST_SLOTS, 1);
    let mut filled = [false; MOST_SLOTS];
    for row in (0..MOST_SLOTS).filter(|row| choice >> row & 1 == 1) {
        let state = STATES[(row + usize::from(choice)) % STATES.len()];
        put_slot(&mut tables, row, state, &names[sequence[row]]);
        filled[sequence[row]] = true;
    }
    list(bench, &mut tables, names, &filled)
}

/// Slots that are begun, deleted and begun once more, in other sequences than the list's.
fn come_and_go(bench: &mut Bench, names: &Names) -> Result<(), String> {
    let mut tables = Tables::empty(MOST_SLOTS, 1);
    let mut filled = [false; MOST_SLOTS];
    list(bench, &mut tables, names, &filled)?;
    for number in [4, 1, 7, 2, 0, 6, 3, 5].into_iter().chain([2, 7, 4]).chain([7, 2, 4]) {
        let command =
            if filled[number] { requests::of_slot(Command::KX, &names[number]) } else { begin(&names[number]) };
        bench.expect(0, &mut tables, &scenes::supplement(), &command, 1024)?;
        filled[number] = !filled[number];
        list(bench, &mut tables, names, &filled)?;
    }
    Ok(())
}

/// The first byte that differs decides, wherever it stands and whatever comes after it; and of two names of any lengths
/// the shorter one comes first where it is the beginning of the other.
fn two_names(bench: &mut Bench) -> Result<(), String> {
    for first in 0..40 {
        for second in first + 1..40 {
            let (mut low, mut high) = ([b'k'; 40], [b'k'; 40]);
            (low[first], low[second]) = (b'a', b'z');
            (high[first], high[second]) = (b'z', b'a');
            backwards(bench, &low, &high)?;
            backwards(bench, &low[..=first], &low[..=second])?;
        }
    }
    Ok(())
}

/// Two slots whose rows are not in the sequence of their list.
fn backwards(bench: &mut Bench, low: &[u8], high: &[u8]) -> Result<(), String> {
    let mut tables = Tables::empty(2, 1);
    put_slot(&mut tables, 0, IDLE, high);
    put_slot(&mut tables, 1, IDLE, low);
    told(bench, &mut tables, [low, high].into_iter())
}

fn list(bench: &mut Bench, tables: &mut Tables, names: &Names, filled: &[bool; MOST_SLOTS]) -> Result<(), String> {
    told(bench, tables, names.iter().zip(filled).filter(|(_, filled)| **filled).map(|(name, _)| &name[..]))
}

/// SM?GL gives these names in this sequence.
fn told<'a>(bench: &mut Bench, tables: &mut Tables, names: impl Iterator<Item = &'a [u8]>) -> Result<(), String> {
    bench.expect(0, tables, &scenes::supplement(), &requests::bare(Command::GL), 1024)?;
    let due = requests::frame(b"SM!GL00", &names.flat_map(requests::string).collect::<Vec<u8>>());
    if bench.answer() != due {
        let [due, answer] = [&due[..], bench.answer()].map(String::from_utf8_lossy);
        return Err(format!("both engines list {answer} where {due} is due"));
    }
    Ok(())
}

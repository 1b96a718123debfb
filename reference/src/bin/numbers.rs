//! Compares the engine's decimal writer, through the static library of `crates/case_numbers`, with that of `fields`,
//! number by number (document 02, N4). Wrong writers are tried first, and each must be found.

use reference::fields;
use reference::harness::generator::Generator;
use std::process::ExitCode;

#[link(name = "case_numbers", kind = "static")]
extern "C" {
    fn diminurel_case_field(buffer: *mut u8, length: usize, value: u32) -> usize;
    fn diminurel_case_long(buffer: *mut u8, length: usize, value: u64) -> usize;
}

/// What is written.
#[derive(Clone, Copy)]
enum Kind {
    /// The field of a number of 32 bits.
    Field,
    /// The digits of a number of 64 bits.
    Long,
}

impl Kind {
    fn greatest(self) -> u64 {
        match self {
            Kind::Field => u32::MAX.into(),
            Kind::Long => u64::MAX,
        }
    }

    /// How many digits the greatest has.
    fn places(self) -> u32 {
        self.greatest().ilog10() + 1
    }

    fn right(self, value: u64) -> Vec<u8> {
        match self {
            Kind::Field => fields::Writer::default().number(value as usize).payload.clone(),
            Kind::Long => value.to_string().into_bytes(),
        }
    }
}

/// The buffer begins at START; no byte before or after it may change, nor one of its own that is not written.
type Memory = [u8; 48];
const START: usize = 8;
const UNTOUCHED: u8 = 0xA5;

/// Writes a number into the memory's buffer, whose length is given, and answers how many bytes, 0 where it is shorter.
type Write<'a> = &'a dyn Fn(&mut Memory, usize, u64) -> usize;

fn linked_field(memory: &mut Memory, length: usize, value: u64) -> usize {
    assert!(START + length <= memory.len());
    // SAFETY: as many bytes of the memory stand there.
    unsafe { diminurel_case_field(memory.as_mut_ptr().add(START), length, value as u32) }
}

fn linked_long(memory: &mut Memory, length: usize, value: u64) -> usize {
    assert!(START + length <= memory.len());
    // SAFETY: as above.
    unsafe { diminurel_case_long(memory.as_mut_ptr().add(START), length, value) }
}

/// Numbers at which a digit begins or a word ends, and their neighbours.
fn edges(kind: Kind) -> Vec<u64> {
    let tens = (0..20).flat_map(|place| (1..=9).map(move |digit| digit * 10_i128.pow(place)));
    let twos = (0..=64).map(|bits| 1_i128 << bits);
    let near = tens.chain(twos).flat_map(|number| (-11..=11).map(move |other| number + other));
    near.filter_map(|number| u64::try_from(number).ok()).filter(|&number| number <= kind.greatest()).collect()
}

/// The number that has another digit than 0 where the bits have a one, and nowhere else; none where it is too great.
fn zeros(kind: Kind, bits: u32, mut other: impl FnMut() -> u128) -> Option<u64> {
    let digit = |place: u32| if bits >> place & 1 == 1 { other() } else { 0 };
    let number = (0..kind.places()).rev().map(digit).fold(0, |number, digit| number * 10 + digit);
    u64::try_from(number).ok().filter(|&number| number <= kind.greatest())
}

/// Every number to a million; zeros at every choice of places; and random numbers, as many of each length.
fn many(kind: Kind) -> impl Iterator<Item = u64> {
    let choices = 1..1_u32 << kind.places();
    let (mut digits, mut draws) = (Generator::new(1), Generator::new(2));
    let ones = choices.clone().filter_map(move |bits| zeros(kind, bits, || 1));
    let nines = choices.clone().filter_map(move |bits| zeros(kind, bits, || 9));
    let drawn = choices.filter_map(move |bits| zeros(kind, bits, || digits.between(1, 9) as u128));
    let lengths = (1..=kind.places()).flat_map(|length| std::iter::repeat_n(length, 30_000));
    let random = lengths.map(move |length| {
        let least = 10_u64.pow(length - 1);
        let span = least.saturating_mul(9).min(kind.greatest() - least);
        least + draws.draw() % span
    });
    (0..=1_000_000).chain(ones).chain(nines).chain(drawn).chain(random)
}

/// What came up: how many numbers, and which digits at which places.
#[derive(Default)]
struct Counts {
    numbers: u64,
    digits: [[bool; 10]; 20],
}

impl Counts {
    fn note(&mut self, value: u64) {
        self.numbers += 1;
        let (mut rest, mut place) = (value, 0);
        while rest > 0 {
            self.digits[place][(rest % 10) as usize] = true;
            (rest, place) = (rest / 10, place + 1);
        }
    }

    /// Every digit at every place, but at the first no more than the greatest number has there.
    fn are_all(&self, kind: Kind) -> bool {
        let below = kind.places() as usize - 1;
        let first = kind.greatest() / 10_u64.pow(kind.places() - 1);
        self.digits[..below].iter().all(|digits| digits.iter().all(|&seen| seen))
            && (1..=first).all(|digit| self.digits[below][digit as usize])
    }
}

/// One call.
fn check(write: Write, value: u64, right: &[u8], length: usize) -> Result<(), String> {
    let mut memory = [UNTOUCHED; 48];
    let mut due = memory;
    let answer = write(&mut memory, length, value);
    let answer_due = if length < right.len() { 0 } else { right.len() };
    due[START..START + answer_due].copy_from_slice(&right[..answer_due]);
    if answer == answer_due && memory == due {
        return Ok(());
    }
    let text = |memory: &Memory| memory.escape_ascii().to_string().replace("\\xa5", ".");
    Err(format!(
        "difference at {value}, buffer length {length}: {answer} answered, {answer_due} due\n  {}\n  {} due",
        text(&memory),
        text(&due)
    ))
}

/// Each number in a longer buffer, in one of its length and in one a byte too short; the edges in one of every length.
fn compare(kind: Kind, write: Write) -> Result<u64, String> {
    let mut counts = Counts::default();
    for value in edges(kind) {
        counts.note(value);
        let right = kind.right(value);
        (0..right.len() + 8).try_for_each(|length| check(write, value, &right, length))?;
    }
    for value in many(kind) {
        counts.note(value);
        let right = kind.right(value);
        let lengths = [right.len() + 8, right.len(), right.len() - 1];
        lengths.into_iter().try_for_each(|length| check(write, value, &right, length))?;
    }
    counts.are_all(kind).then_some(counts.numbers).ok_or_else(|| "not every digit came up at every place".to_string())
}

/// What a wrong writer makes of a number's digits.
type Digits = Box<dyn Fn(u64) -> String>;

fn is_power_of_ten(value: u64) -> bool {
    value > 0 && value == 10_u64.pow(value.ilog10())
}

/// By subtraction of powers of ten, one of which is another number.
fn by_another_power(value: u64, place: u32, power: u64) -> String {
    let (mut rest, mut digits) = (value, String::new());
    for each in (0..20).rev() {
        let power = if each == place { power } else { 10_u64.pow(each) };
        let times = (rest / power).min(200);
        rest -= times * power;
        if times > 0 || !digits.is_empty() || each == 0 {
            digits.push(char::from(b'0' + times as u8));
        }
    }
    digits
}

fn without_inner_zeros(value: u64) -> String {
    let digits = value.to_string();
    let last = digits.len() - 1;
    digits
        .char_indices()
        .filter(|&(place, digit)| digit != '0' || place == 0 || place == last)
        .map(|(_, d)| d)
        .collect()
}

/// Each is wrong for both kinds; what loses a digit or a bit of a number loses one that only great numbers have.
fn wrong_digits(kind: Kind) -> Vec<(String, Digits)> {
    let first = 10_u64.pow(kind.places() - 1);
    let half = kind.greatest() / 2;
    let mut wrong: Vec<(String, Digits)> = vec![
        ("a leading zero".into(), Box::new(|value| format!("0{value}"))),
        ("two digits at least".into(), Box::new(|value| format!("{value:02}"))),
        ("zeros inside left out".into(), Box::new(without_inner_zeros)),
        ("zeros at the end left out".into(), Box::new(|value| value.to_string().trim_end_matches('0').into())),
        ("0 as nothing".into(), Box::new(|value| if value == 0 { String::new() } else { value.to_string() })),
        (
            "one too small at a power of ten".into(),
            Box::new(|value| if is_power_of_ten(value) { value - 1 } else { value }.to_string()),
        ),
        (format!("digit {} lost", kind.places()), Box::new(move |value| (value % first).to_string())),
        ("the highest bit lost".into(), Box::new(move |value| (value & half).to_string())),
        ("the greatest one too small".into(), Box::new(move |value| value.min(kind.greatest() - 1).to_string())),
        ("a number alone".into(), Box::new(|value| if value == 654_321 { 654_320 } else { value }.to_string())),
        ("nothing".into(), Box::new(|_| String::new())),
    ];
    for place in 1..kind.places() {
        for power in [10_u64.pow(place) - 1, 10_u64.pow(place) + 1] {
            wrong.push((format!("{power} for a power of ten"), Box::new(move |v| by_another_power(v, place, power))));
        }
    }
    wrong
}

/// Puts the bytes into the memory's buffer of that length.
type Put = fn(&mut Memory, usize, &[u8]) -> usize;

fn put(memory: &mut Memory, length: usize, bytes: &[u8]) -> usize {
    if length < bytes.len() {
        return 0;
    }
    memory[START..START + bytes.len()].copy_from_slice(bytes);
    bytes.len()
}

const WRONG_PUTS: [(&str, Put); 11] = [
    ("a byte touched after what is written", |memory, length, bytes| {
        let end = put(memory, length, bytes);
        memory[START..START + length][end..].iter_mut().take(1).for_each(|byte| *byte = 0);
        end
    }),
    ("the rest of the buffer zeroed", |memory, length, bytes| {
        let end = put(memory, length, bytes);
        memory[START..START + length][end..].fill(0);
        end
    }),
    ("a byte touched after the buffer", |memory, length, bytes| {
        memory[START + length] = 0;
        put(memory, length, bytes)
    }),
    ("a byte touched before the buffer", |memory, length, bytes| {
        memory[START - 1] = 0;
        put(memory, length, bytes)
    }),
    ("written into a buffer that is too short", |memory, length, bytes| {
        put(memory, length, &bytes[..length.min(bytes.len())]);
        put(memory, length, bytes)
    }),
    ("cut to a buffer that is too short", |memory, length, bytes| {
        put(memory, length, &bytes[..length.min(bytes.len())])
    }),
    ("written past a buffer that is too short", |memory, _, bytes| put(memory, bytes.len(), bytes)),
    ("a length answered where the buffer is too short", |memory, length, bytes| {
        put(memory, length, bytes);
        bytes.len()
    }),
    ("a buffer of the length refused", |memory, length, bytes| put(memory, length.saturating_sub(1), bytes)),
    ("one too many answered", |memory, length, bytes| put(memory, length, bytes) + 1),
    ("the last byte left out", |memory, length, bytes| put(memory, length, &bytes[..bytes.len() - 1])),
];

/// Each wrong writer must be found, and the right one must not; how many wrong ones there are.
fn try_wrong_writers(kind: Kind) -> Result<usize, String> {
    compare(kind, &|memory, length, value| put(memory, length, &kind.right(value)))?;
    let framed = |digits: String| match kind {
        Kind::Field => format!("N{digits}~").into_bytes(),
        Kind::Long => digits.into_bytes(),
    };
    let digits = wrong_digits(kind);
    for (name, wrong) in &digits {
        let write: Write = &|memory, length, value| put(memory, length, &framed(wrong(value)));
        compare(kind, write).err().ok_or_else(|| format!("a wrong writer is not found: {name}"))?;
    }
    for (name, wrong) in WRONG_PUTS {
        let write: Write = &|memory, length, value| wrong(memory, length, &kind.right(value));
        compare(kind, write).err().ok_or_else(|| format!("a wrong writer is not found: {name}"))?;
    }
    Ok(digits.len() + WRONG_PUTS.len())
}

fn run() -> Result<(), String> {
    let wrong = try_wrong_writers(Kind::Field)? + try_wrong_writers(Kind::Long)?;
    println!("numbers: {wrong} wrong writers are found");
    let (fields, longs) = (compare(Kind::Field, &linked_field)?, compare(Kind::Long, &linked_long)?);
    println!("numbers: {fields} fields and {longs} numbers of 64 bits compared, no difference");
    Ok(())
}

fn main() -> ExitCode {
    let start = std::time::Instant::now();
    if let Err(text) = run() {
        println!("numbers: {text}");
        return ExitCode::FAILURE;
    }
    println!("{:.1} s", start.elapsed().as_secs_f64());
    ExitCode::SUCCESS
}

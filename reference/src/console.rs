//! The console: a script of lines that sets up rows, buffer and supplement, and hands in requests.
//!
//! | line | what it does |
//! |---|---|
//! | empty, or starting with `#` | nothing |
//! | `tables S R` | new tables of S slot rows (0 to 9) and R register rows (0 to 33), all zero |
//! | `buffer N` | lends a response buffer of N bytes (0 to 2048) from now on, each byte 2E before every request |
//! | `clock X`, `identity X`, `loadreq X`, `tag X`, `check X` | that part of the supplement is X, also none, at most 1,024 bytes |
//! | `passed yes`, `passed no` | the cryptographic check |
//! | `send X` | hands in header and payload X, also none, with checksum and carriage return added: at most 2,048 bytes in all |
//! | `raw H`, `raw` | hands in the bytes H, or none |
//! | `slot K S NAME FINGERPRINT TVP` | slot row K (1 to 8, of those that there are) becomes this: the state's number, then 80, 32 and 32 hexadecimal digits |
//! | `register K M CARD` | register row K (1 to 32, of those that there are) becomes this: the mark's number, then the card in 512 hexadecimal digits |
//! | `rows` | prints the rows that are not all zero, in the form of the two lines above |
//! | `usable K` | prints whether the key of register K (0 to 2147483647) may vend |
//! | `show` | nothing here: it is text for people, and not compared |
//!
//! Lines count from 1, end with a line feed (the last may lack it) and have at most 4,096 bytes. X is all bytes after
//! the one space. Words are split by one space, decimal numbers have no leading zero, hexadecimal is capitals.
//!
//! `send` and `raw` print the line's number, the outcome (0 or the refusal's number), the slot state left or `-`, and
//! the response without its carriage return or `-`; `usable` prints the line's number and `yes` or `no`. A line in any
//! other form prints its number and `?`.

use crate::harness::{hex, requests, tables::Tables};
use crate::rows::{self, RegisterRow, SlotRow};
use crate::{handle, text, usable, Supplement};
use std::io::{self, BufRead, Read, Write};

const LONGEST_LINE: usize = 4096;
const LONGEST_PART: usize = 1024;
/// Four digits and the carriage return are added to what is sent, which makes 2,048 bytes.
const LONGEST_SENT: usize = 2043;
pub const LONGEST_RAW: usize = 2046;
pub const LONGEST_BUFFER: usize = 2048;
pub const LAST_REGISTER: usize = 2_147_483_647;

pub struct Console {
    pub tables: Tables,
    pub supplement: Supplement,
    pub buffer: usize,
}

/// What a line in form prints.
enum Output {
    Nothing,
    /// After the line's number.
    Numbered(String),
    Rows(String),
}

impl Default for Console {
    fn default() -> Self {
        // The identity is the record of 001 example 6.3.4.4.
        let identity = b"SMID.1:Prism:12345678:20130303T153830Z:E7C42215AF1FE951:9C7D";
        Console {
            tables: Tables::empty(8, 32),
            supplement: requests::supplement(b"20260101T000000Z", identity, b"VKLOAD.REQ.1", &[b'0'; 48], b"000000"),
            buffer: 1024,
        }
    }
}

impl Console {
    /// What a line prints, given without its line feed.
    pub fn line(&mut self, number: u64, line: &[u8]) -> String {
        match self.obey(line) {
            Some(Output::Nothing) => String::new(),
            Some(Output::Numbered(text)) => format!("{number} {text}\n"),
            Some(Output::Rows(rows)) => rows,
            None => format!("{number} ?\n"),
        }
    }

    /// Nothing when the line is in no form.
    fn obey(&mut self, line: &[u8]) -> Option<Output> {
        if line.len() > LONGEST_LINE {
            return None;
        }
        if line.is_empty() || line.starts_with(b"#") {
            return Some(Output::Nothing);
        }
        let (verb, rest) = match line.iter().position(|&byte| byte == b' ') {
            Some(space) => (&line[..space], Some(&line[space + 1..])),
            None => (line, None),
        };
        match (verb, rest) {
            (b"rows", None) => return Some(Output::Rows(row_lines(&self.tables))),
            (b"raw", digits) => return Some(self.hand_in(&octets(digits.unwrap_or_default())?)),
            (b"send", Some(text)) if text.len() <= LONGEST_SENT => {
                return Some(self.hand_in(&requests::frame(text, b"")));
            }
            (b"usable", Some(register)) => return self.usable(register),
            (b"show", None) => {}
            (b"tables", Some(rest)) => self.new_tables(rest)?,
            (b"buffer", Some(length)) => self.buffer = number(length, 0, LONGEST_BUFFER)?,
            (b"slot", Some(rest)) => self.put_slot(rest)?,
            (b"register", Some(rest)) => self.put_register(rest)?,
            (b"passed", Some(b"yes")) => self.supplement.passed = 1,
            (b"passed", Some(b"no")) => self.supplement.passed = 0,
            (part, Some(value)) if value.len() <= LONGEST_PART => self.supply(part, value)?,
            _ => return None,
        }
        Some(Output::Nothing)
    }

    fn new_tables(&mut self, rest: &[u8]) -> Option<()> {
        let [slots, registers] = words(rest)?;
        self.tables =
            Tables::empty(number(slots, 0, rows::MOST_SLOTS + 1)?, number(registers, 0, rows::MOST_REGISTERS + 1)?);
        Some(())
    }

    fn put_slot(&mut self, rest: &[u8]) -> Option<()> {
        let [row, state, name, fingerprint, tvp] = words(rest)?;
        let row = number(row, 1, self.tables.slot_count.min(rows::MOST_SLOTS))?;
        self.tables.slots[row - 1] = SlotRow {
            state: number(state, 0, 255)? as u8,
            kmcid: octets(name)?.try_into().ok()?,
            fingerprint: octets(fingerprint)?.try_into().ok()?,
            tvp: octets(tvp)?.try_into().ok()?,
        };
        Some(())
    }

    fn put_register(&mut self, rest: &[u8]) -> Option<()> {
        let [row, mark, card] = words(rest)?;
        let row = number(row, 1, self.tables.register_count.min(rows::MOST_REGISTERS))?;
        self.tables.registers[row - 1] =
            RegisterRow { mark: number(mark, 0, 255)? as u8, card: octets(card)?.try_into().ok()? };
        Some(())
    }

    /// A part that does not fit its place in the struct is out of form, and so refused with 4: zeros are no clock, tag
    /// or check value, and a length past the space is none.
    fn supply(&mut self, part: &[u8], value: &[u8]) -> Option<()> {
        let supplement = &mut self.supplement;
        match part {
            b"clock" => supplement.clock = value.try_into().unwrap_or([0; 16]),
            b"tag" => supplement.tag = value.try_into().unwrap_or([0; 48]),
            b"check" => supplement.check = value.try_into().unwrap_or([0; 6]),
            b"identity" => {
                supplement.identity = padded(value);
                supplement.identity_length = value.len();
            }
            b"loadreq" => {
                supplement.request = padded(value);
                supplement.request_length = value.len();
            }
            _ => return None,
        }
        Some(())
    }

    /// Outcome, slot state left and response, the last two `-` where there is none.
    fn hand_in(&mut self, request: &[u8]) -> Output {
        let mut response = vec![0x2E; self.buffer];
        let Tables { slots, registers, slot_count, register_count } = &mut self.tables;
        let answer = handle(
            &mut slots[..*slot_count],
            &mut registers[..*register_count],
            &self.supplement,
            request,
            &mut response,
        );
        let state = answer.state.map_or("-", |state| match state {
            rows::PENDING => "PENDING",
            rows::LOADING => "LOADING",
            rows::IDLE => "IDLE",
            _ => "FREE",
        });
        // A response is ASCII, and ends in a carriage return.
        let printed = match answer.length {
            0 => "-".into(),
            length => String::from_utf8_lossy(&response[..length - 1]),
        };
        Output::Numbered(format!("{} {state} {printed}", answer.outcome))
    }

    fn usable(&self, register: &[u8]) -> Option<Output> {
        let register = number(register, 0, LAST_REGISTER)?;
        let yes = usable(self.tables.slots(), self.tables.registers(), register);
        Some(Output::Numbered(if yes { "yes" } else { "no" }.to_string()))
    }
}

/// Reads a script to its end and writes what it prints.
pub fn run(mut input: impl BufRead, mut output: impl Write) -> io::Result<()> {
    let mut console = Console::default();
    let mut line = Vec::new();
    let mut number = 0;
    // One byte more than a line may have: its line feed, or what makes it too long.
    while input.by_ref().take(LONGEST_LINE as u64 + 1).read_until(b'\n', &mut line)? > 0 {
        number += 1;
        if line.last() == Some(&b'\n') {
            line.pop();
        } else if line.len() > LONGEST_LINE {
            input.skip_until(b'\n')?;
        }
        output.write_all(console.line(number, &line).as_bytes())?;
        line.clear();
    }
    output.flush()
}

/// The rows that are not all zero, as the lines that make them.
pub fn row_lines(tables: &Tables) -> String {
    let slots = tables.slots().iter().enumerate().filter(|(_, row)| !row.is_free());
    let registers = tables.registers().iter().enumerate().filter(|(_, row)| !row.is_zero());
    slots
        .map(|(place, row)| slot_line(place + 1, row) + "\n")
        .chain(registers.map(|(place, row)| register_line(place + 1, row) + "\n"))
        .collect()
}

pub fn slot_line(number: usize, row: &SlotRow) -> String {
    let SlotRow { state, kmcid, fingerprint, tvp } = row;
    format!("slot {number} {state} {} {} {}", hex(kmcid), hex(fingerprint), hex(tvp))
}

pub fn register_line(number: usize, row: &RegisterRow) -> String {
    format!("register {number} {} {}", row.mark, hex(&row.card))
}

/// Exactly `N` words, split by one space.
fn words<const N: usize>(text: &[u8]) -> Option<[&[u8]; N]> {
    text.split(|&byte| byte == b' ').collect::<Vec<_>>().try_into().ok()
}

fn number(word: &[u8], from: usize, to: usize) -> Option<usize> {
    let number = usize::try_from(text::decimal(word)?).ok()?;
    (from..=to).contains(&number).then_some(number)
}

/// The bytes of an even number of capital hexadecimal digits.
fn octets(digits: &[u8]) -> Option<Vec<u8>> {
    let value = |digit: &u8| if digit.is_ascii_digit() { digit - b'0' } else { digit - b'A' + 10 };
    if digits.len() % 2 == 1 || !text::is_hex(digits) {
        return None;
    }
    Some(digits.chunks(2).map(|pair| value(&pair[0]) << 4 | value(&pair[1])).collect())
}

/// As much as there is space for, zeros after it.
fn padded<const N: usize>(value: &[u8]) -> [u8; N] {
    let mut space = [0; N];
    let length = value.len().min(N);
    space[..length].copy_from_slice(&value[..length]);
    space
}

//! Calls as a console script, so that what a run finds can be replayed.

use super::hex;
use super::tables::Tables;
use crate::console::{row_lines, LAST_REGISTER, LONGEST_BUFFER, LONGEST_RAW};
use crate::rows::{RegisterRow, SlotRow, MOST_REGISTERS, MOST_SLOTS};
use crate::Supplement;

/// What is handed in beside the rows.
#[derive(Clone)]
pub struct Call {
    pub supplement: Supplement,
    pub request: Vec<u8>,
    pub buffer: usize,
}

/// Rows, the calls made from them, and a register that `usable` was asked about after the last.
pub struct Replay {
    pub start: Tables,
    pub calls: Vec<Call>,
    pub asked: Option<usize>,
}

impl Replay {
    /// `title` is the script's first comment.
    pub fn script(&self, title: &str) -> Vec<u8> {
        let mut script = Script::default();
        script.comment(title);
        script.comment("Each byte of the buffer is 2E before a request here; in the run they were others.");
        script.rows(&self.start);
        for call in &self.calls {
            script.supplement(&call.supplement);
            script.buffer(call.buffer);
            script.hand_in(&call.request);
        }
        script.line(b"rows");
        if let Some(register) = self.asked {
            script.usable(register);
        }
        script.text
    }
}

/// Console lines. What no line can say stands in a comment, and something takes its place that both answer alike.
#[derive(Default)]
pub struct Script {
    pub text: Vec<u8>,
    /// The last value of each part of the supplement and of the buffer: only what changes is written.
    said: Vec<(&'static str, Vec<u8>)>,
}

impl Script {
    pub fn line(&mut self, line: &[u8]) {
        self.text.extend_from_slice(line);
        self.text.push(b'\n');
    }

    /// Cut where a line would be too long.
    pub fn comment(&mut self, text: &str) {
        let text: Vec<u8> = text.bytes().take(1000).map(|byte| if byte == b'\n' { b' ' } else { byte }).collect();
        self.line(&[b"# ", &text[..]].concat());
    }

    pub fn rows(&mut self, tables: &Tables) {
        let mut sayable = tables.clone();
        sayable.slots[tables.slot_count.min(MOST_SLOTS)..].fill(SlotRow::FREE);
        sayable.registers[tables.register_count.min(MOST_REGISTERS)..].fill(RegisterRow::FREE);
        if sayable != *tables {
            self.comment("Rows beyond the counts, or past row 8 or 32, have content; here they are zero.");
        }
        self.line(format!("tables {} {}", tables.slot_count, tables.register_count).as_bytes());
        self.text.extend_from_slice(row_lines(&sayable).as_bytes());
    }

    pub fn supplement(&mut self, supplement: &Supplement) {
        self.part("clock", &supplement.clock);
        self.text_part("identity", supplement.own_identity(), supplement.identity_length, 128);
        self.text_part("loadreq", supplement.load_request(), supplement.request_length, 700);
        self.part("tag", &supplement.tag);
        if supplement.passed > 1 {
            self.comment(&format!(
                "Passed is {}; an empty check value stands for it, out of form too.",
                supplement.passed
            ));
            self.say("check", b"");
        } else {
            self.part("check", &supplement.check);
            self.say("passed", if supplement.passed == 1 { b"yes" } else { b"no" });
        }
    }

    fn text_part(&mut self, verb: &'static str, text: Option<&[u8]>, length: usize, space: usize) {
        match text {
            Some(text) => self.part(verb, text),
            None => {
                self.comment(&format!("The length of {verb} is {length}, past its space; here it is one past it."));
                self.say(verb, &vec![b'.'; space + 1]);
            }
        }
    }

    fn part(&mut self, verb: &'static str, value: &[u8]) {
        // A line feed is out of form in every part, and so is a zero.
        let sayable: Vec<u8> = value.iter().map(|&byte| if byte == b'\n' { 0 } else { byte }).collect();
        if sayable != value {
            self.comment(&format!("Each line feed of {verb} is 00 here, out of form too."));
        }
        self.say(verb, &sayable);
    }

    pub fn buffer(&mut self, length: usize) {
        if length > LONGEST_BUFFER {
            self.comment(&format!("The buffer has {length} bytes; here it has {LONGEST_BUFFER}."));
        }
        self.say("buffer", length.min(LONGEST_BUFFER).to_string().as_bytes());
    }

    pub fn hand_in(&mut self, request: &[u8]) {
        self.comment(&request.escape_ascii().to_string());
        if request.len() > LONGEST_RAW {
            self.comment(&format!("The request has {} bytes; here it has the first {LONGEST_RAW}.", request.len()));
        }
        match &request[..request.len().min(LONGEST_RAW)] {
            b"" => self.line(b"raw"),
            bytes => self.line(format!("raw {}", hex(bytes)).as_bytes()),
        }
    }

    pub fn usable(&mut self, register: usize) {
        if register > LAST_REGISTER {
            self.comment(&format!("The register is {register}; here it is {LAST_REGISTER}, beyond the rows too."));
        }
        self.line(format!("usable {}", register.min(LAST_REGISTER)).as_bytes());
    }

    /// All of the supplement and the buffer is written again, as they may have been changed by another line.
    pub fn forget(&mut self) {
        self.said.clear();
    }

    fn say(&mut self, verb: &'static str, value: &[u8]) {
        match self.said.iter_mut().find(|(said, _)| *said == verb) {
            Some((_, last)) if last == value => return,
            Some((_, last)) => *last = value.to_vec(),
            None => self.said.push((verb, value.to_vec())),
        }
        self.line(&[verb.as_bytes(), b" ", value].concat());
    }
}

#[cfg(test)]
mod tests {
    use super::*;

    #[test]
    fn past_what_a_line_takes() {
        let mut script = Script::default();
        script.buffer(3000);
        script.hand_in(&[0xAB; 3000]);
        script.usable(usize::MAX);
        let text = String::from_utf8(script.text).unwrap();
        let lines: Vec<&str> = text.lines().filter(|line| !line.starts_with('#')).collect();
        assert_eq!(lines, ["buffer 2048", &format!("raw {}", "AB".repeat(2046)), "usable 2147483647"]);
        assert_eq!(text.lines().count(), 7, "a comment each, and one for the request's text");
        assert!(text.lines().all(|line| line.len() <= 4096));
    }

    #[test]
    fn what_does_not_change_is_said_once() {
        let mut script = Script::default();
        let supplement = crate::console::Console::default().supplement;
        script.supplement(&supplement);
        assert_eq!(script.text.split(|&byte| byte == b'\n').count(), 7);
        let said = script.text.len();
        script.supplement(&supplement);
        assert_eq!(script.text.len(), said);
        script.supplement(&Supplement { passed: 0, ..supplement });
        assert_eq!(script.text[said..], *b"passed no\n");
    }
}

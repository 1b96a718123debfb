//! Random console scripts: histories with torn, forged and repeated requests, among lines of every form and lines in none.

use super::script::Script;
use super::world::World;
use super::{hex, requests};
use crate::console::{register_line, slot_line, Console};
use crate::{rows, Supplement};

/// A script of `lines` lines or a few more. `show` is not among them.
pub fn random_script(seed: u64, lines: usize) -> Vec<u8> {
    let mut world = World::new(seed ^ 0x5C41);
    let supplement = world.supplement();
    let mut maker =
        Maker { world, supplement, console: Console::default(), script: Script::default(), obeyed: 0, lines: 0 };
    while maker.lines < lines {
        maker.history(lines);
    }
    let mut text = maker.script.text;
    // The last line may lack its line feed.
    if maker.world.generator.chance(50) {
        text.pop();
    }
    text
}

struct Maker {
    world: World,
    supplement: Supplement,
    /// Obeys each line as it is written, so that requests can go by the rows.
    console: Console,
    script: Script,
    /// How far it has obeyed the script.
    obeyed: usize,
    lines: usize,
}

impl Maker {
    fn history(&mut self, lines: usize) {
        let mut tables = if self.world.generator.chance(25) { self.world.filled() } else { self.world.tables() };
        match self.world.generator.below(30) {
            0 => tables.slot_count = *self.world.generator.pick(&[0, 9]),
            1 => tables.register_count = *self.world.generator.pick(&[0, 33]),
            _ => {}
        }
        self.script.rows(&tables);
        self.obey();
        for _ in 0..self.world.generator.between(10, 150) {
            self.step();
            // Rows that are not sound, or too many, answer each request alike.
            let (slots, registers) = (self.console.tables.slots(), self.console.tables.registers());
            let dull = !rows::counts_in_range(slots.len(), registers.len()) || !rows::are_sound(slots, registers);
            if self.lines >= lines || dull && self.world.generator.chance(40) {
                break;
            }
        }
    }

    fn step(&mut self) {
        match self.world.generator.below(100) {
            0..=64 => self.call(),
            65..=72 => {
                let filled = self.console.tables.registers().iter().filter(|row| !row.is_free()).count();
                let register = self.world.generator.below(filled + 3);
                self.script.usable(register);
            }
            73..=74 => self.script.line(b"rows"),
            75..=79 => self.spoiled_row(),
            80..=93 => self.other_line(),
            94..=95 => self.long_line(),
            96..=97 => self.script.line(b""),
            _ => self.script.comment("comment \u{e9}"),
        }
        self.obey();
    }

    /// Obeys what has been written since.
    fn obey(&mut self) {
        let new = &self.script.text[self.obeyed..];
        for line in new.split_inclusive(|&byte| byte == b'\n').filter_map(|line| line.strip_suffix(b"\n")) {
            self.lines += 1;
            self.console.line(self.lines as u64, line);
        }
        self.obeyed = self.script.text.len();
    }

    fn call(&mut self) {
        if self.world.generator.chance(15) {
            self.supplement = self.world.supplement();
        }
        let request = self.world.request(&self.console.tables, &self.supplement);
        let mut supplement = self.supplement;
        if self.world.generator.chance(3) {
            self.world.spoil(&mut supplement);
        }
        let buffer = match self.world.generator.below(40) {
            0 => self.world.generator.below(1024),
            1..=3 => self.world.generator.between(1024, 2048),
            _ => 1024,
        };
        self.script.supplement(&supplement);
        self.script.buffer(buffer);
        let text = &request[..request.len().saturating_sub(5)];
        let framed = requests::frame(text, b"") == request && !text.contains(&b'\n');
        if framed && self.world.generator.chance(90) {
            self.script.line(&[b"send ", text].concat());
        } else if request.is_empty() {
            self.script.line(b"raw");
        } else {
            self.script.line(format!("raw {}", hex(&request)).as_bytes());
        }
    }

    /// A call over a row with one byte changed, a card with another SGN or a key with another mark; then the row is as it
    /// was.
    fn spoiled_row(&mut self) {
        let tables = self.console.tables.clone();
        let generator = &mut self.world.generator;
        let slot = generator.below(tables.slot_count.clamp(1, 8));
        let register = generator.below(tables.register_count.clamp(1, 32));
        let byte = generator.byte();
        let (mut row, mut key) = (tables.slots[slot], tables.registers[register]);
        let place = generator.below(73);
        match place {
            0 => row.state = byte,
            1..=40 => row.kmcid[place - 1] = byte,
            41..=56 => row.fingerprint[place - 41] = byte,
            _ => row.tvp[place - 57] = byte,
        }
        match generator.below(10) {
            0..=4 => key.card[generator.below(256)] = byte,
            5..=6 => self.world.name_group(&mut key),
            _ => self.world.mark(&mut key),
        }
        let lines = if self.world.generator.chance(50) {
            [slot_line(slot + 1, &row), slot_line(slot + 1, &tables.slots[slot])]
        } else {
            [register_line(register + 1, &key), register_line(register + 1, &tables.registers[register])]
        };
        self.script.line(lines[0].as_bytes());
        self.obey();
        self.call();
        self.obey();
        // What is still sound may have been changed by the call.
        if !rows::are_sound(self.console.tables.slots(), self.console.tables.registers()) {
            self.script.line(lines[1].as_bytes());
        }
    }

    /// A line of any form, its numbers in range or not; mostly with one change, which mostly leaves it in none.
    fn other_line(&mut self) {
        let mut line = self.some_line();
        let generator = &mut self.world.generator;
        let place = generator.below(line.len() + 1);
        let byte = *generator.pick(b"  0129AFGafn?~-+.#\r\t\0\x7F\x80\xFF\n");
        match generator.below(10) {
            0 => line.insert(place, byte),
            1 => line.truncate(place),
            2 => line.push(b' '),
            3 => line.insert(0, b' '),
            4 => line.make_ascii_lowercase(),
            5 => line.make_ascii_uppercase(),
            6 => line.extend_from_slice(b" 1"),
            7 | 8 if place < line.len() => line[place] = byte,
            _ => {}
        }
        if !line.split(|&byte| byte == b'\n').any(|line| line == b"show") {
            self.put(&line);
        }
    }

    /// Writes a line that may change supplement and buffer.
    fn put(&mut self, line: &[u8]) {
        let before = (self.console.supplement, self.console.buffer);
        self.script.line(line);
        self.obey();
        if before != (self.console.supplement, self.console.buffer) {
            self.script.forget();
        }
    }

    fn some_line(&mut self) -> Vec<u8> {
        let generator = &mut self.world.generator;
        let text = |bytes: Vec<u8>| String::from_utf8_lossy(&bytes).into_owned();
        let number = *generator.pick(&[0, 1, 2, 8, 9, 10, 32, 33, 34, 255, 256, 1024, 2048, 2049, 9999]);
        let digits = *generator.pick(&[0, 2, 30, 31, 32, 32, 32, 34, 78, 80, 82, 510, 512, 514]);
        let line = match generator.below(16) {
            0 => format!("tables {} {number}", generator.below(12)),
            1 => format!("usable {number}"),
            2 => format!("buffer {number}"),
            3 => format!("clock {}", text(generator.timestamp().to_vec())),
            4 => "identity SMID.1:Prism:12345678:20130303T153830Z:E7C42215AF1FE951:9C7D".to_string(),
            5 => "loadreq VKLOAD.REQ.1".to_string(),
            6 => format!("{} {}", generator.pick(&["tag", "check", "clock", "loadreq"]), text(generator.hex(digits))),
            7 => format!("passed {}", generator.pick(&["yes", "no"])),
            8 => format!("send {}", generator.pick(&["", "SM?GL", "GL?RS", "SM?GAN1~", "SM?KQPKMC~", "SM?KDN2~"])),
            9 => format!("raw {}", text(generator.hex(digits))),
            10 => generator.pick(&["raw", "rows", "tables", "send", "tag", "usable", "slot", "register"]).to_string(),
            11..=12 => {
                let (name, fingerprint, tvp) = (generator.hex(80), generator.hex(32), generator.hex(digits));
                let row = generator.below(10);
                format!("slot {row} {number} {} {} {}", text(name), text(fingerprint), text(tvp))
            }
            13 => format!("register {} {number} {}", generator.below(35), text(generator.hex(digits))),
            14 => generator.pick(&["passed", "passed maybe", "Rows", "rows 1", "show ", "tables 8", "#"]).to_string(),
            _ => format!("usable {}", generator.pick(&[2_147_483_647u64, 2_147_483_648, 4_294_967_297, u64::MAX])),
        };
        line.into_bytes()
    }

    /// A line as long as its form allows, or somewhat longer; or any bytes.
    fn long_line(&mut self) {
        let generator = &mut self.world.generator;
        let more = *generator.pick(&[0, 0, 1, 2, 1000]);
        let line = match generator.below(6) {
            0 => vec![b'#'; 4096 + more],
            1 => [b"raw ".to_vec(), generator.hex(4092 + more)].concat(),
            2 => [b"send ".to_vec(), vec![b'~'; 2043 + more]].concat(),
            3 => {
                let part = *generator.pick(&["clock ", "identity ", "loadreq ", "tag ", "check "]);
                [part.as_bytes(), &vec![b'0'; 1024 + more]].concat()
            }
            _ => (0..generator.below(300)).map(|_| generator.byte()).filter(|&byte| byte != b'\n').collect(),
        };
        self.put(&line);
    }
}

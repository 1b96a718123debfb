//! The console's lines: each form, each way to be in none, counts and lengths at their edges, any bytes.

use reference::console::{self, Console};
use reference::harness::generator::Generator;
use reference::harness::random_script::random_script;
use reference::harness::tables::Tables;
use reference::harness::{requests, scenes};

const OWN: &str = "SMID.1:Prism:12345678:20130303T153830Z:E7C42215AF1FE951:9C7D";
const KMC: &str = "KMCID.1:SW1:A:20200101T000000Z:AAAAAAAAAAAAAAAA:9BE0";
const BEGIN: &str = "SM?KCPPK.ECDH.1|KMCID.1:SW1:A:20200101T000000Z:AAAAAAAAAAAAAAAA:9BE0|04|20300101T000000Z|||BE23~";
const LOAD: &str =
    "SM?KLPA~PKEY.1|01|ACT20130716T151031Z;BDT20130716T151031Z;DKG04;KEN255;KRN6;KTC2;SGC0000758825;|02|0E6B~";
const CARD: &str = "ACT20130716T151031Z;BDT20130716T151031Z;CLMFFFFFFFF;CLU0;DKG04;IUT20380119T031407Z;KCV000000;KEN255;KRN6;KSLA;KTC2;SBMFFFF;SGC0000758825;ULM999999999;VND0;";

fn print(script: &[u8]) -> String {
    let mut output = Vec::new();
    console::run(script, &mut output).unwrap();
    String::from_utf8(output).unwrap()
}

/// What the last line prints after its number.
fn last(script: &str) -> String {
    let output = print(script.as_bytes());
    output.lines().last().unwrap_or_default().split_once(' ').unwrap_or_default().1.to_string()
}

fn respond() -> String {
    let request = requests::respond(KMC.as_bytes(), OWN.as_bytes(), b"20260101T000000Z", &[b'0'; 48]);
    String::from_utf8_lossy(&request[..request.len() - 5]).into_owned()
}

fn slot(number: usize, state: u8, name: &str, fingerprint: &str, tvp: &str) -> String {
    let mut tables = Tables::empty(8, 32);
    tables.put_slot(0, state, name.as_bytes(), fingerprint.as_bytes(), tvp.as_bytes());
    console::slot_line(number, &tables.slots[0])
}

fn register(number: usize, mark: u8, card: &str) -> String {
    let mut tables = Tables::empty(8, 32);
    tables.put_card(0, card.as_bytes());
    tables.registers[0].mark = mark;
    console::register_line(number, &tables.registers[0])
}

/// The supplement at the start is in every answer of a session.
#[test]
fn a_session_from_the_start() {
    let script = format!("send {BEGIN}\nrows\nsend {}\nsend {LOAD}\nusable 1\nrows\nsend SM?KFPA~\nusable 1\nrows\nsend SM?KXPA~\nusable 1\nrows\n", respond());
    let pending = slot(1, 1, "A", "AAAAAAAAAAAAAAAA", "20260101T000000Z");
    let loading = slot(1, 2, "A", "AAAAAAAAAAAAAAAA", "");
    let idle = slot(1, 3, "A", "AAAAAAAAAAAAAAAA", "");
    let loaded = String::from_utf8(requests::frame(b"SM!KL", format!("00N1~P{CARD}~").as_bytes())).unwrap();
    assert_eq!(
        print(script.as_bytes()),
        format!(
            "1 0 PENDING SM!KC00PA~PVKLOAD.REQ.1~757E\n{pending}\n3 0 LOADING SM!KR00PA~1A50\n4 0 LOADING {}\n5 no\n\
             {loading}\n{}\n7 0 IDLE SM!KF00FA32\n8 yes\n{idle}\n{}\n10 0 FREE SM!KX00FC52\n11 no\n",
            loaded.trim_end(),
            register(1, 1, CARD),
            register(1, 0, CARD)
        )
    );
}

#[test]
fn the_start() {
    let Console { tables, supplement, buffer } = Console::default();
    assert!(tables == Tables::empty(8, 32));
    assert_eq!(buffer, 1024);
    assert_eq!(&supplement.clock, b"20260101T000000Z");
    assert_eq!(supplement.own_identity(), Some(OWN.as_bytes()));
    assert_eq!(supplement.load_request(), Some(&b"VKLOAD.REQ.1"[..]));
    assert_eq!((supplement.tag, supplement.check, supplement.passed), ([b'0'; 48], [b'0'; 6], 1));
}

/// Each line in form, and whether it prints; those that print nothing still do what they say.
#[test]
fn forms() {
    let zeros = |digits: usize| "0".repeat(digits);
    for line in ["", "#", "# any \u{e9}\r", "#?", "show", "rows", "tables 8 32", "buffer 1024", "passed yes", "clock "]
    {
        assert_eq!(print(line.as_bytes()), "", "{line}");
    }
    for part in ["clock", "identity", "loadreq", "tag", "check"] {
        for value in ["", " ", "  two  spaces ", "\r", "?", "#"] {
            assert_eq!(print(format!("{part} {value}").as_bytes()), "", "{part} {value}");
        }
    }
    assert_eq!(print(b"send GL?RS\n"), "1 0 - GL!RS00B271\n");
    assert_eq!(print(b"send "), "1 5 - GL!EREEPKM.05~CA15\n");
    assert_eq!(print(b"raw\nraw \n"), "1 5 - GL!EREEPKM.05~CA15\n2 5 - GL!EREEPKM.05~CA15\n");
    assert_eq!(print(b"raw 474C3F5253434545460D"), "1 0 - GL!RS00B271\n");
    // A carriage return is a byte as any other.
    assert_eq!(print(b"send GL?RS\r\n"), "1 5 - GL!EREEPKM.05~CA15\n");
    assert_eq!(print(b"usable 0\nusable 1\nusable 2147483647\n"), "1 no\n2 no\n3 no\n");
    let line = format!("slot 8 255 {} {} {}", "FF".repeat(40), zeros(32), "0A".repeat(16));
    assert_eq!(print(format!("{line}\nrows\n").as_bytes()), format!("{line}\n"));
    let line = format!("register 32 255 {}0F", zeros(510));
    assert_eq!(print(format!("{line}\nrows\n").as_bytes()), format!("{line}\n"));
    // A row of zeros is free, and not printed; a state alone is content, and so is a mark.
    assert_eq!(print(format!("register 1 0 {}\nrows\n", zeros(512)).as_bytes()), "");
    let line = format!("register 1 1 {}", zeros(512));
    assert_eq!(print(format!("{line}\nrows\n").as_bytes()), format!("{line}\n"));
    assert_eq!(print(format!("slot 1 0 {} {} {}\nrows\n", zeros(80), zeros(32), zeros(32)).as_bytes()), "");
    let line = format!("slot 1 1 {} {} {}", zeros(80), zeros(32), zeros(32));
    assert_eq!(print(format!("{line}\nrows\n").as_bytes()), format!("{line}\n"));
    // New tables are all zero.
    assert_eq!(print(format!("{line}\ntables 8 32\nrows\n").as_bytes()), "");
}

/// A line in no form prints `?` and changes nothing.
#[test]
fn in_no_form() {
    let zeros = |digits: usize| "0".repeat(digits);
    let mut lines: Vec<String> = [
        " ",
        "?",
        " #",
        "Rows",
        "rows ",
        "rows 1",
        "row",
        "show ",
        "show all",
        "shows",
        "tables",
        "tables ",
        "tables 8",
        "tables 8 ",
        "tables 8 32 ",
        "tables 8 32 1",
        "tables  8 32",
        "tables 8  32",
        "tables 08 32",
        "tables 8 032",
        "tables 10 32",
        "tables 8 34",
        "tables -1 32",
        "tables +8 32",
        "tables 8 32\r",
        "tables 8,32",
        "tables eight 32",
        "tables 00 32",
        "tables 18446744073709551624 32",
        "Tables 8 32",
        " tables 8 32",
        "buffer",
        "buffer ",
        "buffer 2049",
        "buffer 01024",
        "buffer 1024 ",
        "buffer -1",
        "buffer 4294968320",
        "buffer 1e3",
        "buffer 0x10",
        "clock",
        "identity",
        "loadreq",
        "tag",
        "check",
        "clocks x",
        "Clock x",
        "clock\t20260101T000000Z",
        "passed",
        "passed ",
        "passed YES",
        "passed y",
        "passed yes ",
        "passed  yes",
        "passed 1",
        "passed yes no",
        "send",
        "Send x",
        "sendGL?RS",
        "raw 4",
        "raw 4d",
        "raw 4G",
        "raw 4D ",
        "raw 4D 4D",
        "raw  4D",
        "raw4D",
        "raw 4D\r",
        "slot",
        "slot 1",
        "register",
        "register 1",
        "register 1 ",
        "register 1 0",
        "register 1 0 ",
        "usable",
        "usable ",
        "usable 01",
        "usable 1 ",
        "usable -1",
        "usable 2147483648",
        "usable 4294967296",
        "usable 18446744073709551617",
        "usable 1 2",
        "usable one",
        "\r",
        "\t",
    ]
    .map(String::from)
    .to_vec();
    let (name, sixteen, card) = (zeros(80), zeros(32), "AB".repeat(256));
    for (row, state, name, fingerprint, tvp) in [
        ("0", "0", &name[..], &sixteen[..], &sixteen[..]),
        ("9", "0", &name, &sixteen, &sixteen),
        ("01", "0", &name, &sixteen, &sixteen),
        ("", "0", &name, &sixteen, &sixteen),
        ("1", "256", &name, &sixteen, &sixteen),
        ("1", "00", &name, &sixteen, &sixteen),
        ("1", "IDLE", &name, &sixteen, &sixteen),
        ("1", "", &name, &sixteen, &sixteen),
        ("1", "3", &name[2..], &sixteen, &sixteen),
        ("1", "3", &name[1..], &sixteen, &sixteen),
        ("1", "3", &(zeros(82)), &sixteen, &sixteen),
        ("1", "3", &(zeros(79) + "a"), &sixteen, &sixteen),
        ("1", "3", &name, &sixteen[2..], &sixteen),
        ("1", "3", &name, &(zeros(34)), &sixteen),
        ("1", "3", &name, &sixteen, &sixteen[2..]),
        ("1", "3", &name, &sixteen, &(zeros(34))),
        ("1", "3", &name, &sixteen, &(zeros(31) + "G")),
        ("1", "3", &name, &sixteen, &(zeros(32) + " ")),
        ("1", "3", &name, &sixteen, &(zeros(32) + " 1")),
        (" 1", "3", &name, &sixteen, &sixteen),
        ("1 ", "3", &name, &sixteen, &sixteen),
        ("1", "3", "", &sixteen, &sixteen),
    ] {
        lines.push(format!("slot {row} {state} {name} {fingerprint} {tvp}"));
    }
    lines.push(format!("slot 1 3 {name} {sixteen}"));
    for (row, mark, card) in [
        ("0", "0", &card[..]),
        ("33", "0", &card),
        ("01", "0", &card),
        ("", "0", &card),
        ("1", "", &card),
        ("1", "00", &card),
        ("1", "01", &card),
        ("1", "256", &card),
        ("1", "257", &card),
        ("1", "-1", &card),
        ("1", "open", &card),
        ("1", "1 ", &card),
        ("1", " 1", &card),
        ("1", "1 1", &card),
        ("1", "4294967297", &card),
        ("1", "18446744073709551617", &card),
        ("1", "1", ""),
        ("1", "0", &card[2..]),
        ("1", "0", &card[1..]),
        ("1", "0", &("AB".repeat(257))),
        ("1", "0", &card.to_lowercase()),
        ("1", "0", &(card.clone() + " ")),
        ("1", "0", &(card.clone() + " 0")),
        ("1 1", "0", &card),
    ] {
        lines.push(format!("register {row} {mark} {card}"));
    }
    // A card without its mark, and the mark after it.
    lines.extend([format!("register 1 {card}"), format!("register 1 {card} 0")]);
    for line in &lines {
        let mut console = filled();
        let before = (console.tables.clone(), console.supplement, console.buffer);
        assert_eq!(console.line(7, line.as_bytes()), "7 ?\n", "{line}");
        assert!(before == (console.tables, console.supplement, console.buffer), "{line}");
    }
    // Reading goes on.
    let script = lines.join("\n") + "\nsend GL?RS\n";
    let output = print(script.as_bytes());
    assert_eq!(output.lines().count(), lines.len() + 1);
    for (place, line) in output.lines().take(lines.len()).enumerate() {
        assert_eq!(line, format!("{} ?", place + 1));
    }
    assert_eq!(output.lines().last(), Some(&format!("{} 0 - GL!RS00B271", lines.len() + 1)[..]));
}

/// A console whose every part differs from the start's.
fn filled() -> Console {
    Console {
        tables: Tables { slot_count: 8, register_count: 32, ..scenes::tables() },
        supplement: scenes::supplement(),
        buffer: 1100,
    }
}

#[test]
fn row_numbers_that_the_tables_lack() {
    let (a, card) = (slot(3, 3, "A", "AAAAAAAAAAAAAAAA", ""), register(4, 0, CARD));
    assert_eq!(print(format!("tables 2 3\n{a}\n{card}\nrows").as_bytes()), "2 ?\n3 ?\n");
    assert_eq!(print(format!("tables 3 4\n{a}\n{card}\nrows").as_bytes()), format!("{a}\n{card}\n"));
    assert_eq!(print(format!("tables 0 0\n{}\n{}", a.replace("slot 3", "slot 1"), card).as_bytes()), "2 ?\n3 ?\n");
    // Tables of 9 and 33 rows: the last ones cannot be named.
    let (ninth, last) = (slot(9, 3, "A", "AAAAAAAAAAAAAAAA", ""), register(33, 0, CARD));
    assert_eq!(print(format!("tables 9 33\n{ninth}\n{last}\n{a}\nrows").as_bytes()), format!("2 ?\n3 ?\n{a}\n"));
}

/// Questions 1 and 2, and the edges of each count.
#[test]
fn counts() {
    for slots in 0..=9 {
        for registers in [0, 1, 2, 31, 32, 33] {
            let in_range = (1..=8).contains(&slots) && (1..=32).contains(&registers);
            let due = if in_range { "0 - GL!RS00B271" } else { "1 - -" };
            assert_eq!(last(&format!("tables {slots} {registers}\nsend GL?RS")), due);
            assert_eq!(last(&format!("tables {slots} {registers}\nusable 1")), "no");
        }
    }
    for (buffer, due) in [(0, "2 - -"), (1, "2 - -"), (1023, "2 - -"), (1024, "0 - GL!RS00B271")] {
        assert_eq!(last(&format!("buffer {buffer}\nsend GL?RS")), due);
    }
    assert_eq!(last("buffer 2048\nsend GL?RS"), "0 - GL!RS00B271");
    assert_eq!(last("buffer 1023\nbuffer 2049\nsend GL?RS"), "2 - -");
}

/// What does not fit the struct is refused with 4, after questions 1 to 3.
#[test]
fn parts_of_the_supplement() {
    let long = |length: usize| "0".repeat(length);
    for (line, outcome) in [
        ("clock 20260101T000000Z".to_string(), 0),
        ("clock ".to_string(), 4),
        ("clock 20260101T000000".to_string(), 4),
        ("clock 20260101T000000ZZ".to_string(), 4),
        ("clock 20260101T000000Z ".to_string(), 4),
        ("clock 20260101T000000Z\r".to_string(), 4),
        (format!("clock {}", long(1024)), 4),
        (format!("tag {}", "F".repeat(48)), 0),
        (format!("tag {}", long(47)), 4),
        (format!("tag {}", long(49)), 4),
        ("check FFFFFF".to_string(), 0),
        ("check 00000".to_string(), 4),
        ("check 0000000".to_string(), 4),
        ("check ffffff".to_string(), 4),
        (format!("identity {OWN}"), 0),
        (format!("identity {OWN} "), 4),
        ("identity ".to_string(), 4),
        (format!("identity {}", long(128)), 4),
        (format!("identity {}", long(129)), 4),
        (format!("identity {}", long(1024)), 4),
        ("loadreq  ".to_string(), 0),
        ("loadreq ".to_string(), 4),
        ("loadreq ~".to_string(), 4),
        (format!("loadreq {}", long(700)), 0),
        (format!("loadreq {}", long(701)), 4),
        (format!("loadreq {}", long(1024)), 4),
        ("passed no".to_string(), 0),
    ] {
        let due = if outcome == 0 { "0 - GL!RS00B271" } else { "4 - -" };
        assert_eq!(last(&format!("{line}\nsend GL?RS")), due, "{line}");
        // The part as it was makes it good again.
        let start = format!("clock 20260101T000000Z\nidentity {OWN}\nloadreq x\ntag {}\ncheck 000000", long(48));
        assert_eq!(last(&format!("{line}\n{start}\nsend GL?RS")), "0 - GL!RS00B271", "{line}");
    }
    // The longest identity in form has 127 bytes.
    let names = [b'm'; 40];
    let longest = requests::identity(b"SMID.1", &names, &names, b"20130303T153830Z", b"E7C42215AF1FE951");
    assert_eq!(longest.len(), 127);
    assert_eq!(last(&format!("identity {}\nsend GL?RS", String::from_utf8_lossy(&longest))), "0 - GL!RS00B271");
    for part in ["clock", "identity", "loadreq", "tag", "check"] {
        assert_eq!(print(format!("{part} {}", long(1024)).as_bytes()), "");
        assert_eq!(print(format!("{part} {}", long(1025)).as_bytes()), "1 ?\n");
    }
    let bad = format!("identity {}\nclock x", long(1024));
    assert_eq!(last(&format!("{bad}\ntables 0 1\nsend ")), "1 - -");
    assert_eq!(last(&format!("{bad}\nbuffer 1023\nsend ")), "2 - -");
    assert_eq!(last(&format!("{bad}\n{}\nsend ", slot(1, 4, "A", "", ""))), "3 - -");
    assert_eq!(last(&format!("{bad}\nsend ")), "4 - -");
}

#[test]
fn the_check() {
    assert_eq!(last(&format!("passed no\nsend {BEGIN}")), "19 - SM!KCEEPKM.19~2733");
    assert_eq!(last(&format!("passed no\npassed yes\nsend {BEGIN}")), "0 PENDING SM!KC00PA~PVKLOAD.REQ.1~757E");
}

/// Lengths of lines and requests at their edges.
#[test]
fn lengths() {
    let long = |byte: &str, length: usize| byte.repeat(length);
    assert_eq!(print(long("#", 4096).as_bytes()), "");
    assert_eq!(print((long("#", 4096) + "\n").as_bytes()), "");
    for length in [4097, 4098, 8192, 100_000] {
        for end in ["", "\n"] {
            let line = long("#", length) + end;
            assert_eq!(print(line.as_bytes()), "1 ?\n");
            assert_eq!(print((line + "\nsend GL?RS").as_bytes()).lines().next(), Some("1 ?"));
        }
    }
    // A line that is too long is one line.
    let script = long("rows ", 5000) + "\nsend GL?RS\n";
    assert_eq!(print(script.as_bytes()), "1 ?\n2 0 - GL!RS00B271\n");
    let script = long("\n", 3) + &long("x", 4097) + "\n\nraw\n";
    assert_eq!(print(script.as_bytes()), "4 ?\n6 5 - GL!EREEPKM.05~CA15\n");
    // Requests: 2,048 bytes sent, 2,046 handed in as they are.
    let refused = "5 - GL!EREEPKM.05~CA15";
    assert_eq!(last(&format!("send {}", long("x", 2043))), refused);
    assert_eq!(last(&format!("send {}", long("x", 2044))), "?");
    assert_eq!(last(&format!("raw {}", long("00", 2046))), refused);
    assert_eq!(last(&format!("raw {}", long("00", 2047))), "?");
    assert_eq!(last(&format!("raw {}0", long("00", 2045))), "?");
    // Question 5 at its edges, through both lines: 1,024 bytes are a right length, 1,025 are not.
    assert_eq!(last(&format!("send SM?KX{}", long("x", 1014))), "8 - SM!KXEEPKM.08~0713");
    assert_eq!(last(&format!("send SM?KX{}", long("x", 1015))), refused);
    assert_eq!(last("send SM?K"), refused);
}

#[test]
fn where_lines_end() {
    assert_eq!(print(b""), "");
    assert_eq!(print(b"\n"), "");
    assert_eq!(print(b"?"), "1 ?\n");
    assert_eq!(print(b"?\n"), "1 ?\n");
    assert_eq!(print(b"?\n\n"), "1 ?\n");
    assert_eq!(print(b"\n\n?"), "3 ?\n");
    assert_eq!(print(b"\r\n"), "1 ?\n");
    assert_eq!(print(b"raw\r\nraw"), "1 ?\n2 5 - GL!EREEPKM.05~CA15\n");
}

/// Is it a line that a console may print?
fn may_be_printed(line: &str) -> bool {
    let words: Vec<&str> = line.split(' ').collect();
    let hex = |word: &str, digits: usize| {
        word.len() == digits && word.bytes().all(|byte| byte.is_ascii_digit() || (b'A'..=b'F').contains(&byte))
    };
    let number = |word: &str, from: u64, to: u64| {
        word.parse::<u64>().is_ok_and(|value| (from..=to).contains(&value) && value.to_string() == word)
    };
    match words[..] {
        [line, "?" | "yes" | "no"] => number(line, 1, u64::MAX),
        ["slot", row, state, name, fingerprint, tvp] => {
            number(row, 1, 8) && number(state, 0, 255) && hex(name, 80) && hex(fingerprint, 32) && hex(tvp, 32)
        }
        ["register", row, mark, card] => number(row, 1, 32) && number(mark, 0, 255) && hex(card, 512),
        // A response may have spaces in it.
        [line, outcome, "FREE" | "PENDING" | "LOADING" | "IDLE" | "-", response, ..] => {
            let silent = number(outcome, 1, 4);
            number(line, 1, u64::MAX)
                && number(outcome, 0, 21)
                && silent == (response == "-")
                && (silent || ["SM!", "GL!"].contains(&&response[..3]))
        }
        _ => false,
    }
}

#[test]
fn any_bytes() {
    let mut generator = Generator::new(11);
    for length in [1, 2, 10, 100, 1000, 10_000, 100_000] {
        for _ in 0..20 {
            // All bytes alike, or bytes that lines are made of.
            let narrow = generator.chance(50);
            let script: Vec<u8> = (0..length)
                .map(|_| match narrow {
                    true => *generator.pick(b"\n\n rawsend#04DF?\r\0"),
                    false => generator.byte(),
                })
                .collect();
            let output = print(&script);
            assert!(output.lines().all(may_be_printed), "{output}");
            let lines = script.split_inclusive(|&byte| byte == b'\n').count();
            assert!(output.lines().count() <= lines);
            assert!(output.is_empty() || output.ends_with('\n'));
        }
    }
}

/// Cut into pieces of any length the input is the same script.
#[test]
fn pieces_of_input() {
    let script = random_script(5, 300);
    for capacity in [1, 2, 7, 4096, 4097] {
        let mut output = Vec::new();
        console::run(std::io::BufReader::with_capacity(capacity, &script[..]), &mut output).unwrap();
        assert_eq!(String::from_utf8(output).unwrap(), print(&script));
    }
}

/// What `rows` prints makes the same rows again.
#[test]
fn rows_read_back() {
    for seed in 0..20 {
        let mut console = Console::default();
        for (place, line) in random_script(seed, 200).split(|&byte| byte == b'\n').enumerate() {
            console.line(place as u64 + 1, line);
        }
        let rows = console.line(1, b"rows");
        let mut other = Console::default();
        other.line(1, format!("tables {} {}", console.tables.slot_count, console.tables.register_count).as_bytes());
        for line in rows.lines() {
            assert_eq!(other.line(1, line.as_bytes()), "");
        }
        assert!(other.tables == console.tables);
    }
}

/// Random scripts bring about every outcome, and every kind of line.
#[test]
fn random_scripts() {
    let mut outcomes = [0; 22];
    let (mut no_form, mut yes, mut no, mut rows) = (0, 0, 0, 0);
    for seed in 1..=30 {
        let script = random_script(seed, 1000);
        assert_eq!(script, random_script(seed, 1000));
        assert!(script.split(|&byte| byte == b'\n').all(|line| line != b"show"));
        let output = print(&script);
        for line in output.lines() {
            assert!(may_be_printed(line), "{line}");
            match line.split(' ').collect::<Vec<_>>()[..] {
                ["slot" | "register", ..] => rows += 1,
                [_, "?"] => no_form += 1,
                [_, "yes"] => yes += 1,
                [_, "no"] => no += 1,
                [_, outcome, ..] => outcomes[outcome.parse::<usize>().unwrap()] += 1,
                _ => unreachable!(),
            }
        }
    }
    println!("{outcomes:?}, {no_form} in no form, {yes} yes, {no} no, {rows} rows");
    assert!(outcomes.iter().all(|&count| count > 0), "{outcomes:?}");
    assert!(no_form > 0 && yes > 0 && no > 0 && rows > 0);
}

/// A list is in ascending byte sequence, whichever rows the slots have (document 02, N1).
#[test]
fn lists() {
    assert_eq!(last("send SM?GL"), "0 - SM!GL00A811");
    for rows in [["a", "B", "AB", "Z", "A"], ["A", "AB", "B", "Z", "a"], ["AB", "A", "Z", "a", "B"]] {
        let places = [1, 3, 4, 6, 8].into_iter().zip(rows);
        let script: String = places.map(|(place, name)| slot(place, 3, name, "AAAAAAAAAAAAAAAA", "") + "\n").collect();
        assert_eq!(last(&(script + "send SM?GL")), "0 - SM!GL00PA~PAB~PB~PZ~Pa~62A4");
    }
}

/// Every number as a mark (document 02, N3): the line puts it and `rows` prints it. Open is sound under PENDING and
/// LOADING, and no mark but 0 beside a card of zeros.
#[test]
fn marks() {
    let owners = [(1, "20260101T000000Z"), (2, ""), (3, "")]
        .map(|(state, tvp)| (state, slot(1, state, "A", "AAAAAAAAAAAAAAAA", tvp)));
    for mark in 0..=255 {
        for (state, owner) in &owners {
            let rows = format!("{owner}\n{}\n", register(2, mark, CARD));
            assert_eq!(print(format!("{rows}rows").as_bytes()), rows);
            let sound = mark == 0 || mark == 1 && *state != 3;
            let due = if sound { "0 - SM!GL00PA~A49F" } else { "3 - -" };
            assert_eq!(last(&format!("{rows}send SM?GL")), due, "{mark} under {state}");
            assert_eq!(last(&format!("{rows}usable 2")), if mark == 0 { "yes" } else { "no" }, "{mark} under {state}");
        }
        let line = register(2, mark, "");
        let due = if mark == 0 { "0 - SM!GL00A811" } else { "3 - -" };
        assert_eq!(last(&format!("{line}\nsend SM?GL")), due, "{mark} beside zeros");
        assert_eq!(last(&format!("{line}\nusable 2")), "no", "{mark} beside zeros");
    }
}

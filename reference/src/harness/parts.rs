//! The fixed parts of a run, and the calls with several faults at once.

use super::scenes::{self, begin, good, kmc, load, CARD, CLOCK, FINGERPRINT, STORED, TAG};
use super::tables::Tables;
use super::world::{own_identity, World};
use super::{requests, Bench, LONGEST_BUFFER};
use crate::rows::{IDLE, LOADING, OPEN, PENDING};
use crate::{crc, records, Command, RegisterRow, SlotRow};

/// Cases whose outcome the paper says in words; each refusal is among them.
pub fn named_cases(bench: &mut Bench) -> Result<(), String> {
    let supplement = scenes::supplement();
    let full = full_tables(8, 32, LOADING);
    let mut not_passed = supplement;
    not_passed.passed = 0;

    // Acceptance of every command; the scenes have one key that is usable.
    bench.expect_usable(&scenes::tables(), &|register| register == 2)?;
    for mut scene in scenes::all() {
        bench.expect(0, &mut scene.tables, &scene.supplement, &scene.request, 1024)?;
        for register in 0..=4 {
            bench.usable(&scene.tables, register)?;
        }
    }
    // 5: length, and the only carriage return at the end.
    let reset = requests::bare(Command::RS);
    for request in [&b""[..], b"\r", &reset[..9], &reset[1..], b"GL?RS\r0000\r", b"GL?RS00000\n"] {
        bench.expect(5, &mut scenes::tables(), &supplement, request, 1024)?;
    }
    // A request of 1,024 bytes is right, one of 1,025 is 5.
    for (length, outcome) in [(1024, 0), (1025, 5)] {
        let padding = length - load(&[CARD, b"ZZZ;"].concat()).len();
        let card = [CARD, b"ZZZ", &vec![b'x'; padding], b";"].concat();
        bench.expect(outcome, &mut scenes::tables(), &supplement, &load(&card), 1024)?;
    }
    // 6: wrong, in small letters, no hexadecimal at all; 7.
    for request in [&b"SM?DI0000\r"[..], b"SM?DI9a51\r", b"SM?DI~~~~\r"] {
        bench.expect(6, &mut scenes::tables(), &supplement, request, 1024)?;
    }
    for header in [&b"SM?DI"[..], b"SM!KC", b"sm?kc", b"SM?KK"] {
        bench.expect(7, &mut scenes::tables(), &supplement, &requests::frame(header, b""), 1024)?;
    }
    bench.expect(7, &mut scenes::tables(), &supplement, b"SM?JUNK420B\r", 1024)?;
    // 8: each fault of a field.
    for payload in
        ["", "N", "N~", "N01~", "N2147483648~", "N1", "P1~", "D20140103154054~", "H01~", "N1~N1~", "N1~~", "N1 ~", "~"]
    {
        for command in [Command::KD, Command::GA] {
            let request = requests::frame(command.header(), payload.as_bytes());
            bench.expect(8, &mut scenes::tables(), &supplement, &request, 1024)?;
        }
    }
    for payload in [
        &b""[..],
        b"P",
        b"PKMC2",
        b"N1~",
        b"PKMC2~P~",
        b"PKMC2~x",
        b"P\x7F~",
        b"P\x1F~",
        b"P\x80~",
        b"P\0~",
        b"PKMC2~~",
    ] {
        for command in [Command::KF, Command::KX, Command::KQ, Command::KC, Command::KR, Command::KL] {
            // Two strings are the fields of KL, and the second one is no record.
            let outcome = if command == Command::KL && payload == b"PKMC2~P~" { 9 } else { 8 };
            let request = requests::frame(command.header(), payload);
            bench.expect(outcome, &mut scenes::tables(), &supplement, &request, 1024)?;
        }
    }
    for command in [Command::RS, Command::GL] {
        for payload in [&b"N1~"[..], b"P~", b"~", b" "] {
            let request = requests::frame(command.header(), payload);
            bench.expect(8, &mut scenes::tables(), &supplement, &request, 1024)?;
        }
    }
    // 9: type, count of fields, last delimiter, checksum in small letters, bytes after it.
    let identity = kmc(b"KMC1");
    let five: [&[u8]; 5] = [&identity, b"04", b"20130303T153840Z", b"", b""];
    let mut open = b"PK.ECDH.1|".to_vec();
    open.extend_from_slice(&[&identity, &b"|04|20130303T153840Z|||x"[..]].concat());
    let checksum = crc::digits(crc::modbus(&open));
    open.extend_from_slice(&checksum);
    let right = records::build(b"PK.ECDH.1", b'|', &five);
    let broken = [
        records::build(b"PK.ECDSA.1", b'|', &five),
        records::build(b"PK.ECDH.1", b'|', &five[..4]),
        records::build(b"PK.ECDH.1", b'|', &[five[0], five[1], five[2], five[3], five[4], b""]),
        records::build(b"PK.ECDH.1", b':', &five),
        records::build(b"PK.ECDH.1", b'|', &[b"", b"04", b"20130303T153840Z", b"", b""]),
        records::build(b"PK.ECDH.1", b'|', &[&own_identity(), b"04", b"20130303T153840Z", b"", b""]),
        [&right[..], b"|"].concat(),
        [&right[..right.len() - 4], &right[right.len() - 4..].to_ascii_lowercase()].concat(),
        open,
        b"PK.ECDH.1|".to_vec(),
        b"PK.ECDH.1".to_vec(),
        Vec::new(),
    ];
    for record in &broken {
        let request = requests::frame(Command::KC.header(), &requests::string(record));
        let outcome = if *record == right { 0 } else { 9 };
        bench.expect(outcome, &mut scenes::tables(), &supplement, &request, 1024)?;
    }
    // 9 before 10: a bad field beside an identity that does not parse.
    let request = requests::respond(&kmc(b"KMC2"), b"SMID.1:", b"x", b"y");
    bench.expect(9, &mut scenes::tables(), &supplement, &request, 1024)?;
    // 10: fields of the records.
    for request in [
        requests::begin(&kmc(b"_"), b"04", b"20130303T153840Z", [b"", b""]),
        requests::begin(&kmc(b""), b"04", b"20130303T153840Z", [b"", b""]),
        requests::begin(&kmc(&[b'k'; 41]), b"04", b"20130303T153840Z", [b"", b""]),
        requests::begin(&identity, b"", b"20130303T153840Z", [b"", b""]),
        requests::begin(&identity, b"0a", b"20130303T153840Z", [b"", b""]),
        requests::begin(&identity, b"04", b"20130229T153840Z", [b"", b""]),
        requests::begin(&identity, b"04", b"", [b"", b""]),
        requests::begin(&identity, b"04", b"20130303T153840Z", [b"0", b""]),
        requests::begin(&identity, b"04", b"20130303T153840Z", [b"", b"0"]),
        requests::respond(&kmc(b"KMC2"), &own_identity(), b"20130303T153839", TAG),
        requests::respond(&kmc(b"KMC2"), &own_identity(), CLOCK, &TAG[1..]),
        requests::respond(&kmc(b"KMC2"), &own_identity(), CLOCK, &TAG.to_ascii_lowercase()),
        requests::load(b"KMC1", b"", CARD, b"00"),
        requests::load(b"KMC1", b"00", CARD, b""),
        requests::load(b"KMC1", b"00", b"", b"00"),
        requests::load(b"", b"00", b"", b"00"),
    ] {
        bench.expect(10, &mut scenes::tables(), &supplement, &request, 1024)?;
    }
    bench.expect(0, &mut scenes::tables(), &supplement, &begin(&[b'k'; 40]), 1024)?;
    // Cards.
    let card = String::from_utf8_lossy(CARD).into_owned();
    for (from, to, outcome) in [
        ("KEN255;KRN6;", "KRN6;KEN255;", 10),
        ("KRN6", "KRN0", 10),
        ("KRN6", "KRN10", 10),
        ("KRN6", "KRN9", 0),
        ("KEN255", "KEN256", 10),
        ("KEN255", "KEN0", 0),
        ("KEN255", "KEN007", 10),
        ("KTC2", "KTC4", 10),
        ("KTC2", "KTC3", 0),
        ("DKG04", "DKG02", 0),
        ("DKG04", "DKG03", 10),
        ("DKG04", "DKG4", 10),
        ("SGC0000758825", "SGC9999999999", 0),
        ("SGC0000758825", "SGC758825", 10),
        ("DKG04", "CLM00000000;DKG04", 0),
        ("DKG04", "CLM0000000a;DKG04", 10),
        ("DKG04", "CLM;DKG04", 10),
        ("DKG04", "CLUx;DKG04", 0),
        ("DKG04", "CLU;DKG04", 10),
        ("KEN", "EXP;KEN", 0),
        ("KEN", "EX;KEN", 10),
        ("KEN", "EXPa;EXPb;KEN", 10),
        ("KEN", "AAAa;KEN", 10),
        ("KTC2", "KTC2;SBMFFFF", 0),
        ("KTC2", "KTC2;SBM", 10),
        ("SGC0000758825;", "", 10),
        ("SGC0000758825;", "SGC0000758825", 10),
        ("SGC0000758825;", "SGC0000758825;SGN;", 0),
        ("SGC0000758825;", "SGC0000758825;SGNx;", 0),
        ("SGC0000758825;", "SGC0000758825;SGNSURELOAD KMC TEST VUDK 1;ULM0;", 0),
        ("SGC0000758825;", "SGC0000758825;SGNSURELOAD KMC TEST VUDK 10;", 10),
        ("SGC0000758825;", "SGC0000758825;SGNx;SGNx;", 10),
        ("SGC0000758825;", "SGNx;SGC0000758825;", 10),
        ("SGC0000758825;", "SGC0000758825;ULM0;SGNx;", 10),
        ("SGC0000758825;", "SGC0000758825;ULM0;VND9;ZZZ;", 0),
        ("SGC0000758825;", "SGC0000758825;ULM999999999;", 0),
        ("SGC0000758825;", "SGC0000758825;ULM1000000000;", 10),
        ("SGC0000758825;", "SGC0000758825;ULM01;", 10),
        ("SGC0000758825;", "SGC0000758825;;", 10),
    ] {
        bench.expect(outcome, &mut scenes::tables(), &supplement, &load(card.replace(from, to).as_bytes()), 1024)?;
    }
    // 11: an expiry equal to the clock is not later.
    for (expiry, outcome) in
        [(CLOCK, 11), (b"20130303T153838Z", 11), (b"19000101T000000Z", 11), (b"99991231T235959Z", 0)]
    {
        bench.expect(
            outcome,
            &mut scenes::tables(),
            &supplement,
            &requests::begin(&identity, b"04", expiry, [b"", b""]),
            1024,
        )?;
    }
    // 12: names that are none.
    for slot in [&b""[..], b"kmc2", b"KMC", b"KMC22", b"KMC4", b"_", &[b'k'; 41], b"KMC2 "] {
        for command in [Command::KF, Command::KX, Command::KQ] {
            bench.expect(12, &mut scenes::tables(), &supplement, &requests::of_slot(command, slot), 1024)?;
        }
        bench.expect(12, &mut scenes::tables(), &supplement, &requests::load(slot, b"00", CARD, b"00"), 1024)?;
    }
    bench.expect(
        12,
        &mut scenes::tables(),
        &supplement,
        &requests::respond(&kmc(b"KMC4"), &own_identity(), CLOCK, TAG),
        1024,
    )?;
    // 13: with 8 slots used, a ninth KMCID; a known one passes.
    bench.expect(13, &mut full.clone(), &supplement, &begin(b"KMC9"), 1024)?;
    bench.expect(13, &mut full.clone(), &not_passed, &begin(b"KMC9"), 1024)?;
    bench.expect(0, &mut full.clone(), &supplement, &begin(b"KMC8"), 1024)?;
    // 14: in each state.
    for (state, kr, kl, kf) in [(PENDING, 0, 14, 0), (LOADING, 14, 0, 0), (IDLE, 14, 14, 14)] {
        let mut tables = Tables::empty(1, 1);
        put_slot(&mut tables, 0, state, b"KMC1");
        bench.expect(
            kr,
            &mut tables.clone(),
            &supplement,
            &requests::respond(&kmc(b"KMC1"), &own_identity(), CLOCK, TAG),
            1024,
        )?;
        bench.expect(kl, &mut tables.clone(), &supplement, &load(CARD), 1024)?;
        bench.expect(kf, &mut tables.clone(), &supplement, &requests::of_slot(Command::KF, b"KMC1"), 1024)?;
        bench.expect(0, &mut tables.clone(), &supplement, &requests::of_slot(Command::KX, b"KMC1"), 1024)?;
    }
    // 15 to 18, and which of several decides.
    let other = requests::identity(b"SMID.1", b"Prism", b"12345678", b"20130303T153831Z", b"E7C42215AF1FE951");
    let stranger = requests::identity(b"KMCID.1", b"ArbSWID", b"KMC2", b"20040101T120000Z", b"65AF90C4DBAF23D4");
    let later = b"20130303T153840Z";
    let forged = [b"B", &TAG[1..]].concat();
    for faults in 0..16 {
        let module = if faults & 1 > 0 { &other } else { &own_identity() };
        let centre = if faults & 2 > 0 { &stranger } else { &kmc(b"KMC2") };
        let tvp = if faults & 4 > 0 { later } else { CLOCK };
        let tag = if faults & 8 > 0 { &forged[..] } else { TAG };
        let outcome = (0..4).find(|bit| faults >> bit & 1 == 1).map_or(0, |bit| 15 + bit);
        // KR does not ask whether the check has passed.
        bench.expect(
            outcome,
            &mut scenes::tables(),
            &not_passed,
            &requests::respond(centre, module, tvp, tag),
            1024,
        )?;
    }
    // A KMC identity that differs in SWID and time only is the slot's.
    let renewed = requests::identity(b"KMCID.1", b"Other", b"KMC2", b"20140101T120000Z", FINGERPRINT);
    bench.expect(
        0,
        &mut scenes::tables(),
        &supplement,
        &requests::respond(&renewed, &own_identity(), CLOCK, TAG),
        1024,
    )?;
    // 19, before 20.
    bench.expect(19, &mut scenes::tables(), &not_passed, &begin(b"KMC1"), 1024)?;
    bench.expect(19, &mut full.clone(), &not_passed, &load(CARD), 1024)?;
    // 20: all registers filled; a key that is held passes.
    bench.expect(20, &mut full.clone(), &supplement, &load(CARD), 1024)?;
    let held = card.replace("SGC0000758825", "SGC0000000031").replace("KRN6", "KRN1");
    bench.expect(0, &mut full.clone(), &supplement, &load(held.as_bytes()), 1024)?;
    // 21: free, 0, beyond the rows.
    for register in [0, 3, 4, 32, 33, 255, 256, 65_537, 2_147_483_647] {
        for command in [Command::KD, Command::GA] {
            bench.expect(21, &mut scenes::tables(), &supplement, &requests::of_register(command, register), 1024)?;
        }
    }
    Ok(())
}

/// Questions 1 to 6 and 8 refuse every command, each before the next.
pub fn first_questions(bench: &mut Bench) -> Result<(), String> {
    for scene in scenes::all() {
        let (header, payload) = scene.request[..scene.request.len() - 5].split_at(5);
        let over = requests::frame(header, &[payload, b"N1~"].concat());
        let wrong = [&over[..over.len() - 5], b"....\r"].concat();
        let torn = &wrong[..wrong.len() - 1];
        bench.expect(8, &mut scene.tables.clone(), &scene.supplement, &over, 1024)?;
        bench.expect(6, &mut scene.tables.clone(), &scene.supplement, &wrong, 1024)?;
        bench.expect(5, &mut scene.tables.clone(), &scene.supplement, torn, 1024)?;
        let mut bad = scene.supplement;
        bad.passed = 2;
        bench.expect(4, &mut scene.tables.clone(), &bad, torn, 1024)?;
        let mut unsound = scene.tables.clone();
        unsound.slots[3].tvp[0] = 1;
        bench.expect(3, &mut unsound, &bad, torn, 1024)?;
        bench.expect(2, &mut unsound, &bad, torn, 1023)?;
        unsound.register_count = 0;
        bench.expect(1, &mut unsound, &bad, torn, 1023)?;
    }
    Ok(())
}

/// A name of 40 bytes.
pub(super) fn long_name(place: usize) -> Vec<u8> {
    format!("{place}{}", "k".repeat(39)).into_bytes()
}

/// SM?KQ, SM?GA and `usable` over rows chosen for them.
pub fn reading(bench: &mut Bench) -> Result<(), String> {
    let supplement = scenes::supplement();
    let states = [PENDING, LOADING, IDLE];
    for state in states {
        for other in states {
            for keys in 0..=32 {
                two_slots(bench, state, other, keys)?;
            }
        }
    }
    // The longest card, the longest one without SGN, and the shortest.
    let without = card_of(0, &long_name(0)).replace("VND0", "VND999999999");
    let longest = without.replace("KRN1", "KRN2").replace("ULM", "SGNSURELOAD KMC TEST VUDK 1;ULM");
    let shortest = card_of(1, b"k").replace("KEN255", "KEN0").replace("ULM999999999", "ULM0");
    assert_eq!((longest.len(), without.len(), shortest.len()), (230, 202, 145));
    let mut tables = Tables::empty(2, 3);
    put_slot(&mut tables, 0, IDLE, b"k");
    put_slot(&mut tables, 1, LOADING, &long_name(0));
    tables.put_open_card(0, longest.as_bytes());
    tables.put_card(1, shortest.as_bytes());
    tables.put_open_card(2, without.as_bytes());
    for (register, card) in [(1, longest), (2, shortest), (3, without)] {
        bench.expect(0, &mut tables, &supplement, &requests::of_register(Command::GA, register), 1024)?;
        if bench.answer() != requests::frame(b"SM!GA", format!("00P{card}~").as_bytes()) {
            return Err(format!("register {register} does not tell its card"));
        }
    }
    bench.expect_usable(&tables, &|register| register == 2)
}

/// A slot in a state with some of 32 keys, and one beside it with the others; then the first alone.
fn two_slots(bench: &mut Bench, state: u8, other: u8, keys: usize) -> Result<(), String> {
    let supplement = scenes::supplement();
    let name = long_name(0);
    let mut tables = Tables::empty(2, 32);
    put_slot(&mut tables, 0, other, b"k");
    put_slot(&mut tables, 1, state, &name);
    // `keys` of the places, spread; two of three are open where their slot lets them.
    let first = |place: usize| place * 5 % 32 < keys;
    let is_open = |place: usize| !place.is_multiple_of(3) && IDLE != if first(place) { state } else { other };
    for place in 0..32 {
        tables.put_card(place, card_of(place, if first(place) { &name } else { b"k" }).as_bytes());
        tables.registers[place].mark = u8::from(is_open(place));
    }
    for slot in [&name[..], b"k"] {
        bench.expect(0, &mut tables, &supplement, &requests::of_slot(Command::KQ, slot), 1024)?;
    }
    bench.expect_usable(&tables, &|register| (1..=32).contains(&register) && !is_open(register - 1))?;
    bench.expect(0, &mut tables, &supplement, &requests::of_slot(Command::KX, b"k"), 1024)?;
    bench.expect(0, &mut tables, &supplement, &requests::of_slot(Command::KQ, &name), 1024)?;
    for register in 0..=33 {
        let filled = (1..=32).contains(&register) && first(register - 1);
        let request = requests::of_register(Command::GA, register as u64);
        bench.expect(if filled { 0 } else { 21 }, &mut tables, &supplement, &request, 1024)?;
    }
    Ok(())
}

pub(super) fn put_slot(tables: &mut Tables, place: usize, state: u8, name: &[u8]) {
    tables.put_slot(place, state, name, FINGERPRINT, if state == PENDING { CLOCK } else { b"" });
}

/// A card as stored, of a slot; no two places have the same SGC.
pub(super) fn card_of(place: usize, slot: &[u8]) -> String {
    STORED
        .replace("SGC0000123457", &format!("SGC{place:010}"))
        .replace("KSLKMC1", &format!("KSL{}", String::from_utf8_lossy(slot)))
}

/// Sound rows in every place that the counts cover (as far as 9 and 33 reach), the slots in one state. Where it lets
/// keys be open, every second key of a slot is, from the first on.
pub(super) fn full_tables(slot_count: usize, register_count: usize, state: u8) -> Tables {
    let mut tables = Tables::empty(slot_count, register_count);
    for place in 0..slot_count {
        put_slot(&mut tables, place, state, format!("KMC{}", place + 1).as_bytes());
    }
    for place in 0..register_count {
        let slot = format!("KMC{}", place % slot_count.max(1) + 1);
        tables.put_card(place, card_of(place, slot.as_bytes()).as_bytes());
        if state != IDLE && (place / slot_count.max(1)).is_multiple_of(2) {
            tables.registers[place].mark = OPEN;
        }
    }
    tables
}

/// Every count of slots and registers: rows empty, rows full, and beside both rows
/// beyond the counts that are not sound and must not be looked at.
pub fn row_counts(bench: &mut Bench) -> Result<(), String> {
    let supplement = scenes::supplement();
    let asked = [
        requests::bare(Command::RS),
        begin(b"KMC1"),
        begin(b"NEW"),
        load(CARD),
        requests::of_slot(Command::KX, b"KMC1"),
        requests::of_register(Command::KD, 1),
        requests::bare(Command::GL),
        requests::of_register(Command::GA, 32),
        requests::of_slot(Command::KQ, b"KMC8"),
        b"SM?DI0000\r".to_vec(),
    ];
    for slot_count in 0..=9 {
        for register_count in 0..=33 {
            let in_range = (1..=8).contains(&slot_count) && (1..=32).contains(&register_count);
            for mut tables in [
                Tables::empty(slot_count, register_count),
                full_tables(slot_count, register_count, LOADING),
                full_tables(slot_count, register_count, IDLE),
            ] {
                for beyond in [0, 0xFF] {
                    for row in &mut tables.slots[slot_count..] {
                        row.state = beyond;
                    }
                    for row in &mut tables.registers[register_count..] {
                        *row = RegisterRow { card: [beyond; 256], mark: beyond };
                    }
                    for request in &asked {
                        let came = bench.call(&mut tables.clone(), &supplement, request, 1024)?;
                        if in_range == (came == 1) {
                            return Err(format!("{slot_count} slots and {register_count} registers gave {came}"));
                        }
                    }
                    bench.expect_usable(&tables, &|register| in_range && tables.is_closed(register))?;
                }
            }
        }
    }
    Ok(())
}

/// Every buffer from 0 to 1,100 bytes, for accepted and for refused requests.
pub fn buffers(bench: &mut Bench) -> Result<(), String> {
    let mut longest = scenes::supplement();
    longest.request = [b'}'; 700];
    longest.request_length = 700;
    let mut asked: Vec<Vec<u8>> = Command::ALL.into_iter().flat_map(good).collect();
    // The longest response: a name of 40 bytes and a load request of 700.
    asked.push(begin(&[b'k'; 40]));
    asked.extend([
        b"".to_vec(),
        b"SM?DI0000\r".to_vec(),
        b"SM?DI9A51\r".to_vec(),
        requests::of_slot(Command::KX, b"none"),
    ]);
    for buffer in 0..=LONGEST_BUFFER {
        for request in &asked {
            let came = bench.call(&mut scenes::tables(), &longest, request, buffer)?;
            if (buffer < 1024) != (came == 2) {
                return Err(format!("a buffer of {buffer} bytes gave {came}"));
            }
        }
    }
    Ok(())
}

/// What makes a card that a register keeps unsound, wherever it stands: a text of `STORED` and what takes its place.
pub(super) const CARD_FAULTS: [(&str, &str); 49] = [
    ("CLU0", "CLU1"),
    ("CLU0", "CLU00"),
    ("CLU0", "CLU"),
    ("VND0", "VND00"),
    ("VND0", "VND01"),
    ("VND0", "VND"),
    ("VND0", "VND1000000000"),
    ("VND0", "VND-1"),
    ("KSLKMC1", "KSLKMC"),
    ("KSLKMC1", "KSLKMC9"),
    ("KSLKMC1", "KSLkmc1"),
    ("KSLKMC1", "KSL"),
    ("KSLKMC1", "KSLKMC1 "),
    ("KSLKMC1", "KSL_"),
    ("KRN1", "KRN0"),
    ("KRN1", "KRN01"),
    ("KRN1", "KRN10"),
    ("KEN255", "KEN256"),
    ("KEN255", "KEN007"),
    ("KTC2", "KTC4"),
    ("DKG04", "DKG03"),
    ("SGC0000123457", "SGC000012345"),
    ("SGC0000123457", "SGC00001234577"),
    ("KCV6C3DE4", "KCV6C3DE"),
    ("KCV6C3DE4", "KCV6c3DE4"),
    ("KCV6C3DE4", "KCV6C3DE40"),
    ("CLMFFFFFFFF", "CLMFFFFFFFG"),
    ("SBMFFFF", "SBMFFF"),
    ("ULM999999999", "ULM1000000000"),
    ("ULM999999999", "ULM01"),
    ("IUT20150301T140000Z", "IUT20150229T140000Z"),
    ("ACT2004", "ACT1899"),
    ("BDT19930101", "BDT19930001"),
    ("VND0;", "VND0"),
    ("VND0;", "VND0;;"),
    ("VND0;", "VND0;ZZZ0;"),
    ("VND0;", ""),
    ("ACT20040301T140000Z;", ""),
    ("SBMFFFF;", ""),
    ("DKG04;", "DKG04;DKG04;"),
    ("KEN255;KRN1;", "KRN1;KEN255;"),
    ("SGC0000123457;", "SGC0000123457;SGOname;"),
    ("SGC0000123457;", "SGC0000123457;SGNSURELOAD KMC TEST VUDK 10;"),
    ("SGC0000123457;", "SGC0000123457;SGNname;SGNname;"),
    ("SGC0000123457;", "SGNname;SGC0000123457;"),
    ("ULM999999999;", "ULM999999999;SGNname;"),
    ("CLM", "clm"),
    ("ACT", "ABT"),
    ("KTC2;", "KTC2|"),
];

/// Unsound rows of every kind that question 3 names, and sound ones near them.
pub fn rows(bench: &mut Bench) -> Result<(), String> {
    let supplement = scenes::supplement();
    // The command does not touch the rows that are not sound.
    let request = requests::bare(Command::RS);
    let sound = scenes::tables();
    let slot = |change: &dyn Fn(&mut [SlotRow])| {
        let mut tables = sound.clone();
        change(&mut tables.slots);
        tables
    };
    let name = |text: &[u8]| {
        let mut kmcid = [0; 40];
        kmcid[..text.len()].copy_from_slice(text);
        kmcid
    };
    let mut cases: Vec<(u8, Tables)> = Vec::new();
    // A state that is none of the four, a free slot that is not zero.
    for state in 4..=255 {
        cases.push((3, slot(&|slots| slots[2].state = state)));
        cases.push((3, slot(&|slots| slots[3].state = state)));
    }
    for state in 0..=3 {
        cases.push((if state == 0 { 0 } else { 3 }, slot(&|slots| slots[3].state = state)));
    }
    cases.push((3, slot(&|slots| slots[3].kmcid[39] = 1)));
    cases.push((3, slot(&|slots| slots[3].fingerprint[0] = 1)));
    cases.push((3, slot(&|slots| slots[3].tvp[15] = 1)));
    cases.push((3, slot(&|slots| slots[2].state = 0)));
    // Names: absent, out of form, with bytes after the end, twice.
    for bad in [
        &b""[..],
        b"_MC3",
        b"KMC 3",
        b"KMC:3",
        b"KMC;3",
        b"KMC|3",
        b"KMC~3",
        b"KMC\x7F",
        b"KMC\x80",
        b"KM\0C3",
        b"KMC1",
        b"KMC2",
    ] {
        let mut tables = slot(&|slots| slots[2].kmcid = name(bad));
        // Its key is taken away, so that the name alone decides.
        tables.registers[1] = RegisterRow::FREE;
        cases.push((3, tables));
    }
    let mut tables = slot(&|slots| slots[2].kmcid = *b"k-234567890_234567890.234567890,23456789");
    tables.registers[1] = RegisterRow::FREE;
    cases.push((0, tables));
    cases.push((3, slot(&|slots| slots[2].kmcid[39] = b'x')));
    // A free slot is no second one of an empty name.
    cases.push((0, slot(&|slots| slots[1] = SlotRow::FREE)));
    // Fingerprints.
    for bad in [b"65AF90C4DBAF23D\0", b"65af90C4DBAF23D3", b"G5AF90C4DBAF23D3", &[0; 16]] {
        for place in 0..3 {
            cases.push((3, slot(&|slots| slots[place].fingerprint = *bad)));
        }
    }
    // TVP: just in PENDING, and a timestamp.
    for bad in [[0; 16], *b"19000229T000000Z", *b"20130303T240000Z", *b"20130303 153839Z", *b"18991231T235959Z"] {
        cases.push((3, slot(&|slots| slots[1].tvp = bad)));
    }
    for place in [0, 2] {
        cases.push((3, slot(&|slots| slots[place].tvp = *CLOCK)));
        cases.push((3, slot(&|slots| slots[place].tvp[15] = 1)));
    }
    // Cards.
    let card = |from: &str, to: &str| {
        let mut tables = scenes::tables();
        tables.put_card(0, STORED.replace(from, to).as_bytes());
        tables
    };
    // Each fault of a card; with KRN 2 it is the key of the other register.
    for (from, to) in CARD_FAULTS.into_iter().chain([("KRN1", "KRN2")]) {
        cases.push((3, card(from, to)));
    }
    for (from, to) in [
        ("VND0", "VND1"),
        ("VND0", "VND999999999"),
        ("ULM999999999", "ULM0"),
        ("KSLKMC1", "KSLKMC2"),
        ("KSLKMC1", "KSLKMC3"),
        ("KRN1", "KRN9"),
        ("KEN255", "KEN0"),
        ("KTC2", "KTC0"),
        ("DKG04", "DKG02"),
        ("SGC0000123457", "SGC9999999999"),
        ("SGC0000123457;", "SGC0000123457;SGN;"),
        ("SGC0000123457;", "SGC0000123457;SGNx;"),
        ("SGC0000123457;", "SGC0000123457;SGNSURELOAD KMC TEST VUDK 1;"),
    ] {
        cases.push((0, card(from, to)));
    }
    // VND above ULM is sound.
    cases.push((0, card("ULM999999999;VND0", "ULM0;VND999999999")));
    // The same pair twice, also under two slots; bytes after the end; a free row not zero; a card of 256 bytes.
    let mut tables = scenes::tables();
    tables.registers[2] = tables.registers[0];
    cases.push((3, tables));
    for (row, place) in [(0, 255), (0, STORED.len()), (0, STORED.len() + 1), (2, 0), (2, 128), (2, 255)] {
        let mut tables = scenes::tables();
        tables.registers[row].card[place] = 1;
        cases.push((3, tables));
    }
    let mut tables = scenes::tables();
    tables.registers[0].card = [b'A'; 256];
    cases.push((3, tables));
    // The slot of a key is free.
    cases.push((3, slot(&|slots| slots[0] = SlotRow::FREE)));
    // The slot of an open key is IDLE, or PENDING.
    cases.push((3, slot(&|slots| slots[0].state = IDLE)));
    cases.push((0, slot(&|slots| (slots[0].state, slots[0].tvp) = (PENDING, *CLOCK))));

    for (outcome, tables) in &cases {
        for register in 1..=3 {
            bench.usable(tables, register)?;
        }
        let mut after = tables.clone();
        bench.expect(*outcome, &mut after, &supplement, &request, 1024)?;
        // Of unsound rows no key is usable; after a reset each one is.
        let filled = |register: usize| (1..=3).contains(&register) && !tables.registers[register - 1].is_free();
        bench.expect_usable(&after, &|register| *outcome == 0 && filled(register))?;
        if *outcome == 0 {
            for request in [Command::GA, Command::GL, Command::KQ].into_iter().flat_map(good) {
                bench.call(&mut tables.clone(), &supplement, &request, 1024)?;
            }
            bench.expect(0, &mut tables.clone(), &supplement, &requests::of_register(Command::GA, 1), 1024)?;
        }
    }
    // 3 comes before 4, and before all that a request can have wrong.
    for (outcome, tables) in cases.iter().filter(|(outcome, _)| *outcome == 3) {
        let mut bad = supplement;
        bad.passed = 2;
        bench.expect(*outcome, &mut tables.clone(), &bad, b"", 1024)?;
        bench.expect(2, &mut tables.clone(), &bad, b"", 1023)?;
    }
    // Each byte of each row, with values that matter; question 3 decides.
    for value in [0, 1, 2, 3, b' ', b'0', b'1', b'9', b';', b'A', b'F', b'G', b'Z', b'f', b'|', b'~', 0x7F, 0xFF] {
        for place in 0..4 {
            for byte in 0..73 {
                let mut tables = scenes::tables();
                let row = &mut tables.slots[place];
                match byte {
                    0 => row.state = value,
                    1..=40 => row.kmcid[byte - 1] = value,
                    41..=56 => row.fingerprint[byte - 41] = value,
                    _ => row.tvp[byte - 57] = value,
                }
                bench.usable(&tables, 2)?;
                bench.call(&mut tables, &supplement, &request, 1024)?;
            }
        }
        for place in 0..3 {
            for byte in 0..257 {
                let mut tables = scenes::tables();
                let row = &mut tables.registers[place];
                *row.card.get_mut(byte).unwrap_or(&mut row.mark) = value;
                bench.usable(&tables, 2)?;
                bench.call(&mut tables, &supplement, &request, 1024)?;
            }
        }
    }
    Ok(())
}

/// Supplements bad in each part, for each command alike.
pub fn supplements(bench: &mut Bench) -> Result<(), String> {
    let right = scenes::supplement();
    let mut cases = Vec::new();
    let mut put = |outcome: u8, change: &dyn Fn(&mut crate::Supplement)| {
        let mut supplement = right;
        change(&mut supplement);
        cases.push((outcome, supplement));
    };
    for bad in [*b"19000229T000000Z", *b"20130303T240000Z", *b"18991231T235959Z", [0; 16], *b"20130303T153839z"] {
        put(4, &|supplement| supplement.clock = bad);
    }
    put(0, &|supplement| supplement.clock = *b"20000229T000000Z");
    // The module identity: length, form of each field, type, checksum.
    for length in [0, 1, 6, 7, 11, 59, 61, 128, 129, 65_536, usize::MAX] {
        put(4, &|supplement| supplement.identity_length = length);
    }
    let longest = [b'm'; 40];
    for (outcome, identity) in [
        (4, kmc(b"KMC1")),
        (4, requests::identity(b"SMID.1", b"", b"1", b"20130303T153830Z", b"E7C42215AF1FE951")),
        (4, requests::identity(b"SMID.1", b"Prism", b"", b"20130303T153830Z", b"E7C42215AF1FE951")),
        (4, requests::identity(b"SMID.1", b"_", b"1", b"20130303T153830Z", b"E7C42215AF1FE951")),
        (4, requests::identity(b"SMID.1", b"Prism", b"1 2", b"20130303T153830Z", b"E7C42215AF1FE951")),
        (4, requests::identity(b"SMID.1", b"Prism", &[b'm'; 41], b"20130303T153830Z", b"E7C42215AF1FE951")),
        (4, requests::identity(b"SMID.1", b"Prism", b"1", b"20130229T153830Z", b"E7C42215AF1FE951")),
        (4, requests::identity(b"SMID.1", b"Prism", b"1", b"20130303T153830Z", b"e7C42215AF1FE951")),
        (4, requests::identity(b"SMID.1", b"Prism", b"1", b"20130303T153830Z", b"E7C42215AF1FE95")),
        (4, records::build(b"SMID.1", b':', &[b"Prism", b"1", b"20130303T153830Z"])),
        (4, records::build(b"SMID.1", b':', &[b"Prism", b"1", b"20130303T153830Z", b"E7C42215AF1FE951", b""])),
        (4, records::build(b"SMID.1", b'|', &[b"Prism", b"1", b"20130303T153830Z", b"E7C42215AF1FE951"])),
        (0, requests::identity(b"SMID.1", &longest, &longest, b"20130303T153830Z", b"E7C42215AF1FE951")),
    ] {
        put(outcome, &|supplement| {
            supplement.identity = [0xEE; 128];
            supplement.identity[..identity.len()].copy_from_slice(&identity);
            supplement.identity_length = identity.len();
        });
    }
    // The load request: 1 to 700 bytes, each 20 to 7D hexadecimal; bytes past its length are not judged.
    for length in [0, 701, 702, 1024, 65_536, usize::MAX] {
        put(4, &|supplement| supplement.request_length = length);
    }
    put(0, &|supplement| {
        supplement.request = [b' '; 700];
        supplement.request_length = 700;
    });
    put(0, &|supplement| {
        supplement.request = [0xFF; 700];
        supplement.request[0] = b'}';
        supplement.request_length = 1;
    });
    for bad in (0..=0x1F).chain(0x7E..=0xFF) {
        put(4, &|supplement| supplement.request[20] = bad);
        put(4, &|supplement| supplement.request[0] = bad);
    }
    put(4, &|supplement| {
        supplement.request = [b'}'; 700];
        supplement.request[699] = b'~';
        supplement.request_length = 700;
    });
    for bad in [0, b' ', b'/', b':', b'@', b'G', b'a', b'f', 0xFF] {
        for place in 0..48 {
            put(4, &|supplement| supplement.tag[place] = bad);
        }
        for place in 0..6 {
            put(4, &|supplement| supplement.check[place] = bad);
        }
        for place in 0..16 {
            put(4, &|supplement| supplement.clock[place] = bad);
        }
    }
    for passed in 2..=255 {
        put(4, &|supplement| supplement.passed = passed);
    }
    let mut asked = Command::ALL.map(|command| good(command).remove(0)).to_vec();
    asked.push(Vec::new());
    for (outcome, supplement) in &cases {
        if *outcome == 4 {
            for request in &asked {
                bench.expect(4, &mut scenes::tables(), supplement, request, 1024)?;
            }
        } else {
            bench.expect(0, &mut scenes::tables(), supplement, &requests::bare(Command::RS), 1024)?;
        }
    }
    // Each byte of the module identity; question 4 decides.
    for place in 0..right.identity_length {
        for value in 0..=255 {
            let mut supplement = right;
            supplement.identity[place] = value;
            bench.call(&mut scenes::tables(), &supplement, &asked[0], 1024)?;
        }
    }
    Ok(())
}

/// Several faults at once, so that the sequence of the questions shows.
pub fn mixed(bench: &mut Bench, calls: u64, seed: u64) -> Result<(), String> {
    let mut world = World::new(seed ^ 0x313);
    let mut tables = world.filled();
    for _ in 0..calls {
        if world.generator.chance(2) {
            tables = if world.generator.chance(50) { world.filled() } else { world.tables() };
        }
        let mut supplement = world.supplement();
        let request = world.request(&tables, &supplement);
        if world.generator.chance(15) {
            world.spoil(&mut supplement);
        }
        let buffer = if world.generator.chance(10) {
            world.generator.below(1024)
        } else {
            world.generator.between(1024, LONGEST_BUFFER)
        };
        let mut faulty = tables.clone();
        let faults = world.generator.chance(20);
        if faults {
            for _ in 0..world.generator.between(1, 2) {
                spoil_rows(&mut world, &mut faulty);
            }
        }
        bench.call(&mut faulty, &supplement, &request, buffer)?;
        bench.some_usable(&faulty)?;
        // Rows that were spoiled serve one call only.
        if !faults {
            tables = faulty;
        }
    }
    Ok(())
}

fn spoil_rows(world: &mut World, tables: &mut Tables) {
    let generator = &mut world.generator;
    let slot = generator.below(tables.slot_count.clamp(1, 8));
    let register = generator.below(tables.register_count.clamp(1, 32));
    let byte = generator.byte();
    match generator.below(13) {
        0 => tables.slot_count = *generator.pick(&[0, 9]),
        1 => tables.register_count = *generator.pick(&[0, 33]),
        2 => tables.slots[slot].state = generator.below(6) as u8,
        3 => tables.slots[slot].kmcid[generator.below(40)] = byte,
        4 => tables.slots[slot].fingerprint[generator.below(16)] = byte,
        5 => tables.slots[slot].tvp[generator.below(16)] = byte,
        6 => tables.registers[register].card[generator.below(256)] = byte,
        7 => tables.slots[generator.below(8)] = tables.slots[slot],
        8 | 9 => world.name_group(&mut tables.registers[register]),
        10 | 11 => world.mark(&mut tables.registers[register]),
        _ => tables.registers[generator.below(32)] = tables.registers[register],
    }
}

//! Wrong engines, among them the slips that document 01 has "seen in class":
//! demand 3, the sentences on marks or the comparison must find each, and the console
//! script of what is found must replay it.

use reference::console::{self, row_lines};
use reference::demand3::{self, Word};
use reference::fields::Reader;
use reference::harness::history::{self, Sentences};
use reference::harness::tables::Tables;
use reference::harness::{
    parts, requests, run, scenes, try_fixed, try_fuzz, try_run, Bench, Engine, Failure, Reference,
};
use reference::rows::{self, CLOSED, IDLE, LOADING, OPEN, PENDING};
use reference::{cards, records, Command, RegisterRow, SlotRow, Supplement};
use std::cell::RefCell;

type Response = (u8, u8, usize);

/// One call of the right engine, and what a wrong one may spoil before and after it.
struct Call<'a> {
    slots: &'a mut [SlotRow],
    registers: &'a mut [RegisterRow],
    counts: (usize, usize),
    supplement: &'a Supplement,
    request: &'a [u8],
    response: &'a mut [u8],
}

impl Call<'_> {
    fn right(&mut self) -> Response {
        Reference.handle(
            self.slots,
            self.registers,
            self.counts.0,
            self.counts.1,
            self.supplement,
            self.request,
            self.response,
        )
    }

    fn word(&self, length: usize) -> Word {
        demand3::word(self.request, &self.response[..length])
    }
}

type Handle = fn(&mut Call) -> Response;

/// Says of a key that stands in sound rows whether it may vend.
type Vends = fn(&[SlotRow], &RegisterRow) -> bool;

/// Document 02, N3.
const RIGHT: Vends = |_, row| row.mark == CLOSED;

/// `handle`, and which keys may vend.
struct Wrong<F>(F, Vends);

impl<F: Fn(&mut Call) -> Response> Engine for Wrong<F> {
    fn handle(
        &mut self,
        slots: &mut [SlotRow],
        registers: &mut [RegisterRow],
        slot_count: usize,
        register_count: usize,
        supplement: &Supplement,
        request: &[u8],
        response: &mut [u8],
    ) -> Response {
        (self.0)(&mut Call { slots, registers, counts: (slot_count, register_count), supplement, request, response })
    }

    fn usable(
        &mut self,
        slots: &[SlotRow],
        registers: &[RegisterRow],
        slot_count: usize,
        register_count: usize,
        register: usize,
    ) -> bool {
        let (Some(slots), Some(registers)) = (slots.get(..slot_count), registers.get(..register_count)) else {
            return false;
        };
        if !rows::counts_in_range(slot_count, register_count) || !rows::are_sound(slots, registers) {
            return false;
        }
        let row = register.checked_sub(1).and_then(|place| registers.get(place));
        row.is_some_and(|row| !row.is_free() && self.1(slots, row))
    }
}

/// The state of a key's slot.
fn state_of(slots: &[SlotRow], row: &RegisterRow) -> Option<u8> {
    let slot = cards::stored(&row.card).and_then(|card| rows::slot_named(slots, card.slot()))?;
    Some(slots[slot].state)
}

fn make_idle(slot: &mut SlotRow) {
    slot.state = IDLE;
    slot.tvp = [0; 16];
}

fn of_slot(register: &RegisterRow, slot: &[u8]) -> bool {
    cards::stored(&register.card).is_some_and(|card| card.slot() == slot)
}

fn kc_wipes_keys(call: &mut Call) -> Response {
    let answer = call.right();
    if let Word::Restart(slot) = call.word(answer.2) {
        for register in call.registers.iter_mut().filter(|register| of_slot(register, &slot)) {
            *register = RegisterRow::FREE;
        }
    }
    answer
}

/// Hides the register that holds the pair, so that the load takes another.
fn reload_takes_a_second_register(call: &mut Call) -> Response {
    // Read the request as if it were accepted with any reply.
    let assumed = [&b"SM!KL00N1~P~"[..], b"0000\r"].concat();
    let held = match demand3::word(call.request, &assumed) {
        Word::Load { g, r, .. } => call
            .registers
            .iter()
            .position(|register| cards::stored(&register.card).is_some_and(|card| card.pair() == (&g[..], &r[..]))),
        _ => None,
    };
    let Some(place) = held else { return call.right() };
    let before = call.registers[place];
    let at = before.card.windows(4).position(|window| window == b";SGC").unwrap();
    call.registers[place].card[at + 4..at + 14].copy_from_slice(b"5555555555");
    let answer = call.right();
    call.registers[place] = before;
    answer
}

fn reset_leaves_loading(call: &mut Call) -> Response {
    let before = call.slots.to_vec();
    let answer = call.right();
    if call.word(answer.2) == Word::Reset {
        for (slot, old) in call.slots.iter_mut().zip(before).filter(|(_, old)| old.state == LOADING) {
            *slot = old;
        }
    }
    answer
}

/// The keys stay behind under a slot that fills no row.
fn kx_leaves_keys(call: &mut Call) -> Response {
    let before = call.registers.to_vec();
    let answer = call.right();
    if let Word::DeleteSlot(_) = call.word(answer.2) {
        call.registers.copy_from_slice(&before);
    }
    answer
}

fn stores_nothing(call: &mut Call) -> Response {
    let before = call.registers.to_vec();
    let answer = call.right();
    if let Word::Load { .. } = call.word(answer.2) {
        call.registers.copy_from_slice(&before);
    }
    answer
}

fn bad_tag_closes_the_session(call: &mut Call) -> Response {
    let answer = call.right();
    if answer.0 == 18 {
        call.slots.iter_mut().filter(|slot| slot.state == PENDING).for_each(make_idle);
    }
    answer
}

fn a_read_closes_sessions(call: &mut Call) -> Response {
    let answer = call.right();
    if call.word(answer.2) == Word::Read {
        call.slots.iter_mut().filter(|slot| slot.state == PENDING).for_each(make_idle);
    }
    answer
}

/// Makes another payload of that of a command's accepted responses.
fn remade(call: &mut Call, command: Command, other: impl Fn(&Call, &[u8]) -> Vec<u8>) -> Response {
    let before = call.response.to_vec();
    let answer = call.right();
    if answer.0 > 0 || !call.request.starts_with(command.header()) {
        return answer;
    }
    let (head, payload) = call.response[..answer.2 - 5].split_at(7);
    let message = requests::frame(head, &other(call, payload));
    call.response.copy_from_slice(&before);
    call.response[..message.len()].copy_from_slice(&message);
    (answer.0, answer.1, message.len())
}

/// Changes the fields of a command's accepted responses.
fn rewritten(call: &mut Call, command: Command, change: fn(&mut Vec<&[u8]>)) -> Response {
    remade(call, command, |_, payload| {
        let mut fields: Vec<&[u8]> = payload.split_inclusive(|&byte| byte == b'~').collect();
        change(&mut fields);
        fields.concat()
    })
}

/// In place of the second, so that names of one length make a list of the right length.
fn gl_lists_a_slot_twice(call: &mut Call) -> Response {
    rewritten(call, Command::GL, |fields| {
        if fields.len() > 1 {
            fields[1] = fields[0];
        }
    })
}

fn gl_leaves_one_out(call: &mut Call) -> Response {
    rewritten(call, Command::GL, |fields| {
        fields.pop();
    })
}

/// Lists the slots row by row, and then puts the names into a sequence of its own.
fn relisted(call: &mut Call, order: fn(&mut [&[u8]])) -> Response {
    remade(call, Command::GL, |call, _| {
        let rows = &call.slots[..call.counts.0];
        let mut names: Vec<&[u8]> = rows.iter().filter(|slot| !slot.is_free()).map(SlotRow::name).collect();
        order(&mut names);
        names.into_iter().flat_map(requests::string).collect()
    })
}

fn gl_lists_row_by_row(call: &mut Call) -> Response {
    relisted(call, |_| ())
}

fn gl_lists_descending(call: &mut Call) -> Response {
    relisted(call, |names| {
        names.sort();
        names.reverse();
    })
}

/// As if a byte above all others ended a name.
fn gl_lists_an_extension_first(call: &mut Call) -> Response {
    relisted(call, |names| names.sort_by_key(|name| [*name, &[0xFF]].concat()))
}

fn gl_goes_by_the_first_byte(call: &mut Call) -> Response {
    relisted(call, |names| names.sort_by_key(|name| name[0]))
}

fn gl_goes_by_length_first(call: &mut Call) -> Response {
    relisted(call, |names| names.sort_by_key(|name| (name.len(), name.to_vec())))
}

fn gl_ignores_case(call: &mut Call) -> Response {
    relisted(call, |names| names.sort_by_key(|name| name.to_ascii_lowercase()))
}

/// Right but for the last row, which it puts last.
fn gl_leaves_the_last_row_last(call: &mut Call) -> Response {
    relisted(call, |names| {
        let last = names.len().saturating_sub(1);
        names[..last].sort();
    })
}

/// The entry of SGN in a card, empty where there is none.
fn group_entry(card: &[u8]) -> &[u8] {
    card.split_inclusive(|&byte| byte == b';').find(|entry| entry.starts_with(b"SGN")).unwrap_or_default()
}

/// The card with this entry of SGN, or none, before the entry of a name.
fn named(card: &[u8], entry: &[u8], name: &str) -> Vec<u8> {
    let others = card.split_inclusive(|&byte| byte == b';').filter(|entry| !entry.starts_with(b"SGN"));
    others
        .flat_map(|other| if other.starts_with(name.as_bytes()) { [entry, other].concat() } else { other.to_vec() })
        .collect()
}

/// Stores and answers another card at each accepted load: made of the card that the register had, and of the right one.
fn stored_otherwise(call: &mut Call, other: impl Fn(&[u8], &[u8]) -> Vec<u8>) -> Response {
    let before = call.registers.to_vec();
    let answer = remade(call, Command::KL, |_, payload| {
        let mut fields = Reader::new(payload);
        let (register, card) = (fields.number().unwrap(), fields.string().unwrap());
        let old = cards::written(&before[register as usize - 1].card);
        [format!("N{register}~").into_bytes(), requests::string(&other(old, card))].concat()
    });
    if let Word::Load { n, card, .. } = call.word(answer.2) {
        call.registers[n as usize - 1] = row_of(&card, OPEN);
    }
    answer
}

fn row_of(card: &[u8], mark: u8) -> RegisterRow {
    let mut row = RegisterRow { mark, ..RegisterRow::FREE };
    row.card[..card.len()].copy_from_slice(card);
    row
}

fn an_absent_sgn_is_stored_as_empty(call: &mut Call) -> Response {
    stored_otherwise(call, |_, card| match group_entry(card) {
        b"" => named(card, b"SGN;", "ULM"),
        _ => card.to_vec(),
    })
}

fn an_empty_sgn_is_stored_as_absent(call: &mut Call) -> Response {
    stored_otherwise(call, |_, card| match group_entry(card) {
        b"SGN;" => named(card, b"", "ULM"),
        _ => card.to_vec(),
    })
}

fn sgn_is_dropped(call: &mut Call) -> Response {
    stored_otherwise(call, |_, card| named(card, b"", "ULM"))
}

fn sgn_is_stored_before_sgc(call: &mut Call) -> Response {
    stored_otherwise(call, |_, card| named(card, group_entry(card), "SGC"))
}

fn a_reload_keeps_the_old_sgn(call: &mut Call) -> Response {
    stored_otherwise(call, |old, card| match group_entry(card) {
        b"" => named(card, group_entry(old), "ULM"),
        _ => card.to_vec(),
    })
}

fn ga_does_not_show_sgn(call: &mut Call) -> Response {
    remade(call, Command::GA, |_, payload| named(payload, b"", "ULM"))
}

/// An SM?KL that is right up to its card, and whose SGN has a value that another one takes the place of.
fn asked_otherwise(request: &[u8], other: impl Fn(&[u8]) -> Option<Vec<u8>>) -> Option<Vec<u8>> {
    let mut fields = Reader::new(request.get(5..request.len().checked_sub(5)?)?);
    let slot = fields.string()?;
    let [nonce, card, encrypted] = records::parse(fields.string()?, b"KEY.1", b'|')?;
    if requests::load(slot, nonce, card, encrypted) != request {
        return None;
    }
    let name = other(group_entry(card).strip_prefix(b"SGN")?.strip_suffix(b";")?)?;
    let entry = [b"SGN", &name[..], b";"].concat();
    let entries = card.split_inclusive(|&byte| byte == b';');
    let card: Vec<&[u8]> = entries.map(|each| if each.starts_with(b"SGN") { &entry } else { each }).collect();
    Some(requests::load(slot, nonce, &card.concat(), encrypted))
}

/// Answers as if SGN had another value.
fn read_otherwise(call: &mut Call, other: fn(&[u8]) -> Option<Vec<u8>>) -> Response {
    let Some(request) = asked_otherwise(call.request, other) else { return call.right() };
    let Call { slots, registers, counts, supplement, response, .. } = call;
    Call { slots, registers, counts: *counts, supplement, request: &request, response }.right()
}

fn an_sgn_of_24_bytes_is_refused(call: &mut Call) -> Response {
    read_otherwise(call, |name| (name.len() == 24).then(|| vec![b'x'; 25]))
}

fn an_empty_sgn_is_refused(call: &mut Call) -> Response {
    read_otherwise(call, |name| name.is_empty().then(|| vec![b'x'; 25]))
}

fn a_longer_sgn_is_cut(call: &mut Call) -> Response {
    read_otherwise(call, |name| name.get(..24).filter(|_| name.len() > 24).map(<[u8]>::to_vec))
}

fn an_sgn_of_25_bytes_passes(call: &mut Call) -> Response {
    let whole = requests::card_in(call.request).map(group_entry).unwrap_or_default();
    let cut = |name: &[u8]| (name.len() == 25).then(|| name[..24].to_vec());
    let Some(request) = asked_otherwise(call.request, cut) else { return call.right() };
    let Call { slots, registers, counts, supplement, response, .. } = call;
    let mut shorter = Call { slots, registers, counts: *counts, supplement, request: &request, response };
    stored_otherwise(&mut shorter, |_, card| named(card, whole, "ULM"))
}

/// Answers as if some registers held other cards; what the call does not change stays.
fn over_other_cards(call: &mut Call, other: fn(&[u8]) -> Option<Vec<u8>>) -> Response {
    over_other_rows(call, |_, row| Some(row_of(&other(cards::written(&row.card))?, row.mark)))
}

/// Answers as if some register rows were others; what the call does not change stays.
fn over_other_rows(call: &mut Call, other: impl Fn(&[SlotRow], &RegisterRow) -> Option<RegisterRow>) -> Response {
    let before = call.registers.to_vec();
    for row in call.registers.iter_mut() {
        *row = other(call.slots, row).unwrap_or(*row);
    }
    let changed = call.registers.to_vec();
    let answer = call.right();
    for ((row, changed), before) in call.registers.iter_mut().zip(changed).zip(before) {
        if *row == changed {
            *row = before;
        }
    }
    answer
}

fn a_row_with_sgn_is_unsound(call: &mut Call) -> Response {
    over_other_cards(call, |card| (!group_entry(card).is_empty()).then(|| b"unsound".to_vec()))
}

fn a_row_with_an_sgn_of_25_bytes_is_sound(call: &mut Call) -> Response {
    over_other_cards(call, |card| {
        let entry = group_entry(card);
        (entry.len() == 29).then(|| named(card, &[&entry[..27], b";"].concat(), "ULM"))
    })
}

fn a_row_with_sgn_before_sgc_is_sound(call: &mut Call) -> Response {
    over_other_cards(call, |card| {
        let entry = group_entry(card);
        let before = !entry.is_empty() && named(card, entry, "SGC") == card;
        before.then(|| named(card, entry, "ULM"))
    })
}

/// Marks of its own after an accepted call: `other` has what the call means, the row before it and the row after it.
fn marked_otherwise(call: &mut Call, other: impl Fn(&Word, &RegisterRow, &RegisterRow) -> u8) -> Response {
    let before = call.registers.to_vec();
    let answer = call.right();
    let word = call.word(answer.2);
    if word != Word::Nothing {
        for (row, before) in call.registers.iter_mut().zip(&before).take(call.counts.1) {
            row.mark = other(&word, before, row);
        }
    }
    answer
}

fn kf_closes_every_key(call: &mut Call) -> Response {
    marked_otherwise(call, |word, _, row| if matches!(word, Word::Close(_)) { CLOSED } else { row.mark })
}

fn kf_closes_none(call: &mut Call) -> Response {
    marked_otherwise(call, |word, before, row| if matches!(word, Word::Close(_)) { before.mark } else { row.mark })
}

/// The slot's keys of the lowest register alone.
fn kf_closes_one(call: &mut Call) -> Response {
    let closed = RefCell::new(false);
    marked_otherwise(call, |word, before, row| match word {
        Word::Close(_) if before.mark != row.mark && closed.replace(true) => before.mark,
        _ => row.mark,
    })
}

/// An SM?KF that comes before the response ends no session, and closes none.
fn kf_of_a_pending_slot_closes_none(call: &mut Call) -> Response {
    let pending: Vec<Vec<u8>> =
        call.slots.iter().filter(|slot| slot.state == PENDING).map(|slot| slot.name().to_vec()).collect();
    marked_otherwise(call, |word, before, row| match word {
        Word::Close(slot) if pending.contains(slot) => before.mark,
        _ => row.mark,
    })
}

/// Keys that were loaded before an SM?KR stay open: kept by slot, SGC and KRN.
fn kf_closes_only_what_its_session_loaded(call: &mut Call, loaded: &RefCell<Vec<[Vec<u8>; 3]>>) -> Response {
    let key = |row: &RegisterRow| {
        cards::stored(&row.card).map(|card| [card.slot(), card.pair().0, card.pair().1].map(<[u8]>::to_vec))
    };
    let answer = marked_otherwise(call, |word, before, row| match word {
        Word::Close(_) if !key(row).is_some_and(|key| loaded.borrow().contains(&key)) => before.mark,
        _ => row.mark,
    });
    match call.word(answer.2) {
        Word::Open(slot) => loaded.borrow_mut().retain(|[other, _, _]| *other != slot),
        Word::Load { s, g, r, .. } => loaded.borrow_mut().push([s, g, r]),
        _ => {}
    }
    answer
}

fn a_reset_leaves_keys_open(call: &mut Call) -> Response {
    marked_otherwise(call, |word, before, row| if *word == Word::Reset { before.mark } else { row.mark })
}

fn a_reset_leaves_keys_of_pending_open(call: &mut Call) -> Response {
    let slots = call.slots.to_vec();
    marked_otherwise(call, |word, before, row| match word {
        Word::Reset if state_of(&slots, before) == Some(PENDING) => before.mark,
        _ => row.mark,
    })
}

fn kc_closes(call: &mut Call) -> Response {
    marked_otherwise(call, |word, _, row| match word {
        Word::Restart(slot) if of_slot(row, slot) => CLOSED,
        _ => row.mark,
    })
}

/// So that keys on refresh are dead, as by the rule of document 01.
fn kc_opens(call: &mut Call) -> Response {
    marked_otherwise(call, |word, _, row| match word {
        Word::Restart(slot) if of_slot(row, slot) => OPEN,
        _ => row.mark,
    })
}

fn kr_closes(call: &mut Call) -> Response {
    marked_otherwise(call, |word, _, row| match word {
        Word::Open(slot) if of_slot(row, slot) => CLOSED,
        _ => row.mark,
    })
}

fn kr_opens(call: &mut Call) -> Response {
    marked_otherwise(call, |word, _, row| match word {
        Word::Open(slot) if of_slot(row, slot) => OPEN,
        _ => row.mark,
    })
}

fn a_load_leaves_its_key_closed(call: &mut Call) -> Response {
    marked_otherwise(call, |word, before, row| match word {
        Word::Load { .. } if before.is_free() => before.mark,
        _ => row.mark,
    })
}

fn a_reload_stays_closed(call: &mut Call) -> Response {
    marked_otherwise(call, |word, before, row| match word {
        Word::Load { .. } if !before.is_free() => before.mark,
        _ => row.mark,
    })
}

fn a_load_opens_every_key_of_its_slot(call: &mut Call) -> Response {
    marked_otherwise(call, |word, _, row| match word {
        Word::Load { s, .. } if of_slot(row, s) => OPEN,
        _ => row.mark,
    })
}

fn kx_leaves_a_mark(call: &mut Call) -> Response {
    marked_otherwise(call, |word, before, row| match word {
        Word::DeleteSlot(_) => before.mark,
        _ => row.mark,
    })
}

fn kd_leaves_a_mark(call: &mut Call) -> Response {
    marked_otherwise(call, |word, before, row| match word {
        Word::DeleteKey(_) => before.mark,
        _ => row.mark,
    })
}

/// Answers as if some rows were closed.
fn over_closed_rows(call: &mut Call, chosen: fn(&[SlotRow], &RegisterRow) -> bool) -> Response {
    over_other_rows(call, |slots, row| chosen(slots, row).then_some(RegisterRow { mark: CLOSED, ..*row }))
}

fn an_open_key_under_idle_is_sound(call: &mut Call) -> Response {
    over_closed_rows(call, |slots, row| row.mark == OPEN && state_of(slots, row) == Some(IDLE))
}

fn a_mark_of_2_is_sound(call: &mut Call) -> Response {
    over_closed_rows(call, |_, row| row.mark == 2 && !row.is_free())
}

fn a_mark_above_1_is_sound(call: &mut Call) -> Response {
    over_closed_rows(call, |_, row| row.mark > 1 && !row.is_free())
}

fn a_mark_beside_zeros_is_sound(call: &mut Call) -> Response {
    over_closed_rows(call, |_, row| row.mark == OPEN && row.is_free())
}

fn an_open_key_under_pending_is_unsound(call: &mut Call) -> Response {
    over_other_rows(call, |slots, row| {
        let open = row.mark == OPEN && state_of(slots, row) == Some(PENDING);
        open.then_some(RegisterRow { mark: 2, ..*row })
    })
}

/// The current fingerprint and the new one change places.
fn kq_tells_the_new_fingerprint_as_current(call: &mut Call) -> Response {
    rewritten(call, Command::KQ, |fields| {
        if fields[0] == b"PPENDING~" {
            fields.swap(3, 5);
        }
    })
}

fn writes_past_its_response(call: &mut Call) -> Response {
    let answer = call.right();
    if let Some(byte) = call.response.get_mut(answer.2) {
        *byte = !*byte;
    }
    answer
}

fn refuses_all(_: &mut Call) -> Response {
    (1, 255, 0)
}

/// Any engine, also one that remembers.
type Asked<'a> = &'a dyn Fn(&mut Call) -> Response;

fn demand_3(engine: Asked) -> Result<(), String> {
    history::check(&mut Wrong(engine, RIGHT), Sentences::Demand3, 4000, 7)
}

fn sentences_on_marks(engine: Asked, vends: Vends) -> Result<(), String> {
    history::check(&mut Wrong(engine, vends), Sentences::Marks, 4000, 7)
}

#[test]
fn the_right_engine_meets_the_sentences() {
    demand_3(&|call| call.right()).unwrap();
    sentences_on_marks(&|call| call.right(), RIGHT).unwrap();
}

#[test]
fn demand_3_finds_the_wrong_engines() {
    for (name, engine, sentence) in [
        ("KC wipes keys", kc_wipes_keys as Handle, "2:"),
        ("a reload takes a second register", reload_takes_a_second_register, "2:"),
        ("reset leaves LOADING", reset_leaves_loading, "1:"),
        ("KX leaves the keys", kx_leaves_keys, "2:"),
        ("a load stores nothing", stores_nothing, "2:"),
        ("a read closes sessions", a_read_closes_sessions, "the last one only reads"),
    ] {
        let broken = demand_3(&engine).expect_err(name);
        println!("{name}: {broken}");
        assert!(broken.contains(&format!("requests: {sentence}")), "{name}: {broken}");
    }
}

/// What demand 3 alone lets through, the comparison stops.
#[test]
fn the_comparison_finds_the_rest() {
    for (name, engine) in [
        ("a bad tag closes the session", bad_tag_closes_the_session as Handle),
        ("a byte past the response", writes_past_its_response),
        ("all refused", refuses_all),
        ("KQ tells the new fingerprint as current", kq_tells_the_new_fingerprint_as_current),
    ] {
        assert!(demand_3(&engine).is_ok(), "{name}");
        let difference = try_run(&mut Wrong(engine, RIGHT), 300, 7).expect_err(name);
        assert!(difference.text.starts_with(IN_CALL), "{name}: {}", difference.text);
    }
}

/// How the text of a difference begins, where `handle` is wrong and where `usable` is.
const IN_CALL: &str = "difference in call";
const AFTER_CALL: &str = "difference after call";

/// Demand 3 lets the engine through; fixed parts and random calls each find it.
fn is_found_by_both(name: &str, engine: Asked, vends: Vends, start: &str) {
    assert!(demand_3(engine).is_ok(), "{name}");
    for (calls, run) in
        [("fixed", try_fixed(&mut Wrong(engine, vends))), ("random", try_fuzz(&mut Wrong(engine, vends), 20_000, 7))]
    {
        let difference = run.expect_err(&format!("{name}, {calls}")).text;
        println!("{name}, {calls}: {}", difference.lines().next().unwrap_or_default());
        assert!(difference.starts_with(start), "{name}, {calls}: {difference}");
    }
}

/// SM?GL's list is fixed byte for byte (document 02, N1).
#[test]
fn another_list_is_a_difference() {
    let right = |call: &mut Call| relisted(call, |names| names.sort());
    try_run(&mut Wrong(right, RIGHT), 2000, 7).unwrap();
    for (name, engine) in [
        ("row by row", gl_lists_row_by_row as Handle),
        ("descending", gl_lists_descending),
        ("an extension before its beginning", gl_lists_an_extension_first),
        ("by the first byte only", gl_goes_by_the_first_byte),
        ("by length first", gl_goes_by_length_first),
        ("without case", gl_ignores_case),
        ("the last row last", gl_leaves_the_last_row_last),
        ("one left out", gl_leaves_one_out),
        ("one twice", gl_lists_a_slot_twice),
    ] {
        is_found_by_both(name, &engine, RIGHT, IN_CALL);
    }
}

/// SGN is kept as it came, or not at all (document 02, N2), and both kinds of card are as stored.
#[test]
fn another_group_name_is_a_difference() {
    let right = |call: &mut Call| stored_otherwise(call, |_, card| named(card, group_entry(card), "ULM"));
    try_run(&mut Wrong(right, RIGHT), 2000, 7).unwrap();
    for (name, engine) in [
        ("25 bytes pass", an_sgn_of_25_bytes_passes as Handle),
        ("24 bytes are refused", an_sgn_of_24_bytes_is_refused),
        ("a longer one is cut", a_longer_sgn_is_cut),
        ("an empty one is refused", an_empty_sgn_is_refused),
        ("an absent one is stored as empty", an_absent_sgn_is_stored_as_empty),
        ("an empty one is stored as absent", an_empty_sgn_is_stored_as_absent),
        ("dropped", sgn_is_dropped),
        ("not shown by SM?GA", ga_does_not_show_sgn),
        ("stored before SGC", sgn_is_stored_before_sgc),
        ("the old one kept by a reload", a_reload_keeps_the_old_sgn),
        ("unsound in a row", a_row_with_sgn_is_unsound),
        ("25 bytes sound in a row", a_row_with_an_sgn_of_25_bytes_is_sound),
        ("before SGC sound in a row", a_row_with_sgn_before_sgc_is_sound),
    ] {
        is_found_by_both(name, &engine, RIGHT, IN_CALL);
    }
}

/// What changes a mark, and when it is sound (document 02, N3). Where a list from empty tables meets it, the sentences
/// on marks find it, too.
#[test]
fn another_mark_is_a_difference() {
    let right = |call: &mut Call| marked_otherwise(call, |_, _, row| row.mark);
    try_fuzz(&mut Wrong(right, RIGHT), 20_000, 7).unwrap();
    let loaded = RefCell::new(Vec::new());
    let by_session = |call: &mut Call| kf_closes_only_what_its_session_loaded(call, &loaded);
    for (name, engine, sentence) in [
        ("SM?KF closes every key", &kf_closes_every_key as Asked, Some("1:")),
        ("SM?KF closes none", &kf_closes_none, Some("1:")),
        ("SM?KF closes one", &kf_closes_one, Some("1:")),
        ("SM?KF of a PENDING slot closes none", &kf_of_a_pending_slot_closes_none, Some("1:")),
        ("SM?KF closes only what its session loaded", &by_session, Some("1:")),
        ("a reset leaves keys open", &a_reset_leaves_keys_open, Some("1:")),
        ("a reset leaves keys of PENDING open", &a_reset_leaves_keys_of_pending_open, Some("1:")),
        ("SM?KC closes", &kc_closes, Some("1:")),
        ("SM?KC opens", &kc_opens, Some("1:")),
        ("SM?KR closes", &kr_closes, Some("1:")),
        ("SM?KR opens", &kr_opens, Some("1:")),
        ("a load leaves its key closed", &a_load_leaves_its_key_closed, Some("1:")),
        ("a reload stays closed", &a_reload_stays_closed, Some("1:")),
        ("a load opens every key of its slot", &a_load_opens_every_key_of_its_slot, Some("1:")),
        ("SM?KX leaves a mark", &kx_leaves_a_mark, Some("4:")),
        ("SM?KD leaves a mark", &kd_leaves_a_mark, Some("4:")),
        ("an open key under PENDING is unsound", &an_open_key_under_pending_is_unsound, None),
        ("an open key under IDLE is sound", &an_open_key_under_idle_is_sound, None),
        ("a mark of 2 is sound", &a_mark_of_2_is_sound, None),
        ("a mark above 1 is sound", &a_mark_above_1_is_sound, None),
        ("a mark beside zeros is sound", &a_mark_beside_zeros_is_sound, None),
    ] {
        is_found_by_both(name, engine, RIGHT, IN_CALL);
        is_found_by_sentences(name, engine, RIGHT, sentence);
    }
}

/// Exactly the closed keys may vend, whatever the state of their slots (document 02, N3).
#[test]
fn another_usable_key_is_a_difference() {
    for (name, vends) in [
        ("by the slot's state", (|slots, row| state_of(slots, row) == Some(IDLE)) as Vends),
        ("not while PENDING", |slots, row| row.mark == CLOSED && state_of(slots, row) != Some(PENDING)),
        ("not while LOADING", |slots, row| row.mark == CLOSED && state_of(slots, row) != Some(LOADING)),
        ("open keys too", |_, _| true),
        ("open keys of PENDING too", |slots, row| row.mark == CLOSED || state_of(slots, row) == Some(PENDING)),
        ("open keys alone", |_, row| row.mark == OPEN),
    ] {
        is_found_by_both(name, &|call| call.right(), vends, AFTER_CALL);
        is_found_by_sentences(name, &|call| call.right(), vends, Some("2:"));
    }
}

/// The sentence that is broken, if any is.
fn is_found_by_sentences(name: &str, engine: Asked, vends: Vends, sentence: Option<&str>) {
    let broken = sentences_on_marks(engine, vends);
    println!("{name}: {broken:?}");
    match (broken, sentence) {
        (Ok(()), None) => {}
        (Err(text), Some(sentence)) if text.contains(&format!("requests: {sentence}")) => {}
        (broken, sentence) => panic!("{name}: {broken:?}, and {sentence:?} is due"),
    }
}

/// An engine, and what the right one says to its last call or question, as the console prints it: a call's rows too.
struct Beside<E> {
    wrong: E,
    right: String,
}

impl<E: Engine> Engine for Beside<E> {
    fn handle(
        &mut self,
        slots: &mut [SlotRow],
        registers: &mut [RegisterRow],
        slot_count: usize,
        register_count: usize,
        supplement: &Supplement,
        request: &[u8],
        response: &mut [u8],
    ) -> Response {
        let (mut rows, mut keys, mut buffer) = (slots.to_vec(), registers.to_vec(), response.to_vec());
        let (outcome, state, length) =
            Reference.handle(&mut rows, &mut keys, slot_count, register_count, supplement, request, &mut buffer);
        let state = ["FREE", "PENDING", "LOADING", "IDLE"].get(usize::from(state)).unwrap_or(&"-");
        let text = if length == 0 { "-".into() } else { String::from_utf8_lossy(&buffer[..length - 1]) };
        let mut tables = Tables::empty(slot_count, register_count);
        for (row, right) in tables.slots.iter_mut().zip(&rows).take(slot_count) {
            *row = *right;
        }
        for (row, right) in tables.registers.iter_mut().zip(&keys).take(register_count) {
            *row = *right;
        }
        self.right = format!("{outcome} {state} {text}\n{}", row_lines(&tables));
        self.wrong.handle(slots, registers, slot_count, register_count, supplement, request, response)
    }

    fn usable(
        &mut self,
        slots: &[SlotRow],
        registers: &[RegisterRow],
        slot_count: usize,
        register_count: usize,
        register: usize,
    ) -> bool {
        let right = Reference.usable(slots, registers, slot_count, register_count, register);
        self.right = if right { "yes\n" } else { "no\n" }.to_string();
        self.wrong.usable(slots, registers, slot_count, register_count, register)
    }
}

/// What a script prints at its end, from the last line with a number, without the number; every line is in form.
fn replayed(failure: &Failure) -> String {
    let mut output = Vec::new();
    console::run(&failure.script[..], &mut output).unwrap();
    let output = String::from_utf8(output).unwrap();
    assert!(output.lines().all(|line| !line.ends_with(" ?")), "{output}");
    let answer = output.lines().rfind(|line| line.starts_with(|first: char| first.is_ascii_digit())).unwrap();
    let end = &output[output.rfind(answer).unwrap()..];
    end.split_once(' ').unwrap().1.to_string()
}

#[test]
fn a_difference_is_replayed_by_its_script() {
    for (name, engine, vends) in [
        ("a bad tag closes the session", bad_tag_closes_the_session as Handle, RIGHT),
        ("a byte past the response", writes_past_its_response, RIGHT),
        ("all refused", refuses_all, RIGHT),
        ("GL lists a slot twice", gl_lists_a_slot_twice, RIGHT),
        ("GL lists row by row", gl_lists_row_by_row, RIGHT),
        ("SGN is dropped", sgn_is_dropped, RIGHT),
        ("KX leaves the keys", kx_leaves_keys, RIGHT),
        ("KF closes every key", kf_closes_every_key, RIGHT),
        ("a mark beside zeros is sound", a_mark_beside_zeros_is_sound, RIGHT),
        ("open keys vend", |call| call.right(), |_, _| true),
    ] {
        let mut beside = Beside { wrong: Wrong(engine, vends), right: String::new() };
        let failure = try_run(&mut beside, 300, 7).expect_err(name);
        assert_eq!(replayed(&failure), beside.right, "{name}");
    }
}

/// A run prints the script, and writes it to a file beside the program.
#[test]
fn a_run_leaves_its_script() {
    let failure = try_run(&mut Wrong(refuses_all, RIGHT), 300, 7).unwrap_err();
    let stopped = std::panic::catch_unwind(|| run(&mut Wrong(refuses_all, RIGHT), 300, 7));
    assert!(stopped.is_err());
    let file = std::env::current_exe().unwrap().with_file_name("difference-7.txt");
    assert_eq!(std::fs::read(&file).unwrap(), failure.script);
    std::fs::remove_file(&file).unwrap();
}

/// The script of a difference in a history has all its calls, from empty tables.
#[test]
fn a_history_is_replayed_whole() {
    for (name, engine, vends) in [
        ("KC wipes keys", kc_wipes_keys as Handle, RIGHT),
        ("a reload takes a second register", reload_takes_a_second_register, RIGHT),
        ("reset leaves LOADING", reset_leaves_loading, RIGHT),
        ("a load stores nothing", stores_nothing, RIGHT),
        ("a reload keeps the old SGN", a_reload_keeps_the_old_sgn, RIGHT),
        ("a reload stays closed", a_reload_stays_closed, RIGHT),
        (
            "PENDING does not vend",
            |call| call.right(),
            |slots, row| row.mark == CLOSED && state_of(slots, row) != Some(PENDING),
        ),
    ] {
        let mut beside = Beside { wrong: Wrong(engine, vends), right: String::new() };
        let mut bench = Bench::new(&mut beside, 7);
        let difference = history::compare(&mut bench, 4000, 7).expect_err(name);
        let failure = bench.failure(difference);
        let lines: Vec<&[u8]> = failure.script.split(|&byte| byte == b'\n').collect();
        assert!(lines.iter().filter(|line| line.starts_with(b"raw")).count() > 1, "{name}");
        assert!(!lines.iter().any(|line| line.starts_with(b"slot") || line.starts_with(b"register")), "{name}");
        assert_eq!(replayed(&failure), beside.right, "{name}");
    }
}

type Part = fn(&mut Bench) -> Result<(), String>;

/// Content in a row beyond the counts, and in a row that no line can name.
fn rows_beyond(bench: &mut Bench) -> Result<(), String> {
    let mut tables = scenes::tables();
    tables.registers[5].card[0] = 1;
    bench.call(&mut tables, &scenes::supplement(), b"", 1024).map(|_| ())
}

fn nine_slots(bench: &mut Bench) -> Result<(), String> {
    let mut tables = scenes::tables();
    tables.slot_count = 9;
    tables.slots[8] = tables.slots[0];
    bench.call(&mut tables, &scenes::supplement(), b"", 1024).map(|_| ())
}

/// What no console line can say stands in a comment, and the script gives the same answer.
#[test]
fn what_no_line_can_say() {
    for (comment, part, odd) in [
        ("# Passed is 2;", parts::supplements as Part, (|call| call.supplement.passed == 2) as fn(&Call) -> bool),
        ("# The length of identity is 129,", parts::supplements, |call| call.supplement.identity_length == 129),
        ("# The length of loadreq is 701,", parts::supplements, |call| call.supplement.request_length == 701),
        ("# Each line feed of identity", parts::supplements, |call| call.supplement.identity.contains(&b'\n')),
        ("# Rows beyond the counts,", rows_beyond, |_| true),
        ("# Rows beyond the counts,", nine_slots, |_| true),
    ] {
        let wrong = Wrong(|call: &mut Call| if odd(call) { (9, 255, 0) } else { call.right() }, RIGHT);
        let mut beside = Beside { wrong, right: String::new() };
        let mut bench = Bench::new(&mut beside, 7);
        let difference = part(&mut bench).expect_err(comment);
        let failure = bench.failure(difference);
        assert!(String::from_utf8_lossy(&failure.script).contains(comment), "{comment}: {}", failure.text);
        assert_eq!(replayed(&failure), beside.right, "{comment}");
    }
}

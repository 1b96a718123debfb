//! Attribute cards (document 01, "Cards"; document 02, N2; 003 clause 7.5.1; 001 Annex F).

use crate::text;

#[derive(Clone, Copy)]
enum Form {
    Timestamp,
    Hex(usize),
    /// From and to, without leading zero.
    Decimal(u64, u64),
    /// 02 or 04.
    Generation,
    TenDigits,
    Ident,
    /// So many bytes or fewer. Which bytes a value may have is asked of every entry.
    Text(usize),
}

impl Form {
    fn holds(self, value: &[u8]) -> bool {
        match self {
            Form::Timestamp => text::is_timestamp(value),
            Form::Hex(length) => text::is_hex_of(value, length),
            Form::Decimal(from, to) => text::decimal(value).is_some_and(|number| (from..=to).contains(&number)),
            Form::Generation => value == b"02" || value == b"04",
            Form::TenDigits => text::is_digits_of(value, 10),
            Form::Ident => text::is_ident(value),
            Form::Text(longest) => value.len() <= longest,
        }
    }
}

#[derive(Clone, Copy, PartialEq)]
enum Presence {
    Required,
    Optional,
    /// Belongs to the engine: an incoming value is dropped.
    Engine,
    /// Stored just where the incoming card has it, and the one known name whose value may be empty (document 02, N2).
    Kept,
}

/// The sixteen names, ascending. The forms of the engine's own values are those of stored cards.
const KNOWN: [(&[u8; 3], Form, Presence); 16] = [
    (b"ACT", Form::Timestamp, Presence::Required),
    (b"BDT", Form::Timestamp, Presence::Required),
    (b"CLM", Form::Hex(8), Presence::Optional),
    (b"CLU", Form::Decimal(0, 0), Presence::Engine),
    (b"DKG", Form::Generation, Presence::Required),
    (b"IUT", Form::Timestamp, Presence::Optional),
    (b"KCV", Form::Hex(6), Presence::Engine),
    (b"KEN", Form::Decimal(0, 255), Presence::Required),
    (b"KRN", Form::Decimal(1, 9), Presence::Required),
    (b"KSL", Form::Ident, Presence::Engine),
    (b"KTC", Form::Decimal(0, 3), Presence::Required),
    (b"SBM", Form::Hex(4), Presence::Optional),
    (b"SGC", Form::TenDigits, Presence::Required),
    (b"SGN", Form::Text(24), Presence::Kept),
    (b"ULM", Form::Decimal(0, 999_999_999), Presence::Optional),
    (b"VND", Form::Decimal(0, 999_999_999), Presence::Engine),
];

/// The values that serve where an optional one is absent (001 example 6.3.5.4).
const DEFAULT: &[u8] = b"CLMFFFFFFFF;IUT20380119T031407Z;SBMFFFF;ULM999999999;";

/// The space of a stored card.
pub const SPACE: usize = 256;

/// A card whose form has been judged; the values stand in the sequence of `KNOWN`.
#[derive(Clone, Copy)]
pub struct Card<'a> {
    values: [Option<&'a [u8]>; KNOWN.len()],
}

impl<'a> Card<'a> {
    /// SGC and KRN, which together name a key.
    pub fn pair(&self) -> (&'a [u8], &'a [u8]) {
        (self.value(b"SGC"), self.value(b"KRN"))
    }

    /// The slot under which a stored card stands.
    pub fn slot(&self) -> &'a [u8] {
        self.value(b"KSL")
    }

    /// SGN, where the card has it.
    pub fn group_name(&self) -> Option<&'a [u8]> {
        place(b"SGN").and_then(|place| self.values[place])
    }

    fn value(&self, name: &[u8; 3]) -> &'a [u8] {
        place(name).and_then(|place| self.values[place]).unwrap_or_default()
    }
}

/// The card of a KEY.1 record, or nothing when it is out of form (question 10).
pub fn incoming(text: &[u8]) -> Option<Card<'_>> {
    let mut values = [None; KNOWN.len()];
    let mut previous: Option<&[u8]> = None;
    for entry in entries(text)? {
        let (name, value) = entry?;
        // Order and doubles count the dropped names too.
        if previous.is_some_and(|previous| previous >= name) {
            return None;
        }
        previous = Some(name);
        let Some(place) = place(name) else { continue };
        let (_, form, presence) = KNOWN[place];
        if value.is_empty() && presence != Presence::Kept {
            return None;
        }
        if presence == Presence::Engine {
            continue;
        }
        if !form.holds(value) {
            return None;
        }
        values[place] = Some(value);
    }
    let mut names = KNOWN.iter().zip(values);
    names.all(|((.., presence), value)| *presence != Presence::Required || value.is_some()).then_some(Card { values })
}

/// A card as stored: the fifteen names that each one has, and SGN or not, ascending, each value in form, then zeros to
/// the end of the space (question 3).
pub fn stored(space: &[u8; SPACE]) -> Option<Card<'_>> {
    let text = written(space);
    if space[text.len()..].iter().any(|&byte| byte != 0) {
        return None;
    }
    let mut values = [None; KNOWN.len()];
    let mut next = 0;
    for entry in entries(text)? {
        let (name, value) = entry?;
        // One of the names that may still come.
        let place = next + KNOWN[next..].iter().position(|(known, ..)| *known == name)?;
        if !KNOWN[place].1.holds(value) {
            return None;
        }
        values[place] = Some(value);
        next = place + 1;
    }
    let mut names = KNOWN.iter().zip(values);
    names.all(|((.., presence), value)| *presence == Presence::Kept || value.is_some()).then_some(Card { values })
}

/// The text of a stored card: all before the first zero.
pub fn written(space: &[u8; SPACE]) -> &[u8] {
    let end = space.iter().position(|&byte| byte == 0).unwrap_or(SPACE);
    &space[..end]
}

/// What is stored for an incoming card: the names ascending, SGN just where the card has it, then zeros.
pub fn store(card: &Card, slot: &[u8], check: &[u8]) -> [u8; SPACE] {
    let mut text = Vec::with_capacity(SPACE);
    for (place, (name, _, presence)) in KNOWN.iter().enumerate() {
        let value = match presence {
            Presence::Engine => match *name {
                b"KCV" => check,
                b"KSL" => slot,
                // CLU and VND start at 0.
                _ => b"0",
            },
            Presence::Kept => match card.values[place] {
                Some(value) => value,
                None => continue,
            },
            _ => card.values[place].unwrap_or_else(|| default(name)),
        };
        text.extend_from_slice(*name);
        text.extend_from_slice(value);
        text.push(b';');
    }
    // At most 222 bytes, so the space suffices.
    let mut space = [0; SPACE];
    space[..text.len()].copy_from_slice(&text);
    space
}

fn default(name: &[u8; 3]) -> &'static [u8] {
    DEFAULT.split(|&byte| byte == b';').find_map(|entry| entry.strip_prefix(name)).unwrap_or_default()
}

fn place(name: &[u8]) -> Option<usize> {
    KNOWN.iter().position(|(known, ..)| *known == name)
}

/// The entries of a card text: a name of three capitals, a value, a semicolon.
/// Nothing when the text does not end in a semicolon; an entry out of form is `None`.
fn entries(text: &[u8]) -> Option<impl Iterator<Item = Option<(&[u8], &[u8])>>> {
    let body = text.strip_suffix(b";")?;
    Some(body.split(|&byte| byte == b';').map(|entry| {
        if entry.len() < 3 {
            return None;
        }
        let (name, value) = entry.split_at(3);
        let capitals = name.iter().all(u8::is_ascii_uppercase);
        let printable = value.iter().all(|&byte| (0x20..=0x7D).contains(&byte) && byte != b'|');
        (capitals && printable).then_some((name, value))
    }))
}

#[cfg(test)]
mod tests {
    use super::*;

    const GOOD: &str = "ACT20130716T151031Z;BDT20130716T151031Z;DKG04;KEN255;KRN6;KTC2;SGC0000758825;";

    fn passes(text: &str) -> bool {
        incoming(text.as_bytes()).is_some()
    }

    #[test]
    fn example_6_3_5_4() {
        let card = incoming(GOOD.as_bytes()).unwrap();
        assert_eq!(card.pair(), (&b"0000758825"[..], &b"6"[..]));
        let space = store(&card, b"KMC1", b"92E101");
        let printed = b"ACT20130716T151031Z;BDT20130716T151031Z;CLMFFFFFFFF;CLU0;DKG04;IUT20380119T031407Z;KCV92E101;KEN255;KRN6;KSLKMC1;KTC2;SBMFFFF;SGC0000758825;ULM999999999;VND0;";
        assert_eq!(written(&space), printed);
        let stored = stored(&space).unwrap();
        assert_eq!((stored.pair(), stored.slot()), ((&b"0000758825"[..], &b"6"[..]), &b"KMC1"[..]));
    }

    #[test]
    fn example_6_3_8_4_is_as_stored() {
        let text = b"ACT20040301T140000Z;BDT19930101T000000Z;CLMFFFFFFFF;CLU0;DKG04;IUT20150301T140000Z;KCV6C3DE4;KEN255;KRN1;KSLTestKMCName;KTC2;SBMFFFF;SGC0000123457;ULM999999999;VND1;";
        let mut space = [0; SPACE];
        space[..text.len()].copy_from_slice(text);
        assert!(stored(&space).is_some());
    }

    #[test]
    fn sample_values() {
        assert!(passes(GOOD));
        assert!(!passes(&GOOD.replace("KEN255;KRN6;", "KRN6;KEN255;")));
        assert!(!passes(&GOOD.replace("KRN6", "KRN0")));
        assert!(!passes(&GOOD.replace("KEN255", "KEN256")));
        assert!(!passes(&GOOD.replace("KEN255", "KEN007")));
    }

    #[test]
    fn each_required_name() {
        for entry in GOOD.split_terminator(';') {
            assert!(!passes(&GOOD.replace(&format!("{entry};"), "")), "{entry}");
            assert!(!passes(&GOOD.replace(entry, &entry[..3])), "{entry}");
            assert!(!passes(&GOOD.replace(&format!("{entry};"), &format!("{entry};{entry};"))), "{entry}");
        }
    }

    #[test]
    fn unknown_and_own_names() {
        assert!(passes(&GOOD.replace("KEN", "EXP;KEN")));
        assert!(passes(&GOOD.replace("KEN", "EXPany thing};KEN")));
        assert!(!passes(&GOOD.replace("KEN", "KAA1;KAA2;KEN")));
        assert!(!passes(&GOOD.replace("KEN", "ZZZ1;KEN")));
        assert!(!passes(&GOOD.replace("KEN", "EXp1;KEN")));
        assert!(passes(&GOOD.replace("DKG", "CLU77;DKG")));
        assert!(!passes(&GOOD.replace("DKG", "CLU;DKG")));
        assert!(passes(&format!("{GOOD}VNDx;")));
        assert!(!passes(&format!("{GOOD}VND;")));
        assert!(!passes(&GOOD.replace("DKG", "CLM44fa0000;DKG")));
        assert!(passes(&GOOD.replace("DKG", "CLM44FA0000;DKG")));
        assert!(!passes(&GOOD.replace("KEN", ";KEN")));
        assert!(!passes(GOOD.strip_suffix(';').unwrap()));
        assert!(!passes("") && !passes(";"));
    }

    /// As printed, CLM is in small letters. With capitals they pass, and SGN is kept, also the one of 24 bytes.
    #[test]
    fn cards_of_003_appendix_a() {
        let rest = "ACT20160425T114321Z;BDT19930101T000000Z;CLM44fa0000;CLU0;DKG02;EXP20170506T215959Z;IUT20160903T102658Z;KCV17D819;KEN255;KRN1;KTC2;SBMFFFF;SGC0000112233;";
        for (name, length) in [("SURELOAD KMC TEST VUDK 1", 24), ("ACME", 4)] {
            assert_eq!(name.len(), length);
            let printed = format!("{rest}SGN{name};ULM1000;");
            assert!(!passes(&printed));
            let capitals = printed.replace("44fa", "44FA");
            let card = incoming(capitals.as_bytes()).unwrap();
            assert_eq!(card.group_name(), Some(name.as_bytes()));
            let due = format!("ACT20160425T114321Z;BDT19930101T000000Z;CLM44FA0000;CLU0;DKG02;IUT20160903T102658Z;KCV17D819;KEN255;KRN1;KSLK0001;KTC2;SBMFFFF;SGC0000112233;SGN{name};ULM1000;VND0;");
            let space = store(&card, b"K0001", b"17D819");
            assert_eq!(written(&space), due.as_bytes());
            assert_eq!(stored(&space).unwrap().group_name(), Some(name.as_bytes()));
        }
    }

    /// An incoming card with such a text after SGC.
    fn after_sgc(text: &str) -> String {
        format!("{GOOD}{text}")
    }

    #[test]
    fn group_name_of_an_incoming_card() {
        let name = |text: &str| incoming(text.as_bytes()).map(|card| card.group_name().map(<[u8]>::to_vec));
        assert_eq!(name(GOOD), Some(None));
        for length in 0..=26 {
            let value = "x".repeat(length);
            let due = (length <= 24).then(|| Some(value.clone().into_bytes()));
            assert_eq!(name(&after_sgc(&format!("SGN{value};"))), due);
            assert_eq!(name(&after_sgc(&format!("SGN{value};ULM5;"))), due);
        }
        // Each byte that a value may have; a semicolon ends the entry, and what follows is the next.
        for byte in 0..=255 {
            let card = [GOOD.as_bytes(), b"SGNa", &[byte], b"b;"].concat();
            let right = (0x20..=0x7D).contains(&byte) && byte != b';' && byte != b'|';
            assert_eq!(incoming(&card).is_some(), right, "{byte:02X}");
        }
        assert_eq!(name(&after_sgc("SGNTHE;TOWN;")), Some(Some(b"THE".to_vec())));
        // Out of place, twice, without its semicolon; names near it are unknown ones.
        for wrong in ["SGNa;SGNa;", "SGNa;SGNb;", "SGN;SGN;", "ULM5;SGNa;", "VND0;SGNa;", "SGNa", "SGn;", "SG;"] {
            assert_eq!(name(&after_sgc(wrong)), None, "{wrong}");
        }
        for place in ["ACT", "BDT", "DKG", "KEN", "KRN", "KTC", "SGC"] {
            assert_eq!(name(&GOOD.replace(place, &format!("SGNa;{place}"))), None, "{place}");
        }
        assert_eq!(name(&after_sgc("SGMx;SGNa;SGO;")), Some(Some(b"a".to_vec())));
        assert_eq!(name(&after_sgc(&format!("SGM{};SGO;", "x".repeat(25)))), Some(None));
        assert_eq!(name(&after_sgc("SGOx;SGNa;")), None);
    }

    #[test]
    fn group_name_of_a_stored_card() {
        let as_stored = |text: &str| {
            let mut space = [0; SPACE];
            space[..text.len()].copy_from_slice(text.as_bytes());
            stored(&space).map(|card| card.group_name().map(<[u8]>::to_vec))
        };
        let fifteen = store(&incoming(GOOD.as_bytes()).unwrap(), b"KMC1", b"92E101");
        let fifteen = String::from_utf8_lossy(written(&fifteen)).into_owned();
        assert_eq!(as_stored(&fifteen), Some(None));
        for length in 0..=26 {
            let value = "x".repeat(length);
            let sixteen = fifteen.replace("ULM", &format!("SGN{value};ULM"));
            assert_eq!(as_stored(&sixteen), (length <= 24).then(|| Some(value.clone().into_bytes())));
            // What is stored for an incoming card is it, absent where SGN is absent, empty where it is empty.
            if length <= 24 {
                let card = after_sgc(&format!("SGN{value};"));
                assert_eq!(
                    written(&store(&incoming(card.as_bytes()).unwrap(), b"KMC1", b"92E101")),
                    sixteen.as_bytes()
                );
            }
        }
        for name in fifteen.split_terminator(';').map(|entry| &entry[..3]).filter(|name| *name != "ULM") {
            assert_eq!(as_stored(&fifteen.replace(name, &format!("SGNa;{name}"))), None, "before {name}");
        }
        assert_eq!(as_stored(&format!("{fifteen}SGNa;")), None);
        assert_eq!(as_stored(&fifteen.replace("ULM", "SGNa;SGNa;ULM")), None);
        assert_eq!(as_stored(&fifteen.replace("ULM", "SGOa;ULM")), None);
        // In place of another name, so that fifteen entries are there.
        assert_eq!(as_stored(&fifteen.replace("ULM999999999", "SGNa")), None);
        assert_eq!(as_stored(&fifteen.replace("SGC0000758825", "SGNa")), None);
        for wrong in ["\u{1f}", "~", "|", ";"] {
            assert_eq!(as_stored(&fifteen.replace("ULM", &format!("SGNa{wrong}b;ULM"))), None, "{wrong}");
        }
    }

    #[test]
    fn longest_stored_cards() {
        let name = format!("SGN{};", "n".repeat(24));
        for (given, loaded, vended) in [("", 194, 202), (&name, 222, 230)] {
            let card = after_sgc(given);
            let space = store(&incoming(card.as_bytes()).unwrap(), &[b'k'; 40], b"000000");
            assert_eq!(written(&space).len(), loaded);
            let longest = String::from_utf8_lossy(written(&space)).replace("VND0", "VND999999999");
            assert_eq!(longest.len(), vended);
            let mut space = [0; SPACE];
            space[..vended].copy_from_slice(longest.as_bytes());
            assert!(stored(&space).is_some());
        }
    }
}

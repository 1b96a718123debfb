//! Every identity and every record in the place of every other, with other types, field counts and delimiters.

use super::scenes::{self, begin, kmc, load, CARD, CLOCK, FINGERPRINT, TAG};
use super::world::own_identity;
use super::{requests, Bench};
use crate::{records, Command};

/// Types of identities and records, right and nearly right.
const TYPES: [&[u8]; 18] = [
    b"KMCID.1",
    b"SMID.1",
    b"PK.ECDH.1",
    b"VKLOAD.RESP.1",
    b"KEY.1",
    b"VKLOAD.REQ.1",
    b"PK.ECDSA.1",
    b"KMCID.2",
    b"SMID.2",
    b"KMCID.11",
    b"SMID",
    b"KMCID",
    b"kmcid.1",
    b"smid.1",
    b"XSMID.1",
    b"MCID.1",
    b"KEY.11",
    b"",
];

const CENTRE: [&[u8]; 4] = [b"ArbSWID", b"KMC2", b"20040101T120000Z", FINGERPRINT];
const MODULE: [&[u8]; 4] = [b"Prism", b"12345678", b"20130303T153830Z", b"E7C42215AF1FE951"];

/// A command with a record, the record's type and its fields.
type Shape<'a> = (Command, &'a [u8], &'a [&'a [u8]]);

/// Where an identity stands.
#[derive(Clone, Copy, PartialEq)]
enum Place {
    Begin,
    Centre,
    Module,
    Own,
}

impl Place {
    const ALL: [Place; 4] = [Place::Begin, Place::Centre, Place::Module, Place::Own];

    /// The type of the identity there, and its fields.
    fn right(self) -> (&'static [u8], [&'static [u8]; 4]) {
        match self {
            Place::Begin | Place::Centre => (b"KMCID.1", CENTRE),
            Place::Module | Place::Own => (b"SMID.1", MODULE),
        }
    }
}

pub fn identities(bench: &mut Bench) -> Result<(), String> {
    for place in Place::ALL {
        for kind in TYPES {
            // With the fields of both, since each has the other's form.
            for fields in [CENTRE, MODULE] {
                let parses = kind == place.right().0;
                if !parses || fields == place.right().1 {
                    in_place(bench, place, parses, true, &records::build(kind, b':', &fields))?;
                }
            }
        }
        shapes(bench, place)?;
        forms(bench, place)?;
    }
    whole_records(bench)
}

/// Field counts and delimiters of an identity.
fn shapes(bench: &mut Bench, place: Place) -> Result<(), String> {
    let (kind, fields) = place.right();
    let many: Vec<&[u8]> = fields.into_iter().chain([&b""[..], b"x", b"", b""]).collect();
    for count in 0..=many.len() {
        in_place(bench, place, count == 4, true, &records::build(kind, b':', &many[..count]))?;
    }
    for delimiter in [b':', b';', b',', b'.', b' '] {
        in_place(bench, place, delimiter == b':', true, &records::build(kind, delimiter, &fields))?;
    }
    Ok(())
}

/// Each field of an identity out of form.
fn forms(bench: &mut Bench, place: Place) -> Result<(), String> {
    let (kind, right) = place.right();
    let long = [b'k'; 41];
    let bad: [(usize, &[&[u8]]); 4] = [
        (0, &[b"", b"_", b"-", b".", b",", b"a b", b"a/b", b"a;b", b"a@b", b"a[b", b"a`b", b"a{b", &long]),
        (1, &[b"", b"_", b"-", b".", b",", b"a b", b"a/b", b"a;b", b"a@b", b"a[b", b"a`b", b"a{b", &long]),
        (2, &[b"", b"20130229T153830Z", b"20130303T153830", b"20130303T153830Z0", b"20130303t153830Z"]),
        (3, &[b"", b"65AF90C4DBAF23D", b"65AF90C4DBAF23D30", b"65AF90C4DBAF23d3", b"G5AF90C4DBAF23D3"]),
    ];
    for (field, values) in bad {
        for value in values {
            let mut fields = right;
            fields[field] = value;
            in_place(bench, place, true, false, &records::build(kind, b':', &fields))?;
        }
    }
    Ok(())
}

/// A call with an identity in its place, which parses or not and is in form or not.
fn in_place(bench: &mut Bench, place: Place, parses: bool, in_form: bool, identity: &[u8]) -> Result<(), String> {
    let mut supplement = scenes::supplement();
    let request = match place {
        Place::Begin => requests::begin(identity, b"04", b"20130303T153840Z", [b"", b""]),
        Place::Centre => requests::respond(identity, &own_identity(), CLOCK, TAG),
        Place::Module => requests::respond(&kmc(b"KMC2"), identity, CLOCK, TAG),
        Place::Own => {
            supplement.identity = [0; 128];
            supplement.identity[..identity.len()].copy_from_slice(identity);
            supplement.identity_length = identity.len();
            requests::bare(Command::RS)
        }
    };
    let outcome = match (parses, in_form) {
        (true, true) => 0,
        _ if place == Place::Own => 4,
        (true, false) => 10,
        _ => 9,
    };
    bench.expect(outcome, &mut scenes::tables(), &supplement, &request, 1024)
}

/// The records of the three commands: of every type, field count and delimiter, and each in the place of the others.
fn whole_records(bench: &mut Bench) -> Result<(), String> {
    let (centre, own) = (kmc(b"KMC2"), own_identity());
    let of_command: [Shape; 3] = [
        (Command::KC, b"PK.ECDH.1", &[&centre, b"04", b"20130303T153840Z", b"", b""]),
        (Command::KR, b"VKLOAD.RESP.1", &[&centre, &own, CLOCK, TAG]),
        (Command::KL, b"KEY.1", &[b"00", CARD, b"00"]),
    ];
    for (command, right, fields) in of_command {
        for (_, _, fields_of_any) in of_command {
            for kind in TYPES {
                let outcome = if kind == right && fields == fields_of_any { 0 } else { 9 };
                of_record(bench, command, outcome, &records::build(kind, b'|', fields_of_any))?;
            }
        }
        let many: Vec<&[u8]> = fields.iter().copied().chain([&b""[..], b"", b"x"]).collect();
        for count in 0..=many.len() {
            let outcome = if count == fields.len() { 0 } else { 9 };
            of_record(bench, command, outcome, &records::build(right, b'|', &many[..count]))?;
        }
        for delimiter in [b'|', b':', b';', b',', b' '] {
            let outcome = if delimiter == b'|' { 0 } else { 9 };
            of_record(bench, command, outcome, &records::build(right, delimiter, fields))?;
        }
        for identity in [&centre, &own] {
            of_record(bench, command, 9, identity)?;
        }
    }
    // The whole requests under the headers of the others: fields of question 8 first.
    for (command, outcome, request) in [
        (Command::KR, 9, begin(b"KMC2")),
        (Command::KC, 9, requests::respond(&centre, &own, CLOCK, TAG)),
        (Command::KC, 8, load(CARD)),
        (Command::KR, 8, load(CARD)),
        (Command::KL, 8, begin(b"KMC2")),
    ] {
        let request = requests::frame(command.header(), &request[5..request.len() - 5]);
        bench.expect(outcome, &mut scenes::tables(), &scenes::supplement(), &request, 1024)?;
    }
    Ok(())
}

fn of_record(bench: &mut Bench, command: Command, outcome: u8, record: &[u8]) -> Result<(), String> {
    let slot = if command == Command::KL { requests::string(b"KMC1") } else { Vec::new() };
    let request = requests::frame(command.header(), &[slot, requests::string(record)].concat());
    bench.expect(outcome, &mut scenes::tables(), &scenes::supplement(), &request, 1024)
}

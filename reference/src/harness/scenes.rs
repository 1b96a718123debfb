//! For each command, tables, a supplement and a request that is accepted.

use super::tables::Tables;
use super::world::own_identity;
use super::{edits, requests};
use crate::rows::{IDLE, LOADING, PENDING};
use crate::{Command, Supplement};

pub const CLOCK: &[u8; 16] = b"20130303T153839Z";
pub const TAG: &[u8; 48] = b"A9FE9315B7456852D261B5A42364C4F5AF9693DB0D6931B6";
pub const FINGERPRINT: &[u8; 16] = b"65AF90C4DBAF23D3";
pub const CARD: &[u8] = b"ACT20130716T151031Z;BDT20130716T151031Z;DKG04;KEN255;KRN6;KTC2;SGC0000758825;";
pub const FULL_CARD: &[u8] = b"AAA;ACT20130716T151031Z;BDT20130716T151031Z;CLM44FA0000;CLU7;DKG02;EXPx;IUT20150301T140000Z;KCVx;KEN10;KRN1;KSLy;KTC0;SBM0001;SGC0000123457;SGNMy group;ULM1000;VND1;ZZZ;";
/// What the registers of the scenes keep.
pub const STORED: &str = "ACT20040301T140000Z;BDT19930101T000000Z;CLMFFFFFFFF;CLU0;DKG04;IUT20150301T140000Z;KCV6C3DE4;KEN255;KRN1;KSLKMC1;KTC2;SBMFFFF;SGC0000123457;ULM999999999;VND0;";

pub struct Scene {
    pub tables: Tables,
    pub supplement: Supplement,
    pub request: Vec<u8>,
    /// Where the request's records stand.
    pub records: Vec<(usize, usize)>,
}

pub fn supplement() -> Supplement {
    requests::supplement(CLOCK, &own_identity(), b"VKLOAD.REQ.1|any|67DF", TAG, b"92E101")
}

/// KMC1 LOADING, KMC2 PENDING, KMC3 IDLE, a free slot; an open key of KMC1, a closed one of KMC3, a free register.
pub fn tables() -> Tables {
    let mut tables = Tables::empty(4, 3);
    tables.put_slot(0, LOADING, b"KMC1", FINGERPRINT, b"");
    tables.put_slot(1, PENDING, b"KMC2", FINGERPRINT, CLOCK);
    tables.put_slot(2, IDLE, b"KMC3", FINGERPRINT, b"");
    tables.put_open_card(0, STORED.as_bytes());
    tables.put_card(1, STORED.replace("KSLKMC1", "KSLKMC3").replace("KRN1", "KRN2").as_bytes());
    tables
}

pub fn kmc(name: &[u8]) -> Vec<u8> {
    requests::identity(b"KMCID.1", b"ArbSWID", name, b"20040101T120000Z", FINGERPRINT)
}

/// Requests that `tables()` accept; SM?KQ has one for each state.
pub fn good(command: Command) -> Vec<Vec<u8>> {
    match command {
        Command::RS | Command::GL => vec![requests::bare(command)],
        Command::KC => vec![begin(b"KMC1"), begin(b"KMC4")],
        Command::KR => vec![requests::respond(&kmc(b"KMC2"), &own_identity(), CLOCK, TAG)],
        Command::KL => vec![load(CARD), load(FULL_CARD)],
        Command::KF => vec![requests::of_slot(command, b"KMC2")],
        Command::KX => vec![requests::of_slot(command, b"KMC3")],
        Command::KQ => [b"KMC1", b"KMC2", b"KMC3"].map(|slot| requests::of_slot(command, slot)).to_vec(),
        Command::KD | Command::GA => vec![requests::of_register(command, 2)],
    }
}

pub fn begin(name: &[u8]) -> Vec<u8> {
    requests::begin(&kmc(name), b"046B54", b"20130303T153840Z", [b"", b""])
}

pub fn load(card: &[u8]) -> Vec<u8> {
    requests::load(b"KMC1", b"00000A", card, b"42A08D")
}

pub fn all() -> Vec<Scene> {
    let requests = Command::ALL.into_iter().flat_map(good);
    requests
        .map(|request| Scene {
            tables: tables(),
            supplement: supplement(),
            records: edits::records_in(&request),
            request,
        })
        .collect()
}

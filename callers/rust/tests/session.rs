//! From power-up to a key that may vend, its refresh, and rows of an older version.

use diminurel::{Refusal, Register, Rows, Slot, SlotState, Supplement};

const PUBLIC_KEY: &[u8] =
    b"SM?KCPPK.ECDH.1|KMCID.1:SW1:NORTH:20200101T000000Z:1111111111111111:4ADD|04|20300101T000000Z|||9933~2B75\r";
const RESPONSE: &[u8] = b"SM?KRPVKLOAD.RESP.1|KMCID.1:SW1:NORTH:20200101T000000Z:1111111111111111:4ADD|\
    SMID.1:Prism:12345678:20130303T153830Z:E7C42215AF1FE951:9C7D|20260105T090000Z|\
    A1A1A1A1A1A1A1A1A1A1A1A1A1A1A1A1A1A1A1A1A1A1A1A1|F5D4~2396\r";
const KEY: &[u8] = b"SM?KLPNORTH~PKEY.1|01|ACT20250101T000000Z;BDT19930101T000000Z;DKG04;KEN255;KRN6;KTC2;\
    SGC0000758825;|02|5392~002E\r";
const FINISH: &[u8] = b"SM?KFPNORTH~E2B1\r";
const STORED: &str = "SM!KL00N1~PACT20250101T000000Z;BDT19930101T000000Z;CLMFFFFFFFF;CLU0;DKG04;IUT20380119T031407Z;\
    KCV111111;KEN255;KRN6;KSLNORTH;KTC2;SBMFFFF;SGC0000758825;ULM999999999;VND0;~A37C\r";

fn padded<const N: usize>(text: &[u8]) -> [u8; N] {
    std::array::from_fn(|place| text.get(place).copied().unwrap_or(0))
}

fn supplement() -> Supplement {
    let identity = b"SMID.1:Prism:12345678:20130303T153830Z:E7C42215AF1FE951:9C7D";
    let request = b"VKLOAD.REQ.1";
    Supplement {
        clock: *b"20260105T090000Z",
        identity: padded(identity),
        identity_length: identity.len(),
        request: padded(request),
        request_length: request.len(),
        tag: *b"A1A1A1A1A1A1A1A1A1A1A1A1A1A1A1A1A1A1A1A1A1A1A1A1",
        check: *b"111111",
        passed: 1,
    }
}

type Answer = Result<(Option<SlotState>, String), Refusal>;

fn hand_in(rows: &mut Rows, request: &[u8]) -> Answer {
    let mut buffer = [0; 1024];
    match rows.handle(&supplement(), request, &mut buffer) {
        Ok(accepted) => Ok((accepted.state, String::from_utf8_lossy(accepted.response).into_owned())),
        Err(refused) => Err(refused.refusal),
    }
}

fn left(state: SlotState, response: &str) -> Answer {
    Ok((Some(state), response.into()))
}

fn told(response: &str) -> Answer {
    Ok((None, response.into()))
}

/// A centre introduces itself, answers the load request, and sends a key.
fn load(rows: &mut Rows) {
    for (request, state) in
        [(PUBLIC_KEY, SlotState::Pending), (RESPONSE, SlotState::Loading), (KEY, SlotState::Loading)]
    {
        assert_eq!(hand_in(rows, request).map(|(left, _)| left), Ok(Some(state)));
    }
}

#[test]
fn session() {
    let (mut slots, mut registers) = ([Slot::FREE; 8], [Register::FREE; 32]);
    let mut rows = Rows { slots: &mut slots, registers: &mut registers };
    assert_eq!(hand_in(&mut rows, b"GL?RSCEEF\r"), told("GL!RS00B271\r"));
    assert_eq!(hand_in(&mut rows, KEY), Err(Refusal::UnknownSlot));
    assert_eq!(hand_in(&mut rows, PUBLIC_KEY), left(SlotState::Pending, "SM!KC00PNORTH~PVKLOAD.REQ.1~E27D\r"));
    assert_eq!(hand_in(&mut rows, KEY), Err(Refusal::WrongState));
    assert_eq!(hand_in(&mut rows, RESPONSE), left(SlotState::Loading, "SM!KR00PNORTH~B4AA\r"));
    assert_eq!(hand_in(&mut rows, KEY), left(SlotState::Loading, STORED));
    assert!(rows.registers[0].is_open() && !rows.usable(1));
    assert_eq!(hand_in(&mut rows, FINISH), left(SlotState::Idle, "SM!KF00FA32\r"));
    assert!(!rows.registers[0].is_open() && rows.usable(1) && !rows.usable(2));
    assert_eq!(hand_in(&mut rows, b"SM?GL6991\r"), told("SM!GL00PNORTH~84F5\r"));
    assert_eq!(hand_in(&mut rows, b"SM?GAN12~8602\r"), Err(Refusal::EmptyRegister));
}

/// The key vends while a new one is on request, until that one is loaded; then again once the session is closed.
#[test]
fn refresh() {
    let (mut slots, mut registers) = ([Slot::FREE; 8], [Register::FREE; 32]);
    let mut rows = Rows { slots: &mut slots, registers: &mut registers };
    load(&mut rows);
    hand_in(&mut rows, FINISH).expect("the session is closed");
    for (request, vends) in [(PUBLIC_KEY, true), (RESPONSE, true), (KEY, false), (PUBLIC_KEY, false), (FINISH, true)] {
        hand_in(&mut rows, request).expect("each is accepted");
        assert_eq!((rows.usable(1), rows.registers[0].is_open()), (vends, !vends));
    }
}

/// Rows as a version before 0.4.0 stored them have no marks: a zero behind each card, then GL?RS.
#[test]
fn older_rows() {
    let (mut slots, mut registers) = ([Slot::FREE; 8], [Register::FREE; 32]);
    load(&mut Rows { slots: &mut slots, registers: &mut registers });
    let older: [[u8; 256]; 32] = registers.map(|row| row.card);
    let mut registers = older.map(Register::closed);
    let mut rows = Rows { slots: &mut slots, registers: &mut registers };
    assert_eq!(hand_in(&mut rows, b"GL?RSCEEF\r"), told("GL!RS00B271\r"));
    assert_eq!(hand_in(&mut rows, KEY), Err(Refusal::WrongState));
    assert!(rows.usable(1) && !rows.registers[0].is_open());
}

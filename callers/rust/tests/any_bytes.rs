//! Arbitrary bytes everywhere: a request is accepted exactly where it is due, no byte beyond the response is changed,
//! and no row by a refusal.

use diminurel::{Refusal, Register, Rows, Slot, Supplement};

struct Random(u64);

impl Random {
    fn byte(&mut self) -> u8 {
        self.0 = self.0.wrapping_mul(6364136223846793005).wrapping_add(1442695040888963407);
        (self.0 >> 33) as u8
    }

    fn below(&mut self, bound: usize) -> usize {
        (usize::from(self.byte()) << 8 | usize::from(self.byte())) % bound
    }

    fn bytes<const N: usize>(&mut self) -> [u8; N] {
        std::array::from_fn(|_| self.byte())
    }

    fn list(&mut self, length: usize) -> Vec<u8> {
        (0..length).map(|_| self.byte()).collect()
    }

    fn slot(&mut self) -> Slot {
        Slot { state: self.byte(), kmcid: self.bytes(), fingerprint: self.bytes(), tvp: self.bytes() }
    }

    fn register(&mut self) -> Register {
        Register { card: self.bytes(), mark: self.byte() }
    }

    fn supplement(&mut self) -> Supplement {
        Supplement {
            clock: self.bytes(),
            identity: self.bytes(),
            identity_length: self.below(300),
            request: self.bytes(),
            request_length: self.below(1_000),
            tag: self.bytes(),
            check: self.bytes(),
            passed: self.byte(),
        }
    }
}

fn good_supplement() -> Supplement {
    let own = b"SMID.1:Prism:12345678:20130303T153830Z:E7C42215AF1FE951:9C7D";
    let mut identity = [0; 128];
    identity[..own.len()].copy_from_slice(own);
    Supplement {
        clock: *b"20260101T000000Z",
        identity,
        identity_length: own.len(),
        request: [b'V'; 700],
        request_length: 1,
        tag: [b'0'; 48],
        check: [b'0'; 6],
        passed: 1,
    }
}

/// Requests that free rows accept.
const GOOD: [&[u8]; 3] = [
    b"GL?RSCEEF\r",
    b"SM?GL6991\r",
    b"SM?KCPPK.ECDH.1|KMCID.1:SW1:A:20200101T000000Z:AAAAAAAAAAAAAAAA:9BE0|04|20300101T000000Z|||BE23~9E67\r",
];

struct Call {
    slots: Vec<Slot>,
    registers: Vec<Register>,
    supplement: Supplement,
    request: Vec<u8>,
    buffer: Vec<u8>,
    /// It must be accepted.
    due: bool,
}

/// The supplement is good in every second turn, the request and its buffer in every fourth, the rows are free in two
/// turns of three.
fn call(random: &mut Random, turn: usize) -> Call {
    let (framed, is_free) = (turn % 4 == 0, turn % 3 != 0);
    let (slots, registers) = (random.below(11), random.below(36));
    let (length, room) = (random.below(1_100), random.below(1_100));
    Call {
        slots: (0..slots).map(|_| if is_free { Slot::FREE } else { random.slot() }).collect(),
        registers: (0..registers).map(|_| if is_free { Register::FREE } else { random.register() }).collect(),
        supplement: if turn % 2 == 0 { good_supplement() } else { random.supplement() },
        request: if framed { GOOD[random.below(3)].to_vec() } else { random.list(length) },
        buffer: random.list(if framed { 1_024 + room } else { room }),
        due: framed && is_free && (1..=8).contains(&slots) && (1..=32).contains(&registers),
    }
}

#[test]
fn any_bytes() {
    let mut random = Random(1);
    let mut accepted = 0;
    for turn in 0..5_000 {
        let Call { mut slots, mut registers, supplement, request, mut buffer, due } = call(&mut random, turn);
        let before = (slots.clone(), registers.clone(), buffer.clone());
        let mut rows = Rows { slots: &mut slots, registers: &mut registers };
        let answer = rows.handle(&supplement, &request, &mut buffer);
        rows.usable(random.below(40));
        assert_eq!(answer.is_ok(), due, "turn {turn}: {answer:?}");
        let response = match answer {
            Ok(accepted) => accepted.response,
            Err(refused) => {
                assert_ne!(refused.refusal, Refusal::Misfit);
                refused.response
            }
        };
        assert!(response.is_empty() || response.ends_with(b"\r"));
        let length = response.len();
        assert_eq!(buffer[length..], before.2[length..]);
        assert!(due || (slots == before.0 && registers == before.1));
        accepted += usize::from(due);
    }
    assert!(accepted > 500, "{accepted} were accepted");
}

#[test]
fn nothing_lent() {
    let mut rows = Rows { slots: &mut [], registers: &mut [] };
    let refused = rows.handle(&good_supplement(), &[], &mut []).expect_err("no rows are no module");
    assert_eq!((refused.refusal, refused.response.len()), (Refusal::RowCounts, 0));
    assert!(!rows.usable(1));
}

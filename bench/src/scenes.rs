//! What is measured: tables of three fillings, full ones of further contents, and the calls over them. Requests,
//! supplement and cards have the lengths of the examples of 001 clause 6.3, but where a content says otherwise.

use reference::harness::requests;
use reference::harness::tables::Tables;
use reference::rows::{IDLE, LOADING, OPEN, PENDING};
use reference::{Command, Supplement};

const CLOCK: &[u8; 16] = b"20130303T153839Z";
const EXPIRY: &[u8; 16] = b"99991231T115959Z";
const FINGERPRINT: &[u8; 16] = b"8E22231BC992010A";
const TAG: &[u8; 48] = b"A9FE9315B7456852D261B5A42364C4F5AF9693DB0D6931B6";
const KEY: &[u8] = b"046B540E54A9FE9315B7456852D261B5A42364C4F5AF9693DB0D695A03E6E06C696B2AB03C4613334A53FDD5D543701FAA281564231575002810574B7748B327C0329B0F5C1205158B229DB6F0AE5A065CDB64E62BC131A1C434DEFEF46A567BD7";
const LOAD_REQUEST: &[u8] = b"VKLOAD.REQ.1|SMID.1:Prism:12345678:20130303T153830Z:829DB2CB4141BBBA:8552|KMCID.1:SoftwareV2.3:KMCName:20130301T173830Z:8E22231BC992010A:A4A4|20130303T153831Z|Prism-TSM250-1|STS65V00|0404DFC9D6464028EB3D718CD8BA3246F3B32E2CD040C8DAA2CEC46ADD57823E8828B33103FE46EC7C7700A3CB22CECDF7B9211E15EF826F22C38D48B6C93A875BB617AB2696F3C27217FA20D98070CA0004C8D8A67F66A463FFD1B50415EC2206|4D8D3283875E86CCEF4328FF5B520B370FA281CDAD19DA6A|67DF";
const NONCE: &[u8] = b"00000000000000000000000A";
const ENCRYPTED: &[u8] = b"42A08D17E89E5B9DE6F863E13D044853B49880FE8560C449B61A77986079DB14E015734E";

/// What the filled rows hold. Cards take the values of a list in turn.
#[derive(Clone, Copy)]
struct Content {
    /// Follows the command.
    title: &'static str,
    /// What a slot's name has before its four digits.
    name: &'static str,
    /// Whether the numbers of the names go down from row to row.
    descending: bool,
    /// How many registers, one after the other, are under the same slot.
    block: usize,
    /// ACT, BDT and IUT.
    moments: &'static [[&'static str; 3]],
    /// KEN, ULM and VND.
    numbers: &'static [[&'static str; 3]],
    /// The entries of SGN, empty where a card has none.
    group_names: &'static [&'static str],
}

const EXAMPLES: Content = Content {
    title: "",
    name: "Example-KMC-",
    descending: false,
    block: 1,
    moments: &[["20130716T151031Z", "20130716T151031Z", "20380119T031407Z"]],
    numbers: &[["255", "999999999", "0"]],
    group_names: &[""],
};

const BLOCKS: Content = Content { title: ", registers in blocks", block: 4, ..EXAMPLES };

const LONG_NAMES: Content =
    Content { title: ", names of 40 bytes", name: "Example-Key-Management-Centre-North-", ..EXAMPLES };

/// No row is where SM?GL lists it.
const DESCENDING: Content = Content { title: ", rows descending", descending: true, ..LONG_NAMES };

const LATE_DAYS: Content = Content {
    title: ", days after the 28th",
    moments: &[
        ["20130129T151031Z", "20120229T151031Z", "20381231T031407Z"],
        ["20130730T151031Z", "20130430T151031Z", "20380330T031407Z"],
        ["20130831T151031Z", "20130531T151031Z", "20400229T031407Z"],
    ],
    ..EXAMPLES
};

/// Each length that the number may have.
const OTHER_NUMBERS: Content = Content {
    title: ", numbers of all lengths",
    numbers: &[
        ["0", "1", "987654321"],
        ["42", "12", "98765432"],
        ["127", "123", "9876543"],
        ["7", "1234", "987654"],
        ["99", "12345", "98765"],
        ["200", "123456", "9876"],
        ["9", "1234567", "987"],
        ["10", "12345678", "98"],
        ["255", "123456789", "9"],
    ],
    ..EXAMPLES
};

/// All of them at once.
const MIXED: Content = Content {
    title: ", all of these",
    block: BLOCKS.block,
    name: LONG_NAMES.name,
    descending: false,
    moments: LATE_DAYS.moments,
    numbers: OTHER_NUMBERS.numbers,
    group_names: &[""],
};

/// The longest that a card may have (document 02, N2).
const GROUP_NAMES: Content =
    Content { title: ", SGN of 24 bytes", group_names: &["SGNSURELOAD KMC TEST VUDK 1;"], ..EXAMPLES };

/// Cards with it and without beside each other.
const SOME_GROUP_NAMES: Content = Content {
    title: ", SGN in some",
    group_names: &["", "SGNACME;", "SGN;", "", "SGNSURELOAD KMC TEST VUDK 1;"],
    ..EXAMPLES
};

/// One friendly content would hide what a quick way costs elsewhere.
const FURTHER: [Content; 5] = [BLOCKS, LONG_NAMES, LATE_DAYS, OTHER_NUMBERS, MIXED];

/// How many rows there are, how many of them are filled, and with what.
#[derive(Clone, Copy)]
struct Filling {
    title: &'static str,
    content: Content,
    slots: usize,
    registers: usize,
    filled_slots: usize,
    filled_registers: usize,
}

const FULL: Filling =
    Filling { title: "full", content: EXAMPLES, slots: 8, registers: 32, filled_slots: 8, filled_registers: 32 };
const FILLINGS: [Filling; 3] = [
    Filling { title: "1", content: EXAMPLES, slots: 1, registers: 1, filled_slots: 1, filled_registers: 1 },
    Filling { title: "half", content: EXAMPLES, slots: 8, registers: 32, filled_slots: 4, filled_registers: 16 },
    FULL,
];

pub enum Call {
    /// A request, and the outcome that is due.
    Handle(Vec<u8>, u8),
    /// A register, and whether its key may vend.
    Usable(usize, bool),
}

/// Calls one after the other, from these rows on.
pub struct Scene {
    pub rows: &'static str,
    pub title: String,
    pub tables: Tables,
    pub supplement: Supplement,
    pub room: usize,
    pub calls: Vec<Call>,
}

fn group(place: usize) -> String {
    format!("{:010}", 758_825 + place)
}

fn own_identity() -> Vec<u8> {
    requests::identity(b"SMID.1", b"Prism", b"12345678", b"20130303T153830Z", b"829DB2CB4141BBBA")
}

fn kmc(name: &[u8]) -> Vec<u8> {
    requests::identity(b"KMCID.1", b"SoftwareV2.3", name, b"20130301T173830Z", FINGERPRINT)
}

fn supplement() -> Supplement {
    requests::supplement(CLOCK, &own_identity(), LOAD_REQUEST, TAG, b"92E101")
}

fn begin(name: &[u8]) -> Vec<u8> {
    requests::begin(&kmc(name), KEY, EXPIRY, [b"", b""])
}

fn respond(name: &[u8]) -> Vec<u8> {
    requests::respond(&kmc(name), &own_identity(), CLOCK, TAG)
}

/// The request with the last digit of its record's checksum changed, and its frame made right.
fn spoilt(mut request: Vec<u8>) -> Vec<u8> {
    let end = request.len() - 5;
    request[end - 2] ^= 1;
    requests::frame(&request[..5], &request[5..end])
}

impl Content {
    fn name(&self, place: usize) -> Vec<u8> {
        let number = if self.descending { 9999 - place } else { place + 1 };
        format!("{}{number:04}", self.name).into_bytes()
    }

    fn stored(&self, place: usize, slot: &[u8]) -> Vec<u8> {
        let [act, bdt, iut] = self.moments[place % self.moments.len()];
        let [ken, ulm, vnd] = self.numbers[place % self.numbers.len()];
        let (group, revision, slot) = (group(place), place % 9 + 1, String::from_utf8_lossy(slot));
        let name = self.group_names[place % self.group_names.len()];
        let start = format!("ACT{act};BDT{bdt};CLMFFFFFFFF;CLU0;DKG04;IUT{iut};KCV92E101;KEN{ken};KRN{revision};");
        let end = format!("KSL{slot};KTC2;SBMFFFF;SGC{group};{name}ULM{ulm};VND{vnd};");
        (start + &end).into_bytes()
    }

    /// SM?KL of the key that `stored` has at a place.
    fn load(&self, slot: &[u8], place: usize) -> Vec<u8> {
        let [act, bdt, _] = self.moments[place % self.moments.len()];
        let [ken, ..] = self.numbers[place % self.numbers.len()];
        let (group, revision) = (group(place), place % 9 + 1);
        let name = self.group_names[place % self.group_names.len()];
        let card = format!("ACT{act};BDT{bdt};DKG04;KEN{ken};KRN{revision};KTC2;SGC{group};{name}");
        requests::load(slot, NONCE, card.as_bytes(), ENCRYPTED)
    }
}

impl Filling {
    /// Slots IDLE, but the last filled one in a state; each slot in turn has a block of registers. Keys are closed, but
    /// those of a LOADING slot are open, as if its session had loaded each of them.
    fn tables(self, state: u8) -> Tables {
        let mut tables = Tables::empty(self.slots, self.registers);
        let name = |place: usize| self.content.name(place);
        let last = self.filled_slots - 1;
        for place in 0..last {
            tables.put_slot(place, IDLE, &name(place), FINGERPRINT, b"");
        }
        tables.put_slot(last, state, &name(last), FINGERPRINT, if state == PENDING { CLOCK } else { b"" });
        for place in 0..self.filled_registers {
            let owner = place / self.content.block % self.filled_slots;
            tables.put_card(place, &self.content.stored(place, &name(owner)));
            if owner == last && state == LOADING {
                tables.registers[place].mark = OPEN;
            }
        }
        tables
    }

    /// The last filled slot, which every search finds last.
    fn last(self) -> Vec<u8> {
        self.content.name(self.filled_slots - 1)
    }

    /// A slot for SM?KC and a key for SM?KL: new where there are free rows, else the last.
    fn taken(self) -> (Vec<u8>, usize) {
        let (slot, key) = (self.filled_slots.min(self.slots - 1), self.filled_registers.min(self.registers - 1));
        (self.content.name(slot), key)
    }

    fn scene(self, title: &str, tables: Tables, calls: Vec<Call>) -> Scene {
        Scene { rows: self.title, title: title.to_string(), tables, supplement: supplement(), room: 1024, calls }
    }

    /// An accepted request of a command.
    fn accepted(self, command: Command) -> Scene {
        let (slot, key) = self.taken();
        let register = self.filled_registers as u64;
        let (state, request) = match command {
            Command::RS | Command::GL => (LOADING, requests::bare(command)),
            Command::KC => (IDLE, begin(&slot)),
            Command::KR => (PENDING, respond(&self.last())),
            Command::KL => (LOADING, self.content.load(&self.last(), key)),
            Command::KF => (LOADING, requests::of_slot(command, &self.last())),
            Command::KX | Command::KQ => (IDLE, requests::of_slot(command, &self.last())),
            Command::KD | Command::GA => (IDLE, requests::of_register(command, register)),
        };
        let title = String::from_utf8_lossy(command.header()).into_owned() + self.content.title;
        self.scene(&title, self.tables(state), vec![Call::Handle(request, 0)])
    }

    /// A session from beginning to end, questions about it, and requests that are refused, with eleven of the numbers that a request can bring about.
    fn history(self) -> Scene {
        let slot = self.last();
        let key = self.filled_registers - 1;
        let register = self.filled_registers as u64;
        let load = || self.content.load(&slot, key);
        let of_slot = |command: Command| requests::of_slot(command, &slot);
        let of_register = |command: Command| requests::of_register(command, register);
        let forged = requests::respond(&kmc(&slot), &own_identity(), CLOCK, &[&TAG[1..], b"0"].concat());
        let calls = [
            (requests::bare(Command::RS), 0),
            (requests::bare(Command::GL), 0),
            (of_slot(Command::KQ), 0),
            (requests::begin(&kmc(&slot), KEY, CLOCK, [b"", b""]), 11),
            (begin(&slot), 0),
            (load(), 14),
            (forged, 18),
            (respond(&slot), 0),
            (respond(&slot), 14),
            (load(), 0),
            (requests::load(&slot, NONCE, b"ACT20130716T151031Z;BDT20130716T151031Z;", ENCRYPTED), 10),
            (of_register(Command::GA), 0),
            (of_slot(Command::KQ), 0),
            (of_register(Command::KD), 0),
            (of_register(Command::KD), 21),
            (load(), 0),
            (of_slot(Command::KF), 0),
            (of_slot(Command::KF), 14),
            (requests::of_slot(Command::KX, b"Example-KMC"), 12),
            (requests::frame(b"SM?DI", b""), 7),
            (requests::frame(Command::KD.header(), b"P1~"), 8),
            (b"SM?GAN1~0000\r".to_vec(), 6),
            (begin(&slot)[..40].to_vec(), 5),
            (spoilt(load()), 9),
            (of_slot(Command::KX), 0),
        ];
        let calls = calls.into_iter().map(|(request, outcome)| Call::Handle(request, outcome)).collect();
        self.scene("mixed history", self.tables(LOADING), calls)
    }

    /// SM?KQ of a slot that has every key: no response has more numbers.
    fn longest_query(self) -> Scene {
        let slot = self.last();
        let mut tables = self.tables(IDLE);
        for place in 0..self.filled_registers {
            tables.put_card(place, &self.content.stored(place, &slot));
        }
        let request = requests::of_slot(Command::KQ, &slot);
        self.scene("SM?KQ, every key of one slot", tables, vec![Call::Handle(request, 0)])
    }

    fn scenes(self) -> Vec<Scene> {
        let mut scenes: Vec<Scene> = Command::ALL.into_iter().map(|command| self.accepted(command)).collect();
        scenes.push(self.history());
        scenes.push(self.scene("usable", self.tables(IDLE), vec![Call::Usable(self.filled_registers, true)]));
        scenes
    }
}

/// Each command, a mixed history and `usable`, over each filling; then four commands over each further content, the
/// list that has the most to put in sequence, the query that has the most numbers, cards with SGN, and keys of a slot
/// whose session is open.
pub fn all() -> Vec<Scene> {
    let mut scenes: Vec<Scene> = FILLINGS.into_iter().flat_map(Filling::scenes).collect();
    for content in FURTHER {
        let full = Filling { content, ..FULL };
        scenes.extend([Command::RS, Command::KC, Command::KR, Command::KL].map(|command| full.accepted(command)));
    }
    scenes.push(Filling { content: DESCENDING, ..FULL }.accepted(Command::GL));
    scenes.push(FULL.longest_query());
    for content in [GROUP_NAMES, SOME_GROUP_NAMES] {
        let full = Filling { content, ..FULL };
        scenes.extend([Command::RS, Command::KL, Command::GA].map(|command| full.accepted(command)));
    }
    for (title, state, vends) in [("usable, PENDING", PENDING, true), ("usable, open", LOADING, false)] {
        scenes.push(FULL.scene(title, FULL.tables(state), vec![Call::Usable(FULL.filled_registers, vends)]));
    }
    scenes
}

/// An accepted request of each command, over full tables.
pub fn accepted() -> [Scene; 10] {
    Command::ALL.map(|command| FULL.accepted(command))
}

/// Requests over full tables that end at a question: what each costs is what the questions up to it cost.
pub fn refused() -> Vec<Scene> {
    let scene = |title: &str, request: Vec<u8>, outcome: u8| {
        FULL.scene(title, FULL.tables(LOADING), vec![Call::Handle(request, outcome)])
    };
    let reset = requests::bare(Command::RS);
    let mut short = scene("2, short buffer", reset.clone(), 2);
    short.room = 1023;
    let mut unsound = scene("3, first slot unsound", reset.clone(), 3);
    unsound.tables.slots[0].state = 4;
    let mut register = scene("3, first register unsound", reset.clone(), 3);
    register.tables.registers[0].card[0] = b'a';
    let mut last = scene("3, last byte of the last card", reset.clone(), 3);
    last.tables.registers[31].card[255] = 1;
    let mut mark = scene("3, mark of the last key", reset.clone(), 3);
    mark.tables.registers[31].mark = 2;
    let mut bad = scene("4, supplement's last byte", reset.clone(), 4);
    bad.supplement.passed = 2;
    let mut wrong = FULL.content.load(&FULL.last(), 31);
    let place = wrong.len() - 2;
    wrong[place] ^= 1;
    vec![
        short,
        unsound,
        register,
        last,
        mark,
        bad,
        scene("5, nine bytes", reset[..9].to_vec(), 5),
        scene("6, of 10 bytes", b"GL?RS0000\r".to_vec(), 6),
        scene("6, SM?KL", wrong, 6),
        scene("7", requests::frame(b"SM?DI", b""), 7),
        scene("12, SM?KX", requests::of_slot(Command::KX, b"Example-KMC-0009"), 12),
    ]
}

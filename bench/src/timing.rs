//! The two engines behind one trait, and the time of their calls.
//!
//! A call may change rows, and the next one needs them as they were. So the rows that a scene changes, and only they, are put back after it, inside of the timed loop. That
//! is a slot and four registers at most; what it takes is measured by itself in the same round and taken off. A copy of all 8,808 bytes would be a tenth of what the fast
//! engine takes, and tables prepared for each call would not stay in the caches.

use crate::scenes::{Call, Scene};
use bench::fast;
use diminurel::{Register, Slot};
use reference::{RegisterRow, SlotRow, Supplement};
use std::hint::black_box;
use std::time::Instant;

/// An engine with its own row types.
pub trait Engine {
    type Slot: Copy + PartialEq + Send;
    type Register: Copy + PartialEq + Send;
    type Supplement: Send;

    fn slot(row: &SlotRow) -> Self::Slot;
    fn register(row: &RegisterRow) -> Self::Register;
    fn supplement(supplement: &Supplement) -> Self::Supplement;

    /// The outcome.
    fn handle(
        slots: &mut [Self::Slot],
        registers: &mut [Self::Register],
        supplement: &Self::Supplement,
        request: &[u8],
        response: &mut [u8],
    ) -> u8;

    fn usable(slots: &[Self::Slot], registers: &[Self::Register], register: usize) -> bool;
}

/// The proved engine through its C interface.
pub struct Proved;

impl Engine for Proved {
    type Slot = Slot;
    type Register = Register;
    type Supplement = diminurel::Supplement;

    fn slot(row: &SlotRow) -> Slot {
        Slot { state: row.state, kmcid: row.kmcid, fingerprint: row.fingerprint, tvp: row.tvp }
    }

    fn register(row: &RegisterRow) -> Register {
        Register { card: row.card, mark: row.mark }
    }

    fn supplement(x: &Supplement) -> diminurel::Supplement {
        diminurel::Supplement {
            clock: x.clock,
            identity: x.identity,
            identity_length: x.identity_length,
            request: x.request,
            request_length: x.request_length,
            tag: x.tag,
            check: x.check,
            passed: x.passed,
        }
    }

    fn handle(
        slots: &mut [Slot],
        registers: &mut [Register],
        supplement: &diminurel::Supplement,
        request: &[u8],
        response: &mut [u8],
    ) -> u8 {
        diminurel::handle(slots, registers, supplement, request, response).outcome
    }

    fn usable(slots: &[Slot], registers: &[Register], register: usize) -> bool {
        diminurel::usable(slots, registers, register) == 1
    }
}

/// The engine written for speed.
pub struct Fast;

impl Engine for Fast {
    type Slot = SlotRow;
    type Register = RegisterRow;
    type Supplement = Supplement;

    fn slot(row: &SlotRow) -> SlotRow {
        *row
    }

    fn register(row: &RegisterRow) -> RegisterRow {
        *row
    }

    fn supplement(supplement: &Supplement) -> Supplement {
        *supplement
    }

    fn handle(
        slots: &mut [SlotRow],
        registers: &mut [RegisterRow],
        supplement: &Supplement,
        request: &[u8],
        response: &mut [u8],
    ) -> u8 {
        fast::handle(slots, registers, supplement, request, response).outcome
    }

    fn usable(slots: &[SlotRow], registers: &[RegisterRow], register: usize) -> bool {
        fast::usable(slots, registers, register)
    }
}

/// A scene in the types of an engine.
pub struct Stage<'a, E: Engine> {
    slots: Vec<E::Slot>,
    registers: Vec<E::Register>,
    /// The rows that the scene changes, as they were.
    changed_slots: Vec<(usize, E::Slot)>,
    changed_registers: Vec<(usize, E::Register)>,
    supplement: E::Supplement,
    response: Vec<u8>,
    calls: &'a [Call],
}

/// Where the rows differ, and what stood there.
fn changed<R: Copy + PartialEq>(before: &[R], after: &[R]) -> Vec<(usize, R)> {
    (0..before.len()).filter(|&place| before[place] != after[place]).map(|place| (place, before[place])).collect()
}

impl<'a, E: Engine> Stage<'a, E> {
    /// Plays the scene once, to see that each outcome is due and which rows it changes.
    pub fn new(scene: &'a Scene) -> Self {
        let slots: Vec<E::Slot> = scene.tables.slots().iter().map(E::slot).collect();
        let registers: Vec<E::Register> = scene.tables.registers().iter().map(E::register).collect();
        let mut stage = Stage {
            slots: slots.clone(),
            registers: registers.clone(),
            changed_slots: Vec::new(),
            changed_registers: Vec::new(),
            supplement: E::supplement(&scene.supplement),
            response: vec![0; scene.room],
            calls: &scene.calls,
        };
        for call in &scene.calls {
            assert!(stage.call(call), "{}: an outcome that is not due", scene.title);
        }
        stage.changed_slots = changed(&slots, &stage.slots);
        stage.changed_registers = changed(&registers, &stage.registers);
        stage.put_back();
        stage
    }

    /// Whether the answer was the one due.
    fn call(&mut self, call: &Call) -> bool {
        match call {
            Call::Handle(request, due) => {
                let (slots, registers) = (&mut self.slots[..], &mut self.registers[..]);
                E::handle(slots, registers, &self.supplement, black_box(request), &mut self.response) == *due
            }
            Call::Usable(register, due) => E::usable(&self.slots, &self.registers, black_box(*register)) == *due,
        }
    }

    /// Plays the scene, all calls of it.
    pub fn play(&mut self) {
        let calls = self.calls;
        for call in calls {
            black_box(self.call(call));
        }
        self.put_back();
    }

    fn put_back(&mut self) {
        for &(place, row) in black_box(&self.changed_slots) {
            self.slots[place] = row;
        }
        for &(place, row) in black_box(&self.changed_registers) {
            self.registers[place] = row;
        }
        black_box((&mut self.slots, &mut self.registers));
    }

    /// Nanoseconds of a turn.
    fn time(&mut self, turns: u32, mut turn: impl FnMut(&mut Self)) -> f64 {
        let start = Instant::now();
        for _ in 0..turns {
            turn(self);
        }
        start.elapsed().as_nanos() as f64 / f64::from(turns)
    }

    /// How many turns take half a millisecond.
    fn turns(&mut self) -> u32 {
        let mut turns = 16;
        while self.time(turns, Self::play) * f64::from(turns) < 5e5 {
            turns *= 2;
        }
        turns
    }
}

const ROUNDS: usize = 80;

/// A stage with its quickest round, which other work on the machine has disturbed least.
struct Timed<'a, E: Engine> {
    stage: Stage<'a, E>,
    turns: u32,
    play: f64,
    put_back: f64,
}

impl<'a, E: Engine> Timed<'a, E> {
    fn new(scene: &'a Scene) -> Self {
        let mut stage = Stage::new(scene);
        let turns = stage.turns();
        Timed { stage, turns, play: f64::MAX, put_back: f64::MAX }
    }

    fn round(&mut self) {
        self.play = self.play.min(self.stage.time(self.turns, Stage::play));
        self.put_back = self.put_back.min(self.stage.time(self.turns, Stage::put_back));
    }

    /// Nanoseconds a call.
    fn call(&self) -> f64 {
        (self.play - self.put_back) / self.stage.calls.len() as f64
    }
}

/// Nanoseconds a call of the proved engine and of the fast one, for each scene. The engines take turns, and the rounds of a scene are spread over the whole run.
pub fn compare(scenes: &[Scene]) -> Vec<(f64, f64)> {
    let mut timed: Vec<_> =
        scenes.iter().map(|scene| (Timed::<Proved>::new(scene), Timed::<Fast>::new(scene))).collect();
    for (scene, (proved, fast)) in scenes.iter().zip(&timed) {
        assert!(proved.stage.response == fast.stage.response, "{}: two responses", scene.title);
    }
    for _ in 0..ROUNDS {
        for (proved, fast) in &mut timed {
            proved.round();
            fast.round();
        }
    }
    timed.iter().map(|(proved, fast)| (proved.call(), fast.call())).collect()
}

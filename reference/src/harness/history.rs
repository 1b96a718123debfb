//! Random histories from empty tables, with demand 3 and the sentences on marks checked after every call.

use super::tables::Tables;
use super::world::World;
use super::{Bench, Engine, LONGEST_BUFFER};
use crate::demand3::{self, Word};
use crate::{marks, rows, Supplement};

/// What histories are made with: the engine alone, or both engines beside each other.
pub trait Caller {
    /// A history starts with these rows.
    fn begin(&mut self, tables: &Tables);

    /// Gives the response.
    fn call(
        &mut self,
        tables: &mut Tables,
        supplement: &Supplement,
        request: &[u8],
        buffer: usize,
    ) -> Result<Vec<u8>, String>;

    fn usable(&mut self, tables: &Tables, register: usize) -> Result<bool, String>;
}

impl Caller for Bench<'_> {
    fn begin(&mut self, tables: &Tables) {
        self.begin_history(tables);
    }

    fn call(
        &mut self,
        tables: &mut Tables,
        supplement: &Supplement,
        request: &[u8],
        buffer: usize,
    ) -> Result<Vec<u8>, String> {
        Bench::call(self, tables, supplement, request, buffer)?;
        Ok(self.answer().to_vec())
    }

    fn usable(&mut self, tables: &Tables, register: usize) -> Result<bool, String> {
        Bench::usable(self, tables, register)
    }
}

/// The engine under test alone.
struct Alone<'a>(&'a mut dyn Engine);

impl Caller for Alone<'_> {
    fn begin(&mut self, _: &Tables) {}

    fn call(
        &mut self,
        tables: &mut Tables,
        supplement: &Supplement,
        request: &[u8],
        buffer: usize,
    ) -> Result<Vec<u8>, String> {
        let mut response = [0xA5; LONGEST_BUFFER];
        let (slot_count, register_count) = (tables.slot_count, tables.register_count);
        let (_, _, length) = self.0.handle(
            &mut tables.slots[..rows::MOST_SLOTS],
            &mut tables.registers[..rows::MOST_REGISTERS],
            slot_count,
            register_count,
            supplement,
            request,
            &mut response[..buffer],
        );
        Ok(response[..length].to_vec())
    }

    fn usable(&mut self, tables: &Tables, register: usize) -> Result<bool, String> {
        Ok(self.0.usable(
            &tables.slots[..rows::MOST_SLOTS],
            &tables.registers[..rows::MOST_REGISTERS],
            tables.slot_count,
            tables.register_count,
            register,
        ))
    }
}

/// Which sentences are checked.
#[derive(Clone, Copy, PartialEq, Eq)]
pub enum Sentences {
    Demand3,
    Marks,
    All,
}

/// A list from empty tables, as the sentences read it.
#[derive(Clone)]
pub struct List {
    pub tables: Tables,
    words: Vec<Word>,
    sentences: Sentences,
}

impl List {
    pub fn new(tables: Tables, sentences: Sentences) -> Self {
        assert!(demand3::are_empty(&tables.slots, &tables.registers), "the sentences speak of lists from empty tables");
        List { tables, words: Vec::new(), sentences }
    }

    pub fn last(&self) -> Option<&Word> {
        self.words.last()
    }

    /// Makes a call, and checks the sentences on the list up to it.
    pub fn call(
        &mut self,
        caller: &mut dyn Caller,
        supplement: &Supplement,
        request: &[u8],
        buffer: usize,
    ) -> Result<(), String> {
        let List { tables, words, sentences } = self;
        let before = tables.clone();
        let answer = caller.call(tables, supplement, request, buffer)?;
        words.push(demand3::word(request, &answer));
        let length = words.len();
        if *sentences != Sentences::Marks {
            if words.last() == Some(&Word::Read) && *tables != before {
                return Err(format!("demand 3, after {length} requests: the last one only reads, but rows changed"));
            }
            demand3::check(words, tables.slots(), tables.registers())
                .map_err(|sentence| format!("demand 3, after {length} requests: {sentence}"))?;
        }
        if *sentences == Sentences::Demand3 {
            return Ok(());
        }
        let asked = 0..=tables.register_count + 1;
        let usable: Vec<bool> = asked.map(|register| caller.usable(tables, register)).collect::<Result<_, _>>()?;
        marks::check(words, tables.slots(), tables.registers(), &usable)
            .map_err(|sentence| format!("marks, after {length} requests: {sentence}"))
    }
}

/// Makes one history of `length` calls.
fn one(world: &mut World, length: u64, caller: &mut dyn Caller, sentences: Sentences) -> Result<(), String> {
    let mut tables = world.tables();
    // Some histories have counts out of range: nothing is ever accepted there.
    match world.generator.below(200) {
        0 => tables.slot_count = 0,
        1 => tables.slot_count = 9,
        2 => tables.register_count = 0,
        3 => tables.register_count = 33,
        _ => {}
    }
    let mut list = List::new(tables, sentences);
    caller.begin(&list.tables);
    for _ in 0..length {
        let mut supplement = world.supplement();
        let request = world.request(&list.tables, &supplement);
        if world.generator.chance(2) {
            world.spoil(&mut supplement);
        }
        let buffer = match world.generator.below(50) {
            0 => world.generator.below(1024),
            1..=5 => world.generator.between(1024, LONGEST_BUFFER),
            _ => 1024,
        };
        list.call(caller, &supplement, &request, buffer)?;
        if world.generator.chance(10) {
            caller.usable(&list.tables, usize::MAX)?;
        }
    }
    Ok(())
}

/// Histories of `calls` calls in all; gives how many there were.
fn many(caller: &mut dyn Caller, calls: u64, seed: u64, sentences: Sentences) -> Result<u64, String> {
    let mut world = World::new(seed);
    let (mut made, mut histories) = (0, 0);
    while made < calls {
        let length = (world.generator.between(10, 150) as u64).min(calls - made);
        one(&mut world, length, caller, sentences)?;
        histories += 1;
        made += length;
    }
    Ok(histories)
}

/// Histories of `calls` calls in all, compared call by call.
pub fn compare(bench: &mut Bench, calls: u64, seed: u64) -> Result<(), String> {
    bench.counts.histories += many(bench, calls, seed ^ 0x4157, Sentences::All)?;
    bench.end_histories();
    Ok(())
}

/// Sentences alone, on the engine alone: the first broken one is the error.
pub fn check(engine: &mut dyn Engine, sentences: Sentences, calls: u64, seed: u64) -> Result<(), String> {
    many(&mut Alone(engine), calls, seed, sentences).map(|_| ())
}

//! A second implementation of the vending module's key-management engine,
//! written from documents 01 and 02, STS 600-8-6 ("001") and STS 600-4-2 ("003"),
//! and a harness that compares another engine with it, call by call.
//!
//! Read `engine` first: it asks the eighteen questions of document 01 in order.

pub mod cards;
pub mod console;
pub mod crc;
pub mod demand3;
pub mod engine;
pub mod fields;
pub mod harness;
pub mod marks;
pub mod records;
pub mod rows;
pub mod supplement;
pub mod text;

pub use engine::{handle, usable, Answer, Command};
pub use rows::{RegisterRow, SlotRow};
pub use supplement::Supplement;

//! The wrapper's version and sizes are the header's.

use std::mem::size_of;

#[test]
fn version() {
    let header = include_str!("../../../include/diminurel.h");
    let line = format!("#define DIMINUREL_VERSION \"{}\"", diminurel::VERSION);
    assert!(header.lines().any(|each| each == line), "the header has no line {line}");
}

#[test]
fn sizes() {
    let rows = (size_of::<diminurel::Slot>(), size_of::<diminurel::Register>());
    assert_eq!(rows, (73, 257));
    assert_eq!(std::mem::offset_of!(diminurel::Register, mark), 256);
    assert_eq!((size_of::<diminurel::Supplement>(), size_of::<diminurel::Reply>()), (920, 16));
}

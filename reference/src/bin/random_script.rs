//! Prints a random console script: `random_script SEED [LINES]`.

use reference::harness::random_script::random_script;
use std::io::{self, Write};

fn main() -> io::Result<()> {
    let mut arguments = std::env::args().skip(1);
    let seed = arguments.next().and_then(|text| text.parse().ok()).expect("a seed");
    let lines = arguments.next().map_or(1000, |text| text.parse().expect("a number of lines"));
    io::stdout().write_all(&random_script(seed, lines))
}

//! Runs the harness against `handle` itself: `reference [calls [seed]]`.

use reference::harness::{self, clock_seed, Reference};

fn main() {
    let mut arguments = std::env::args().skip(1);
    let calls = arguments.next().map_or(200_000, |text| text.parse().expect("a number of calls"));
    let seed = arguments.next().map_or_else(clock_seed, |text| text.parse().expect("a seed"));
    let start = std::time::Instant::now();
    let counts = harness::run(&mut Reference, calls, seed);
    print!("{counts}");
    println!("{:.1} s", start.elapsed().as_secs_f64());
}

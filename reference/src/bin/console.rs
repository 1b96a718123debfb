//! The console over the second implementation: `console < script`. `show` prints nothing: it is text for people, whose
//! form is the other console's own, and a comparison leaves it out.

use std::io::{self, BufWriter};

fn main() -> io::Result<()> {
    reference::console::run(io::stdin().lock(), BufWriter::new(io::stdout().lock()))
}

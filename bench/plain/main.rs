//! Does what `portplan` does, in plain Rust with nothing proved: reads a script from standard input, and writes to
//! standard output how each command went.

mod candidate;
mod cycle;
mod gaps;
mod limits;
mod plan;
mod planning;
mod reader;
mod refusal;
mod run;
mod search;
mod solve;

use std::io;
use std::io::{BufWriter, Read, Write};

/// A byte more than a script may have is enough to see that it is too long.
const READ_MAX: u64 = reader::SCRIPT_MAX as u64 + 1;

fn main() -> io::Result<()> {
    let mut script = Vec::new();
    io::stdin().take(READ_MAX).read_to_end(&mut script)?;
    let mut out = BufWriter::new(io::stdout());
    run::write_lines(&script, &mut out)?;
    out.flush()
}

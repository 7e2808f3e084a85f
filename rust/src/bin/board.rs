//! Reads a script from standard input and prints its text.

use std::io::{self, Read, Write};

use reference::script::{run, LONGEST_SCRIPT};

fn main() -> io::Result<()> {
    // One byte more than the longest script tells that it is too long.
    let mut script = Vec::new();
    io::stdin().lock().take(LONGEST_SCRIPT as u64 + 1).read_to_end(&mut script)?;
    io::stdout().lock().write_all(run(&script).as_bytes())
}

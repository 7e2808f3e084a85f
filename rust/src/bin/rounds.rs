//! Prints the fixed cases of board and seats together.

use std::io::{self, Write};

fn main() -> io::Result<()> {
    io::stdout().lock().write_all(reference::rounds::run().as_bytes())
}

//! Reads a capture on standard input and prints its lines.

use std::io;

fn main() -> io::Result<()> {
    second::capture::run(io::stdin().lock(), io::stdout().lock())
}

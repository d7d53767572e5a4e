//! 01, "The program": one sheet from standard input, one line to standard output.

use std::io::{self, Read, Write};

use reference::{line, LONGEST_INPUT};

fn main() -> io::Result<()> {
    let mut input = Vec::new();
    // One byte past the longest input tells that there is more.
    io::stdin()
        .lock()
        .take(LONGEST_INPUT as u64 + 1)
        .read_to_end(&mut input)?;
    io::stdout().write_all(line(&input).as_bytes())
}

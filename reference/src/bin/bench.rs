//! Reads a list of commands from standard input and prints the responses.

use std::io::{self, BufWriter, Read, Write};

use reference::program;

fn main() -> io::Result<()> {
    let mut input = Vec::new();
    // One byte above the limit is enough to know that the input is too long.
    io::stdin()
        .take(program::LONGEST_INPUT as u64 + 1)
        .read_to_end(&mut input)?;
    let mut output = BufWriter::new(io::stdout().lock());
    program::run(&input, &mut output)?;
    output.flush()
}

//! Reads whole cases from standard input and prints what came of each.

use std::io::{self, BufReader, BufWriter, Write};

use reference::replay;

fn main() -> io::Result<()> {
    let mut input = BufReader::with_capacity(1 << 16, io::stdin().lock());
    let mut output = BufWriter::with_capacity(1 << 16, io::stdout().lock());
    replay::run(&mut input, &mut output)?;
    output.flush()
}

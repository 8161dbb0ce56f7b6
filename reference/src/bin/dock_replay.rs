//! Reads pieces of dock streams from standard input and prints what came of each.

use std::io::{self, BufReader, BufWriter, Write};

use reference::dock_replay;

fn main() -> io::Result<()> {
    let mut input = BufReader::with_capacity(1 << 16, io::stdin().lock());
    let mut output = BufWriter::with_capacity(1 << 16, io::stdout().lock());
    dock_replay::run(&mut input, &mut output)?;
    output.flush()
}

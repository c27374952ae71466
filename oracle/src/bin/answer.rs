//! Case lines on standard input, an answer line to each on standard output.

use oracle::answer::answer;
use oracle::Judge;
use std::io::{self, BufRead, BufWriter, Write};

fn main() -> io::Result<()> {
    let mut input = io::stdin().lock();
    let mut output = BufWriter::new(io::stdout().lock());
    let mut line = Vec::new();
    while input.read_until(b'\n', &mut line)? > 0 {
        if line.last() == Some(&b'\n') {
            line.pop();
        }
        writeln!(output, "{}", answer::<Judge>(&line))?;
        line.clear();
    }
    output.flush()
}

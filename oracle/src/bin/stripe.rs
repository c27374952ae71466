//! The program of document 01: path text on standard input, a printed mesh or a refusal out. `stripe
//! whole` has room for any path that is accepted.

use oracle::program::{run, whole};
use oracle::Judge;
use std::io::{self, Read, Write};

fn main() -> io::Result<()> {
    let mut text = Vec::new();
    io::stdin().read_to_end(&mut text)?;
    let page = match std::env::args().nth(1).as_deref() {
        Some("whole") => whole::<Judge>(&text),
        _ => run::<Judge>(&text),
    };
    io::stdout().write_all(page.as_bytes())
}

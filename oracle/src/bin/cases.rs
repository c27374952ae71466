//! `cases SEED COUNT KIND`: that many case lines, the same for the same seed. Those of the kind
//! `damaged` are in one order, whatever the seed, and end by themselves.

use oracle::case::Case;
use oracle::gen::{damaged, line, Kind, Rng};
use std::env;
use std::io::{self, BufWriter, Write};
use std::process::ExitCode;

fn main() -> ExitCode {
    let words: Vec<String> = env::args().skip(1).collect();
    let asked = match words.as_slice() {
        [seed, count, kind] => (seed.parse(), count.parse(), kind.as_str()),
        _ => return usage(),
    };
    let printed = match asked {
        (Ok(_), Ok(count), "damaged") => {
            print(damaged().map(|case| Case::StlRead(case).line()), count)
        }
        (Ok(seed), Ok(count), word) => match Kind::of(word) {
            Some(kind) => {
                let mut rng = Rng::new(seed);
                print(std::iter::repeat_with(|| line(&mut rng, kind)), count)
            }
            None => return usage(),
        },
        _ => return usage(),
    };
    match printed {
        Ok(()) => ExitCode::SUCCESS,
        Err(_) => ExitCode::FAILURE,
    }
}

fn usage() -> ExitCode {
    eprintln!(
        "cases SEED COUNT mesh|read|root|normal|window|join|cap|stlwrite|stlread|widen|narrow|measure|part|damaged|check|attached|radio|bad|all"
    );
    ExitCode::from(2)
}

fn print(lines: impl Iterator<Item = String>, count: usize) -> io::Result<()> {
    let mut output = BufWriter::new(io::stdout().lock());
    for line in lines.take(count) {
        writeln!(output, "{}", line)?;
    }
    output.flush()
}

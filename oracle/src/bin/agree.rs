//! `agree SEED COUNT KIND`: the reading and the cut text side by side on generated cases, their
//! answers compared bit for bit. Ends with 1 at the first difference, printing its case line.

use std::process::ExitCode;

#[cfg(not(lyon_text))]
fn main() -> ExitCode {
    eprintln!("agree: built without the crate's text, so there is nothing to compare");
    ExitCode::from(2)
}

#[cfg(lyon_text)]
fn main() -> ExitCode {
    use oracle::gen::Kind;

    const KINDS: [Kind; 5] = [
        Kind::Join,
        Kind::Mesh,
        Kind::Normal,
        Kind::Window,
        Kind::Cap,
    ];
    let words: Vec<String> = std::env::args().skip(1).collect();
    if let [seed, count, kind] = words.as_slice() {
        if let (Ok(seed), Ok(count), Some(of)) = (seed.parse(), count.parse(), Kind::of(kind)) {
            if KINDS.contains(&of) {
                return compare(seed, count, of, kind);
            }
        }
    }
    eprintln!("agree SEED COUNT join|mesh|normal|window|cap");
    ExitCode::from(2)
}

#[cfg(lyon_text)]
fn compare(seed: u64, count: u64, kind: oracle::gen::Kind, name: &str) -> ExitCode {
    use oracle::answer::answer_case;
    use oracle::gen::{case, Rng};
    use oracle::routines::Reading;
    use oracle::text::Text;

    let mut rng = Rng::new(seed);
    for done in 0..count {
        let case = case(&mut rng, kind);
        let (ours, theirs) = (answer_case::<Reading>(&case), answer_case::<Text>(&case));
        if ours != theirs {
            println!("{}\nreading: {}\ntext: {}", case.line(), ours, theirs);
            println!("{}: {} cases agree, the next differs", name, done);
            return ExitCode::FAILURE;
        }
    }
    println!("{}: {} cases, 0 differences", name, count);
    ExitCode::SUCCESS
}

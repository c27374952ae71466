//! `scale SEED COUNT [KIND]`: COUNT generated cases of each call, or of the one named, answered by
//! the linked library and by the oracle, every lent list compared whole. `damaged` is the oracle's
//! list of damaged STL files, whatever the seed, and ends by itself; `back` has meshes written and
//! read back by the library; `big` has sizes that no line has: paths, texts and lists about the
//! limits. Of the index lists one in 20,000 has up to 200,000 triangles. `radio` has texts in
//! fragments; `divisions` has COUNT short texts, each divided into up to three fragments in every
//! way, and `limit` texts in fragments in which the text limit falls anywhere. The last three are
//! left out where no call is named: `divisions`, `limit` and `big`. Prints how often each number was
//! answered; ends with 1 at the first difference, printing its case line. Where the library is
//! another machine's (tools/near.c), STIPEHARBOR_SIZE_BITS says how long its sizes are: 32, or 64.

mod call;
mod list;
mod radio;

use call::Lists;
use oracle::case::{Case, ListCase, PartCase};
use oracle::gen::{any_list, big, case, damaged, sound, Kind, Rng};
use radio::{at_limit, divisions};
use std::iter::repeat_with;
use std::process::ExitCode;
use std::time::Instant;

#[derive(Clone, Copy)]
enum Of {
    Call(Kind),
    Damaged,
    Back,
    List(fn(ListCase) -> Case),
    Divisions,
    Limit,
    Big,
}

/// Those that are left out where no call is named.
const NAMED: usize = 3;

const KINDS: [(&str, Of); 18] = [
    ("mesh", Of::Call(Kind::Mesh)),
    ("read", Of::Call(Kind::Read)),
    ("root", Of::Call(Kind::Root)),
    ("normal", Of::Call(Kind::Normal)),
    ("measure", Of::Call(Kind::Measure)),
    ("part", Of::Call(Kind::Part)),
    ("stlwrite", Of::Call(Kind::StlWrite)),
    ("stlread", Of::Call(Kind::StlRead)),
    ("widen", Of::Call(Kind::Widen)),
    ("narrow", Of::Call(Kind::Narrow)),
    ("damaged", Of::Damaged),
    ("back", Of::Back),
    ("check", Of::List(Case::Check)),
    ("attached", Of::List(Case::Attached)),
    ("radio", Of::Call(Kind::Radio)),
    ("divisions", Of::Divisions),
    ("limit", Of::Limit),
    ("big", Of::Big),
];

fn main() -> ExitCode {
    let words: Vec<String> = std::env::args().skip(1).collect();
    match arguments(&words) {
        Some((seed, count, kinds)) => {
            let most = greatest_size();
            let equal = |kind: &(&str, Of)| compare(seed, count, kind.0, kind.1, most);
            if kinds.iter().all(equal) {
                ExitCode::SUCCESS
            } else {
                ExitCode::FAILURE
            }
        }
        None => {
            let names = KINDS.map(|kind| kind.0).join("|");
            eprintln!("scale SEED COUNT [{}]", names);
            ExitCode::from(2)
        }
    }
}

type Kinds = Vec<(&'static str, Of)>;

fn arguments(words: &[String]) -> Option<(u64, usize, Kinds)> {
    let (seed, count, named) = match words {
        [seed, count] => (seed, count, KINDS[..KINDS.len() - NAMED].to_vec()),
        [seed, count, name] => {
            let kind = KINDS.iter().find(|kind| kind.0 == name)?;
            (seed, count, vec![*kind])
        }
        _ => return None,
    };
    Some((seed.parse().ok()?, count.parse().ok()?, named))
}

fn cases(seed: u64, count: usize, of: Of) -> Box<dyn Iterator<Item = Case>> {
    let mut rng = Rng::new(seed);
    let each: Box<dyn Iterator<Item = Case>> = match of {
        Of::Call(kind) => Box::new(repeat_with(move || case(&mut rng, kind))),
        Of::Damaged => Box::new(damaged().map(Case::StlRead)),
        Of::Big => Box::new(repeat_with(move || big(&mut rng))),
        Of::Back => Box::new(repeat_with(move || Case::StlWrite(sound(&mut rng)))),
        Of::List(asked) => Box::new(repeat_with(move || asked(any_list(&mut rng)))),
        Of::Limit => Box::new(repeat_with(move || at_limit(&mut rng))),
        Of::Divisions => return Box::new(divisions(rng, count)),
    };
    Box::new(each.take(count))
}

/// The greatest size that the library can be asked for.
fn greatest_size() -> usize {
    match std::env::var("STIPEHARBOR_SIZE_BITS").as_deref() {
        Ok("32") => u32::MAX as usize,
        _ => usize::MAX,
    }
}

/// A case that asks for no size beyond the greatest, which stands for those.
fn within(most: usize, case: Case) -> Case {
    let list = |case: ListCase| ListCase {
        count: case.count.min(most),
        ..case
    };
    match case {
        Case::Check(case) => Case::Check(list(case)),
        Case::Attached(case) => Case::Attached(list(case)),
        Case::Part(case) => Case::Part(PartCase {
            run: case.run.min(most),
            ..case
        }),
        case => case,
    }
}

/// Whether all cases of a kind are answered alike.
fn compare(seed: u64, count: usize, name: &str, of: Of, most: usize) -> bool {
    let start = Instant::now();
    let mut lengths = Rng::new(!seed);
    let mut lists = Lists::default();
    let mut told = [0u64; 27];
    let mut done = 0;
    for case in cases(seed, count, of).map(|case| within(most, case)) {
        let held = match (of, &case) {
            (Of::Back, Case::StlWrite(case)) => lists.hold_back(case),
            _ => lists.hold(&mut lengths, &case),
        };
        match held {
            Ok(number) => told[number as usize] += 1,
            Err(difference) => {
                println!("{}\n{}", case.line(), difference);
                println!(
                    "{}: {} cases of seed {} equal, the next differs",
                    name, done, seed
                );
                return false;
            }
        }
        done += 1;
    }
    let numbers = (0..).zip(told).filter(|&(_, n)| n > 0);
    let numbers: Vec<String> = numbers.map(|(i, n)| format!("{}: {}", i, n)).collect();
    let seconds = start.elapsed().as_secs_f64();
    println!(
        "{}: {} cases of seed {} equal, by number {}; {:.1} million a minute",
        name,
        done,
        seed,
        numbers.join(", "),
        done as f64 * 60e-6 / seconds
    );
    true
}

//! Cases made from a seed: the same seed gives the same cases on every machine, since only whole
//! numbers and correctly rounded f32 operations are used.

mod bad;
mod big;
mod dashes;
mod indices;
mod joins;
mod meshes;
mod parts;
mod paths;
mod radio;
mod rng;
mod shapes;
mod small;
mod stl;
mod texts;
mod widths;

pub use big::big;
pub use indices::{any_list, large};
pub use rng::{ulps, Rng};
pub use stl::{damaged, sound};

use crate::case::Case;

#[derive(Clone, Copy, Debug, PartialEq, Eq)]
pub enum Kind {
    Mesh,
    Read,
    Root,
    Normal,
    Window,
    Join,
    Cap,
    StlWrite,
    StlRead,
    Widen,
    Narrow,
    Check,
    Attached,
    Radio,
    Measure,
    Part,
    Bad,
    All,
}

impl Kind {
    pub fn of(word: &str) -> Option<Kind> {
        match word {
            "mesh" => Some(Kind::Mesh),
            "read" => Some(Kind::Read),
            "root" => Some(Kind::Root),
            "normal" => Some(Kind::Normal),
            "window" => Some(Kind::Window),
            "join" => Some(Kind::Join),
            "cap" => Some(Kind::Cap),
            "stlwrite" => Some(Kind::StlWrite),
            "stlread" => Some(Kind::StlRead),
            "widen" => Some(Kind::Widen),
            "narrow" => Some(Kind::Narrow),
            "check" => Some(Kind::Check),
            "attached" => Some(Kind::Attached),
            "radio" => Some(Kind::Radio),
            "measure" => Some(Kind::Measure),
            "part" => Some(Kind::Part),
            "bad" => Some(Kind::Bad),
            "all" => Some(Kind::All),
            _ => None,
        }
    }
}

/// A case line of that kind, without its line feed.
pub fn line(rng: &mut Rng, kind: Kind) -> String {
    match kind {
        Kind::Bad => bad::bad(rng),
        Kind::All if rng.one_in(12) => bad::bad(rng),
        _ => case(rng, kind).line(),
    }
}

/// A case of that kind; one of any kind where none is named.
pub fn case(rng: &mut Rng, kind: Kind) -> Case {
    match kind {
        Kind::Mesh => Case::Mesh(meshes::mesh(rng)),
        Kind::Read => Case::Read(texts::read(rng)),
        Kind::Root => Case::Root(small::root(rng)),
        Kind::Normal => Case::Normal(small::normal(rng)),
        Kind::Window => Case::Window(small::window(rng)),
        Kind::Join => Case::Join(joins::join(rng)),
        Kind::Cap => Case::Cap(small::cap(rng)),
        Kind::StlWrite => Case::StlWrite(stl::write(rng)),
        Kind::StlRead => Case::StlRead(stl::read(rng)),
        Kind::Widen => Case::Widen(widths::widen(rng)),
        Kind::Narrow => Case::Narrow(widths::narrow(rng)),
        Kind::Check => Case::Check(indices::indices(rng)),
        Kind::Attached => Case::Attached(indices::indices(rng)),
        Kind::Radio => Case::Radio(radio::radio(rng)),
        Kind::Measure => Case::Measure(parts::measure(rng)),
        Kind::Part => Case::Part(parts::part(rng)),
        Kind::Bad | Kind::All => {
            let kind = rng.pick(&[
                Kind::Mesh,
                Kind::Mesh,
                Kind::Read,
                Kind::Read,
                Kind::Root,
                Kind::Normal,
                Kind::Window,
                Kind::Join,
                Kind::Cap,
                Kind::StlWrite,
                Kind::StlRead,
                Kind::Widen,
                Kind::Narrow,
                Kind::Check,
                Kind::Attached,
                Kind::Measure,
                Kind::Part,
            ]);
            case(rng, kind)
        }
    }
}

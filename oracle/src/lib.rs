//! The judge of the project: document 01 read in plain Rust, and beside it the crate's own text
//! of the five listed routines, both run in the same driver.
//!
//! From the leaves up: `plane`, `root`, `normal`, `endpoint`, `window`, `edge`, `join`,
//! `vertices` (the reading of the routines), `arc`, `routines` (what the driver asks of them),
//! `path`, `strip`, `dash`, `mesh`, `part` (the driver), `decimal`, `reader`, `program`, `stl`, `widths`, `inspect`. `shim` and `text` hold the cut text.
//! `line`, `case`, `answer` are the cases and answers, `gen` makes cases.

pub mod answer;
pub mod arc;
pub mod case;
pub mod dash;
pub mod decimal;
pub mod edge;
pub mod endpoint;
pub mod gen;
pub mod inspect;
pub mod join;
pub mod line;
pub mod mesh;
pub mod normal;
pub mod outcome;
pub mod part;
pub mod path;
pub mod plane;
pub mod program;
pub mod reader;
pub mod root;
pub mod routines;
#[cfg(lyon_text)]
pub mod shim;
pub mod stl;
pub mod strip;
#[cfg(lyon_text)]
pub mod text;
pub mod vertices;
pub mod widths;
pub mod window;

/// Who judges: the cut text where it is at hand, else our own reading.
#[cfg(lyon_text)]
pub type Judge = text::Text;
#[cfg(not(lyon_text))]
pub type Judge = routines::Reading;

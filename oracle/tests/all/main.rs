//! All tests of the oracle, in one program.

#[cfg(lyon_text)]
mod agreement;
mod common;
mod cuts;
mod dashes;
mod decimal;
mod facts;
mod form;
mod hairpin;
mod inspect;
mod kept;
mod lines;
mod open_points;
mod parts;
mod points;
mod reader;
mod refusals;
mod root;
mod round;
mod rules;
mod sources;
mod stl;
mod widths;

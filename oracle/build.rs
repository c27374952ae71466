//! Cuts the listed routines out of the crate's text, as it stands, into one file of OUT_DIR.
//!
//! The text lies in the folder that LYON_TEXT names, else in `../../shared/docs/src`. Where it is
//! not at hand nothing is cut, `cfg(lyon_text)` stays unset and our own reading answers alone.
//! Nothing of the cut is edited. Attributes and comments above an item's head are not taken.

use std::path::{Path, PathBuf};
use std::process::Command;
use std::{env, fs};

const STROKE: &str = "stroke.rs.txt";
const MATH_UTILS: &str = "math_utils.rs.txt";

/// The file of each item and the head of its first line.
const ITEMS: [(&str, &str); 7] = [
    (MATH_UTILS, "pub fn compute_normal("),
    (STROKE, "struct PointBuffer {"),
    (STROKE, "impl PointBuffer {"),
    (STROKE, "fn compute_join_side_positions("),
    (STROKE, "fn add_join_base_vertices("),
    (STROKE, "pub(crate) fn tessellate_empty_square_cap("),
    (STROKE, "fn side_sign("),
];

fn main() {
    println!("cargo:rerun-if-changed=build.rs");
    println!("cargo:rerun-if-env-changed=LYON_TEXT");
    if rustc_checks_cfg() {
        println!("cargo:rustc-check-cfg=cfg(lyon_text)");
    }
    let folder = folder();
    for file in [STROKE, MATH_UTILS] {
        println!("cargo:rerun-if-changed={}", folder.join(file).display());
    }
    match cut(&folder) {
        Some(text) => {
            let out = PathBuf::from(env::var("OUT_DIR").expect("OUT_DIR")).join("cut.rs");
            fs::write(out, text).expect("the cut is written");
            println!("cargo:rustc-cfg=lyon_text");
        }
        None => println!(
            "cargo:warning=no text of the crate in {}: the reading answers alone",
            folder.display()
        ),
    }
}

fn folder() -> PathBuf {
    match env::var_os("LYON_TEXT") {
        Some(folder) => PathBuf::from(folder),
        None => Path::new(&env::var("CARGO_MANIFEST_DIR").expect("CARGO_MANIFEST_DIR"))
            .join("../../shared/docs/src"),
    }
}

/// All items in a row, or nothing where a file is not at hand. A file that lacks an item is
/// another text than document 01 speaks of: the build stops.
fn cut(folder: &Path) -> Option<String> {
    let stroke = fs::read_to_string(folder.join(STROKE)).ok()?;
    let math_utils = fs::read_to_string(folder.join(MATH_UTILS)).ok()?;
    let cut = ITEMS.iter().map(|&(file, head)| {
        let text = if file == STROKE { &stroke } else { &math_utils };
        item(text, head).unwrap_or_else(|| panic!("{} has no item `{}`", file, head))
    });
    Some(cut.collect::<Vec<_>>().join("\n"))
}

/// The item from its head line to the brace that closes its first one.
fn item(text: &str, head: &str) -> Option<String> {
    let mut taken = String::new();
    let mut opened = 0;
    let mut closed = 0;
    for line in text.lines().skip_while(|line| !line.starts_with(head)) {
        taken.push_str(line);
        taken.push('\n');
        // A brace in a comment counts for nothing.
        let code = line.split("//").next().unwrap_or("");
        opened += code.matches('{').count();
        closed += code.matches('}').count();
        if opened > 0 && opened == closed {
            return Some(taken);
        }
    }
    None
}

/// Compilers from 1.80 on ask for the names of cfgs; before, cargo warns of the very line.
fn rustc_checks_cfg() -> bool {
    let rustc = env::var_os("RUSTC").expect("RUSTC");
    let answer = Command::new(rustc).arg("--version").output();
    let version = answer.map(|a| String::from_utf8_lossy(&a.stdout).into_owned());
    let minor = version.ok().and_then(|v| {
        let mut parts = v.split(' ').nth(1)?.split('.');
        parts.nth(1)?.parse::<u32>().ok()
    });
    minor.map_or(false, |minor| minor >= 80)
}

//! The program ./stripe in Rust over the library: path text on standard input; its mesh, or one
//! refusal, on standard output. The exit code is 0 for a mesh, 1 for a refusal, and 2 where the
//! input could not be read or the page not be written.

use std::fmt::Write as _;
use std::io::{self, Read, Write};
use std::process::ExitCode;
use stipeharbor::{read, tessellate, triangles, vertices, Options, Refusal, Source};

/// The longest text that the program takes; the library takes longer ones.
const TEXT_ROOM: usize = 16_384;

fn drawn(text: &[u8]) -> Result<String, Refusal> {
    if text.len() > TEXT_ROOM {
        return Err(Refusal::TooLong);
    }
    let (mut verbs, mut coords) = ([0; 1024], [0.0; 2048]);
    let mut sources = [Source::default(); 1024];
    let (mut floats, mut numbers) = ([0.0; 5 * 1024], [0; 3 * 1536]);
    let path = read(text, &mut verbs, &mut coords)?;
    let (verbs, coords) = (&verbs[..path.verbs], &coords[..path.coordinates]);
    let mesh = tessellate(
        verbs,
        coords,
        Options::default(),
        &[],
        &mut floats,
        &mut sources,
        &mut numbers,
    )?;
    Ok(
        printed(&floats[..5 * mesh.vertices], &numbers[..3 * mesh.triangles])
            .expect("a string takes any text"),
    )
}

fn printed(floats: &[f32], numbers: &[u32]) -> Result<String, std::fmt::Error> {
    let mut out = String::new();
    writeln!(out, "v {}", vertices(floats).len())?;
    for vertex in vertices(floats) {
        let [x, y] = vertex.position.map(f32::to_bits);
        writeln!(out, "{:08X} {:08X}", x, y)?;
    }
    writeln!(out, "t {}", triangles(numbers).len())?;
    for [a, b, c] in triangles(numbers) {
        writeln!(out, "{} {} {}", a, b, c)?;
    }
    Ok(out)
}

/// The whole job; whether there was a mesh.
fn run() -> Result<bool, String> {
    // One byte more than is taken: what comes after it changes nothing.
    let mut text = Vec::new();
    io::stdin()
        .take(TEXT_ROOM as u64 + 1)
        .read_to_end(&mut text)
        .map_err(|error| format!("the input could not be read: {}", error))?;
    let page = drawn(&text);
    let meshed = page.is_ok();
    let page = page
        .unwrap_or_else(|refusal| format!("refused {} {}\n", refusal.number(), refusal.place()));
    let mut out = io::stdout();
    out.write_all(page.as_bytes())
        .and_then(|()| out.flush())
        .map_err(|error| format!("the page could not be written: {}", error))?;
    Ok(meshed)
}

fn main() -> ExitCode {
    match run() {
        Ok(true) => ExitCode::SUCCESS,
        Ok(false) => ExitCode::from(1),
        Err(what) => {
            eprintln!("stripe: {}", what);
            ExitCode::from(2)
        }
    }
}

//! Finds the archive: in the folder that STIPEHARBOR_LIB_DIR names, else where `rt lib` leaves it.

use std::env;
use std::path::{Path, PathBuf};
use std::process::exit;

fn main() {
    println!("cargo:rerun-if-changed=build.rs");
    println!("cargo:rerun-if-env-changed=STIPEHARBOR_LIB_DIR");
    let folder = folder();
    let archive = folder.join("libstipeharbor.a");
    println!("cargo:rerun-if-changed={}", archive.display());
    if !archive.is_file() {
        eprintln!("There is no {}.", archive.display());
        eprintln!("In the repository of Stipeharbor, `rt lib` in crates/stipeharbor makes it for x86-64, where this crate looks by itself;");
        eprintln!("`tools/native` makes target/native/TARGET/libstipeharbor.a for this machine and others:");
        eprintln!("then set STIPEHARBOR_LIB_DIR to the folder that has it.");
        exit(1);
    }
    println!("cargo:rustc-link-search=native={}", folder.display());
    println!("cargo:rustc-link-lib=static=stipeharbor");
}

fn folder() -> PathBuf {
    match env::var_os("STIPEHARBOR_LIB_DIR") {
        Some(folder) => PathBuf::from(folder),
        None => Path::new(&env::var("CARGO_MANIFEST_DIR").expect("CARGO_MANIFEST_DIR"))
            .join("../../crates/stipeharbor/out"),
    }
}

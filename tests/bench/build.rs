//! Compiles the C peer with the system's compiler and links it.

use std::env;
use std::path::{Path, PathBuf};
use std::process::Command;

const SOURCES: [&str; 4] = ["calls", "judge", "reader", "run"];
const FLAGS: [&str; 5] = ["-O3", "-std=c99", "-Wall", "-Wextra", "-pedantic"];

fn main() {
    println!("cargo:rerun-if-changed=build.rs");
    println!("cargo:rerun-if-changed=peer");
    println!("cargo:rerun-if-changed=../../include/pirkvezo.h");
    let out = PathBuf::from(env::var_os("OUT_DIR").expect("cargo names a folder to write to"));
    let objects = SOURCES.map(|source| compile(source, &out));
    let archive = out.join("libpeer.a");
    // An archive that is there already would keep members that have gone.
    let _ = std::fs::remove_file(&archive);
    run(Command::new("ar").arg("crs").arg(&archive).args(&objects));
    println!("cargo:rustc-link-search=native={}", out.display());
    println!("cargo:rustc-link-lib=static=peer");
}

fn compile(source: &str, out: &Path) -> PathBuf {
    let object = out.join(source).with_extension("o");
    let source = Path::new("peer").join(source).with_extension("c");
    let mut compiler = Command::new("cc");
    compiler.args(FLAGS).arg("-c").arg(source);
    run(compiler.arg("-o").arg(&object));
    object
}

/// Runs a program. What it warns of is passed on; where it fails, so does the build.
fn run(command: &mut Command) {
    let output = command.output();
    let output = output.unwrap_or_else(|error| panic!("{command:?}: {error}"));
    let said = String::from_utf8_lossy(&output.stderr);
    for line in said.lines() {
        println!("cargo:warning={line}");
    }
    assert!(output.status.success(), "{command:?} failed:\n{said}");
}

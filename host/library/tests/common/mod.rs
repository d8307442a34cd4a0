//! What several tests need: folders, and programs run for what they print.

// No test uses all of it.
#![allow(dead_code)]

use std::io::Write;
use std::path::{Path, PathBuf};
use std::process::Command;

/// The crate's folder.
pub fn here() -> &'static Path {
    Path::new(env!("CARGO_MANIFEST_DIR"))
}

/// A file among those that the tests make.
pub fn made(name: &str) -> PathBuf {
    Path::new(env!("CARGO_TARGET_TMPDIR")).join(name)
}

/// Says that something was not tested. Not by `println`, which is shown for failing tests
/// alone.
pub fn say(line: &str) {
    writeln!(std::io::stderr(), "{line}").expect("standard error");
}

/// What a program prints; it must end well.
#[track_caller]
pub fn printed(command: &mut Command) -> String {
    let output = command.output().unwrap_or_else(|error| panic!("{command:?}: {error}"));
    let errors = String::from_utf8_lossy(&output.stderr);
    assert!(output.status.success(), "{command:?}: {}\n{errors}", output.status);
    String::from_utf8(output.stdout).expect("text")
}

/// The C program of `examples/`, built with gcc.
#[track_caller]
pub fn c_example(name: &str) -> PathBuf {
    let program = made(name);
    let mut gcc = Command::new("gcc");
    gcc.args(["-Wall", "-Wextra", "-Wpedantic", "-Werror", "-std=c11", "-O2", "-o"])
        .arg(&program)
        .arg(here().join("examples").join(name).with_extension("c"))
        .arg("-I")
        .arg(here().join("include"))
        .arg(env!("GAZHUPPIN_STATIC"));
    printed(&mut gcc);
    program
}

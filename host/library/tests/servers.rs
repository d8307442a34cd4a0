//! The little servers of `examples/`, in C and in Rust, print what `server.printed` has.
//! (The one in Python: `python.rs`.)

use crate::common::{c_example, here, printed};
use std::process::Command;

fn expected() -> String {
    std::fs::read_to_string(here().join("examples/server.printed")).expect("what is printed")
}

#[test]
fn the_server_in_c() {
    assert_eq!(printed(&mut Command::new(c_example("server"))), expected());
}

/// `cargo test` builds the examples into the folder beside the tests' own.
#[test]
fn the_server_in_rust() {
    let tests = std::env::current_exe().expect("this program");
    let folder = tests.parent().and_then(|deps| deps.parent()).expect("the folder of the build");
    let program = folder.join("examples/server");
    assert!(program.is_file(), "`cargo test` builds the examples; with `--test` it does not");
    assert_eq!(printed(&mut Command::new(program)), expected());
}

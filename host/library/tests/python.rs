//! The Python module: the shared object is built by the command that the module names, and
//! the module's own tests and its little server are run over it. Where there is no python3
//! a line says so.

use crate::common::{here, made, printed, say};
use std::fs;
use std::path::PathBuf;
use std::process::Command;

/// As `gazhuppin.py` has it.
const COMMAND: &str = "gcc -shared -o target/staticlib/libgazhuppin.so -Wl,--whole-archive \
                       target/staticlib/libgazhuppin.a -Wl,--no-whole-archive";

fn python_is_here() -> bool {
    let version = Command::new("python3").arg("--version").output();
    let found = version.is_ok_and(|output| output.status.success());
    if !found {
        say("python3 is missing: host/python was NOT tested");
    }
    found
}

/// The shared object, among the files that tests make.
fn shared_object() -> PathBuf {
    let object = made("libgazhuppin.so");
    let mut words = COMMAND.split_whitespace().map(|word| match word {
        "target/staticlib/libgazhuppin.so" => object.clone(),
        "target/staticlib/libgazhuppin.a" => PathBuf::from(env!("GAZHUPPIN_STATIC")),
        _ => PathBuf::from(word),
    });
    printed(Command::new(words.next().expect("gcc")).args(words));
    object
}

#[test]
fn the_python_module() {
    let folder = here().join("../python");
    let module = fs::read_to_string(folder.join("gazhuppin.py")).expect("the module");
    assert!(module.contains(COMMAND), "the module names another command");
    // Built in any case: the library has to serve for a shared object.
    let object = shared_object();
    if !python_is_here() {
        return;
    }
    let python = |arguments: &[&str]| {
        let mut python = Command::new("python3");
        python.arg("-B").args(arguments).current_dir(&folder).env("GAZHUPPIN_SO", &object);
        printed(&mut python)
    };
    python(&["-m", "unittest", "--quiet"]);
    let expected = fs::read_to_string(here().join("examples/server.printed"));
    assert_eq!(python(&["server.py"]), expected.expect("what is printed"));
}

//! Links the proved machine, a static library that `tools/build gazhuppin` writes.

use std::env;
use std::path::{Path, PathBuf};

fn main() {
    let usual = Path::new(env!("CARGO_MANIFEST_DIR")).join("../../target/staticlib");
    let folder = env::var_os("GAZHUPPIN_LIB").map_or(usual, PathBuf::from);
    let library = folder.join("libgazhuppin.a");
    println!("cargo::rerun-if-env-changed=GAZHUPPIN_LIB");
    println!("cargo::rerun-if-changed={}", library.display());
    if !library.is_file() {
        let missing = library.display();
        println!(
            "cargo::error={missing} is missing: `tools/build gazhuppin`, run in the project's \
             root, writes it; GAZHUPPIN_LIB can name another folder that has it"
        );
        return;
    }
    println!("cargo::rustc-link-search=native={}", folder.display());
    println!("cargo::rustc-link-lib=static=gazhuppin");
    // For the test that builds a C program.
    println!("cargo::rustc-env=GAZHUPPIN_STATIC={}", library.display());
}

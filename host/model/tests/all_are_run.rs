//! A package's tests are one program, which names the files that it is made of, and `src/` is not
//! searched for tests where there are none: here it is seen that none is forgotten.

use std::fs;
use std::path::{Path, PathBuf};

/// The folders of the packages.
fn packages() -> Vec<PathBuf> {
    let host = Path::new(env!("CARGO_MANIFEST_DIR")).join("..");
    let folders = files(&host).into_iter().filter(|path| path.join("Cargo.toml").is_file());
    let folders: Vec<PathBuf> = folders.collect();
    assert_eq!(folders.len(), 6, "{folders:?}");
    folders
}

fn files(folder: &Path) -> Vec<PathBuf> {
    fs::read_dir(folder).expect("a folder").map(|entry| entry.expect("a file").path()).collect()
}

/// The files of a folder and of the folders in it.
fn files_below(folder: &Path) -> Vec<PathBuf> {
    let below = |path: PathBuf| if path.is_dir() { files_below(&path) } else { vec![path] };
    files(folder).into_iter().flat_map(below).collect()
}

fn text(path: &Path) -> String {
    fs::read_to_string(path).unwrap_or_else(|error| panic!("{}: {error}", path.display()))
}

#[test]
fn every_file_of_tests_is_part_of_the_program() {
    for package in packages() {
        let all = text(&package.join("tests/all.rs"));
        for path in files(&package.join("tests")) {
            let name = path.file_stem().and_then(|name| name.to_str()).expect("a name");
            let named = all.lines().any(|line| line == format!("mod {name};"));
            assert!(named || name == "all", "{} is not run", path.display());
        }
    }
}

#[test]
fn tests_in_src_are_searched_for() {
    for package in packages() {
        let manifest = text(&package.join("Cargo.toml"));
        for path in files_below(&package.join("src")) {
            let (name, text) = (path.display(), text(&path));
            let searched = !manifest.contains("[lib]\ntest = false") && !path.ends_with("main.rs");
            assert!(searched || !text.contains("#[test]"), "tests of {name} are not run");
            let examples = !manifest.contains("doctest = false");
            assert!(examples || !text.contains("/// ```"), "examples of {name} are not run");
        }
    }
}

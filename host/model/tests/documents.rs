//! The documents are held to the tree: every name in a bracket of docs/MACHINE.md stands in the file that is named behind it, every clause that a function of
//! the model names is there, and every must-fail edit that docs/CLAIMS.md names is there.

use std::collections::BTreeSet;
use std::fs;
use std::path::{Path, PathBuf};

fn root() -> PathBuf {
    Path::new(env!("CARGO_MANIFEST_DIR")).join("../..")
}

fn page() -> String {
    fs::read_to_string(root().join("docs/MACHINE.md")).expect("docs/MACHINE.md")
}

/// The file that a bracket names: `interface/specs/Refusals`, or a path that ends in `.rt`.
fn file(named: &str) -> PathBuf {
    let crates = root().join("crates");
    if named.ends_with(".rt") {
        crates.join(named)
    } else {
        crates.join(format!("{named}.antt"))
    }
}

/// The brackets of the page that hold names: each with its parts, which semicolons divide.
fn brackets(text: &str) -> Vec<String> {
    let mut found = Vec::new();
    let mut rest = text;
    while let Some(open) = rest.find('[') {
        rest = &rest[open + 1..];
        let Some(close) = rest.find(']') else { break };
        let inside = rest[..close].split_whitespace().collect::<Vec<_>>().join(" ");
        if inside.contains("/specs/") || inside.contains("/proofs/") || inside.contains("/src/") {
            found.push(inside);
        }
        rest = &rest[close + 1..];
    }
    found
}

/// The words in backquotes.
fn quoted(text: &str) -> Vec<String> {
    text.split('`').skip(1).step_by(2).map(str::to_string).collect()
}

/// Whether a file has a word, not as part of a longer one.
fn has_word(text: &str, word: &str) -> bool {
    let part = |c: char| c.is_alphanumeric() || "_-·′".contains(c);
    text.match_indices(word).any(|(at, _)| {
        let before = text[..at].chars().next_back();
        let after = text[at + word.len()..].chars().next();
        !before.is_some_and(part) && !after.is_some_and(part)
    })
}

#[test]
fn names_stand_where_the_page_says() {
    let mut checked = 0;
    let mut wrong = Vec::new();
    for bracket in brackets(&page()) {
        let mut last = None;
        for part in bracket.split(';') {
            let path = part.split_whitespace().find(|word| {
                word.contains("/specs/") || word.contains("/proofs/") || word.contains("/src/")
            });
            // 'there' names the file before
            let path = path.map(str::to_string).or_else(|| last.clone());
            let Some(path) = path else { continue };
            match fs::read_to_string(file(&path)) {
                Err(_) => wrong.push(format!("there is no {path}")),
                Ok(text) => {
                    for name in quoted(part) {
                        checked += 1;
                        if !has_word(&text, &name) {
                            wrong.push(format!("{name} does not stand in {path}"));
                        }
                    }
                }
            }
            last = Some(path);
        }
    }
    assert!(wrong.is_empty(), "{}", wrong.join("\n"));
    assert!(checked > 200, "only {checked} names were found");
}

/// The clauses of the page: `**4.7**`, `**11.2 Demand 1.**`, and the numbers of the refusals.
fn clauses() -> BTreeSet<String> {
    page()
        .split("**")
        .skip(1)
        .step_by(2)
        .filter_map(|bold| {
            bold.split_whitespace().next().map(|word| word.trim_end_matches('.').to_string())
        })
        .filter(|word| word.starts_with(|c: char| c.is_ascii_digit()))
        .collect()
}

#[test]
fn the_model_names_clauses_that_are_there() {
    let clauses = clauses();
    let mut named = 0;
    for entry in fs::read_dir(Path::new(env!("CARGO_MANIFEST_DIR")).join("src")).unwrap() {
        let path = entry.unwrap().path();
        let text = fs::read_to_string(&path).unwrap();
        for (at, _) in text.match_indices("MACHINE ") {
            let cited = text[at + 8..].split(':').next().unwrap();
            for word in cited.split(|c: char| !(c.is_ascii_digit() || c == '.')) {
                let word = word.trim_matches('.');
                if word.contains('.') {
                    named += 1;
                    assert!(
                        clauses.contains(word),
                        "{}: there is no clause {word}",
                        path.display()
                    );
                }
            }
        }
    }
    assert!(named > 40, "only {named} clauses are named");
}

#[test]
fn claims_names_edits_that_are_there() {
    let text = fs::read_to_string(root().join("docs/CLAIMS.md")).expect("docs/CLAIMS.md");
    let mut named = 0;
    for word in quoted(&text) {
        let Some((folder, label)) = word.split_once('/') else { continue };
        let edits = root().join("crates").join(folder).join("must-fail");
        let is_label =
            label.chars().all(|c| c.is_ascii_lowercase() || c.is_ascii_digit() || c == '_');
        if edits.is_dir() && is_label && !["specs", "proofs", "src"].contains(&label) {
            named += 1;
            assert!(edits.join(format!("{label}.edit")).is_file(), "there is no edit {word}");
        }
    }
    assert!(named > 100, "only {named} edits are named");
}

//! The C programs of `examples/` that play a roll and write an archive, the header, and the
//! library's symbols.

use crate::common::{c_example, here, printed, say};
use std::fs::{self, File};
use std::process::{Command, Stdio};

#[test]
fn the_c_example_plays_the_documents_roll() {
    let program = c_example("play");
    let examples = here().join("../../examples");
    for name in ["first", "four-sandboxes", "malformed", "short-last-line", "empty"] {
        let roll = File::open(examples.join(name).with_extension("roll")).expect("the roll");
        let played = printed(Command::new(&program).stdin(Stdio::from(roll)));
        let expected = fs::read_to_string(examples.join(name).with_extension("answers"));
        assert_eq!(played, expected.expect("answers"), "{name}");
    }
}

/// Its roll, which it has played itself, is accepted by the model too, and is its own archive.
#[test]
fn the_c_example_writes_an_archive() {
    let roll = printed(&mut Command::new(c_example("archive")));
    let expected = fs::read_to_string(here().join("examples/archive.printed"));
    assert_eq!(roll, expected.expect("what is printed"));
    let mut machine = model::Machine::fresh(&[], 16);
    let replies = model::play_on(roll.as_bytes(), &mut machine);
    assert!(replies.chunks(19).all(|reply| reply[6..12] == *b"     0"));
    assert_eq!(machine.archived(2).expect("a snapshot").text(), roll.as_bytes());
}

/// The header needs nothing included before it, and serves for C++ too.
#[test]
fn the_header_compiles_by_itself() {
    let cc1plus = printed(Command::new("gcc").arg("-print-prog-name=cc1plus"));
    let mut languages = vec![["-std=c11", "-xc"]];
    if cc1plus.starts_with('/') {
        languages.push(["-std=c++17", "-xc++"]);
    } else {
        say("gcc is here without C++: the header was NOT tested as C++");
    }
    for language in languages {
        let mut gcc = Command::new("gcc");
        gcc.args(["-Wall", "-Wextra", "-Wpedantic", "-Werror", "-fsyntax-only"]).args(language);
        printed(gcc.arg(here().join("include/gazhuppin.h")));
    }
}

/// What the header says: nothing from the heap, and no state between calls.
#[test]
fn the_library_needs_no_heap_and_has_no_state() {
    let listed = printed(Command::new("nm").arg(env!("GAZHUPPIN_STATIC")));
    let of_kind = |kinds: &str| {
        let symbols = listed.lines().map(|line| line.split_whitespace().rev().take(2));
        let mut names: Vec<&str> = symbols
            .filter_map(|mut symbol| symbol.next().zip(symbol.next()))
            .filter(|(_, kind)| kind.len() == 1 && kinds.contains(kind))
            .map(|(name, _)| name)
            .collect();
        names.sort();
        names
    };
    let functions = ["archive", "call", "lines", "play", "start", "state_bytes"];
    assert_eq!(of_kind("T"), functions.map(|name| format!("gazhuppin_{name}")));
    let needed = of_kind("U");
    assert!(needed.iter().all(|name| ["memcpy", "memmove", "memset"].contains(name)), "{needed:?}");
    // Variables, cleared, set or common.
    assert_eq!(of_kind("bBdDC"), [""; 0]);
}

/// The header's numbers are those of the library and of this crate.
#[test]
fn the_headers_numbers() {
    let header = fs::read_to_string(here().join("include/gazhuppin.h")).expect("the header");
    let defined = |name: &str| {
        let line = header.lines().find(|line| line.starts_with(&format!("#define {name} ")));
        let number = line.and_then(|line| line.split_whitespace().nth(2));
        number.and_then(|number| number.parse::<usize>().ok()).unwrap_or_else(|| panic!("{name}"))
    };
    assert_eq!(defined("GAZHUPPIN_STATE_BYTES"), gazhuppin::state_bytes());
    assert_eq!(defined("GAZHUPPIN_TABLE_ENTRIES"), gazhuppin::TABLE_ENTRIES);
    assert_eq!(defined("GAZHUPPIN_FRAME_BYTES"), gazhuppin::FRAME_BYTES);
    assert_eq!(defined("GAZHUPPIN_MOST_FRAMES"), gazhuppin::MOST_FRAMES);
    assert_eq!(defined("GAZHUPPIN_LINE_BYTES"), gazhuppin::LINE_BYTES);
    assert_eq!(defined("GAZHUPPIN_MOST_ARCHIVE_LINES"), gazhuppin::MOST_ARCHIVE_LINES);
    assert_eq!(gazhuppin::MOST_ARCHIVE_LINES, model::ARCHIVE_LINES);
    assert_eq!(defined("GAZHUPPIN_LOWEST_GAP"), usize::from(gazhuppin::PAGES));
    assert_eq!(defined("GAZHUPPIN_CLEAN"), usize::from(gazhuppin::PAGES));
    let calls = ["OPEN", "MAP", "UNMAP", "PROTECT", "READ", "WRITE", "SNAPSHOT", "REWIND"];
    for (code, name) in (1..).zip(calls.into_iter().chain(["REPORT", "COMPARE"])) {
        let line = format!("    GAZHUPPIN_{name} = {code}");
        assert!(header.contains(&line), "{line}");
    }
    for refusal in gazhuppin::Refusal::ALL {
        // AlreadyOpen is GAZHUPPIN_ALREADY_OPEN.
        let mut name = String::from("GAZHUPPIN");
        for letter in format!("{refusal:?}").chars() {
            name.extend(letter.is_ascii_uppercase().then_some('_'));
            name.push(letter.to_ascii_uppercase());
        }
        let line = format!("    {name} = {}", refusal.number());
        assert!(header.contains(&line), "{line}");
    }
}

//! Requests, and what is kept of them.

use crate::common::{accept, after, value};
use model::Machine;

/// A sandbox of this share with a snapshot of no pages.
pub fn opened(share: usize) -> Machine {
    after(&[&format!("1 0 {share}"), "7 0"])
}

/// Map an area of so many pages at a named page and write byte 0 of each.
pub fn written_area(machine: &mut Machine, first: usize, pages: usize) {
    accept(machine, &[&format!("2 0 {first} {pages} 0 0 3")]);
    for page in first..first + pages {
        accept(machine, &[&format!("6 0 {} 9", 256 * page)]);
    }
}

/// One request: areas of these lengths at named pages, each page written, then the rewind.
pub fn request(machine: &mut Machine, lengths: &[usize]) {
    let mut first = 0;
    for &pages in lengths {
        written_area(machine, first, pages);
        first += pages + 1;
    }
    accept(machine, &["8 0"]);
}

/// A machine of share 64 that keeps runs of these lengths.
pub fn keeping(lengths: &[usize]) -> Machine {
    let mut machine = opened(64);
    for eight in lengths.chunks(8) {
        request(&mut machine, eight);
    }
    machine
}

#[track_caller]
pub fn assert_kept(machine: &mut Machine, lengths: &[usize]) {
    assert_eq!(machine.sandbox(0).runs.lengths(), lengths);
    let held = machine.sandbox(0).marks() + lengths.iter().sum::<usize>();
    assert_eq!(value(machine, "9 0") as usize, held, "call 9");
}

/// The pages with a front.
pub fn fronts(machine: &Machine) -> Vec<usize> {
    (0..64).filter(|&at| machine.sandbox(0).pages[at].front).collect()
}

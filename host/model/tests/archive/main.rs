//! "A roll for the archive box": the archive of a snapshot, by hand.

mod lines;
mod output;
mod replay;
mod wrong_writers;

use crate::common::{accept, short};
use model::{call_line, Archive, Call, Machine};

/// A machine with 128 frames and this image, after calls that are accepted.
fn after(image: &[u8], texts: &[&str]) -> Machine {
    let mut machine = Machine::fresh(image, 128);
    accept(&mut machine, texts);
    machine
}

/// A sandbox's archive; it must have a snapshot.
#[track_caller]
fn archived(machine: &Machine, sandbox: u16) -> Archive {
    machine.archived(sandbox).expect("there is a snapshot")
}

/// The archive has just these lines, and they are what is written.
#[track_caller]
fn expect_lines(machine: &Machine, sandbox: u16, texts: &[&str]) {
    let calls: Vec<Call> = texts.iter().map(|text| short(text)).collect();
    assert_eq!(archived(machine, sandbox).calls(), calls);
    let text: Vec<u8> = calls.iter().flat_map(call_line).collect();
    let mut out = vec![b'x'; text.len()];
    assert_eq!(machine.archive(sandbox, &mut out), (0, texts.len() as u32));
    assert_eq!(String::from_utf8_lossy(&out), String::from_utf8_lossy(&text));
}

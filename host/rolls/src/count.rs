//! Counts that disturb a snapshot's pages, and their rewinds: bytes are written, and some of them
//! written back. Left to chance, a rewind hardly ever finds a page that was written back, many
//! pages that differ, or none because another rewind has just been made.

use crate::building::backing_byte;
use crate::prng::Prng;
use crate::put_back::put_back;
use crate::spoil::boundary_call;
use crate::steering::new_call;
use model::{call_line, Call, Machine, PAGES, PAGE_BYTES, SANDBOXES};

/// The counts at the end of a roll.
pub(crate) struct Count {
    prng: Prng,
    /// How many lines they take; none in half of the rolls.
    pub lines: usize,
    /// Percentage of the calls that are rewinds.
    rewinds: usize,
}

impl Count {
    pub(crate) fn random(mut prng: Prng) -> Count {
        let lines = if prng.chance(50) { prng.within(8..=50) } else { 0 };
        let rewinds = prng.pick(&[4, 12, 30]);
        Count { prng, lines, rewinds }
    }

    /// A line for a sandbox that has a snapshot; `None` where there is none to disturb.
    pub(crate) fn next_line(&mut self, machine: &Machine) -> Option<Vec<u8>> {
        let taken = |&number: &usize| machine.sandbox(number).copy.is_some();
        let taken: Vec<usize> = (0..SANDBOXES).filter(taken).collect();
        // Mostly of one sandbox, so that much comes between its rewinds.
        let any = self.prng.below(taken.len().max(1));
        let number = *taken.get(if self.prng.chance(80) { 0 } else { any })?;
        let call = call_of_count(&mut self.prng, machine, number, self.rewinds)?;
        let spoilt = self.prng.chance(4);
        Some(call_line(&if spoilt { boundary_call(&mut self.prng, &call) } else { call }))
    }
}

/// What the next call of a count is for.
#[derive(Clone, Copy)]
enum Step {
    Write,
    /// A byte gets what the page would hold had it not been written before the snapshot.
    WriteBacking,
    PutBack,
    Protect,
    Unmap,
    Rewind,
}

/// The next call of a count, `rewinds` percent of them rewinds; `None` where no page of the
/// snapshot can be written.
fn call_of_count(
    prng: &mut Prng,
    machine: &Machine,
    number: usize,
    rewinds: usize,
) -> Option<Call> {
    let sandbox = machine.sandbox(number);
    let copy = sandbox.copy.as_ref()?;
    let now = &sandbox.pages;
    let writable = |&at: &usize| now[at].committed && now[at].rights == 3;
    let pages: Vec<usize> = (0..PAGES).filter(writable).collect();
    if pages.is_empty() {
        let brings_back = copy.iter().any(|page| page.mapped && page.rights == 3);
        return brings_back.then(|| new_call(8, number, [0; 5]));
    }
    let differs = |at: &usize| now[*at].bytes != copy[*at].bytes;
    let (changed, clean): (Vec<usize>, Vec<usize>) = pages.iter().partition(|at| differs(at));
    let written: Vec<usize> = pages.iter().copied().filter(|&at| copy[at].back).collect();
    let weight = |wanted: bool, weight: usize| if wanted { weight } else { 0 };
    let steps = [
        (12, Step::Write),
        (weight(!written.is_empty(), 3), Step::WriteBacking),
        (weight(!changed.is_empty(), 8), Step::PutBack),
        (1, Step::Protect),
        (1, Step::Unmap),
    ];
    let step = if prng.chance(rewinds) { Step::Rewind } else { prng.weighted(&steps) };
    let write = |at: usize, offset: usize, byte: usize| {
        new_call(6, number, [at * PAGE_BYTES + offset, byte, 0, 0, 0])
    };
    Some(match step {
        Step::Write => {
            // Mostly a page more that differs.
            let more = !clean.is_empty() && prng.chance(75);
            let at = prng.pick(if more { &clean } else { &pages });
            let offset = prng.pick(&[0, 1, 44, 255]);
            let byte = copy[at].bytes[offset].wrapping_add(1 + prng.below(255) as u8);
            write(at, offset, usize::from(byte))
        }
        Step::WriteBacking => {
            let at = prng.pick(&written);
            let under = |offset: usize| backing_byte(machine, &copy[at], offset);
            let offset = any_offset(prng, |o| usize::from(copy[at].bytes[o]) != under(o));
            write(at, offset, under(offset))
        }
        Step::PutBack => put_back(prng, machine, number).expect("a page differs"),
        Step::Protect => new_call(4, number, [prng.pick(&pages), 1, 1, 0, 0]),
        Step::Unmap => new_call(3, number, [prng.pick(&pages), 1, 0, 0, 0]),
        Step::Rewind => new_call(8, number, [0; 5]),
    })
}

/// A place in a page that is wanted; the first where none is.
fn any_offset(prng: &mut Prng, wanted: impl Fn(usize) -> bool) -> usize {
    let offsets: Vec<usize> = (0..PAGE_BYTES).filter(|&offset| wanted(offset)).collect();
    if offsets.is_empty() {
        0
    } else {
        prng.pick(&offsets)
    }
}

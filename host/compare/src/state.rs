//! From the plain machine to the state, and back. The state is determined by what the
//! plain machine keeps, and by the table and the frames of the runs: "Areas are the longest runs of neighbouring
//! pages that agree in rights, mark and backing (image pages running on)", and "the held
//! marks are those frames" that entries name.

use crate::frames::Frames;
use crate::layout::{Area, Areas, Record, State};
use crate::row::{length, Row};
use model::{Backing, Machine, Page, Pages, Runs, Sandbox, AREAS, PAGES, PAGE_BYTES};
use std::sync::Arc;

/// The state of a machine that keeps this, with these frames.
pub fn state_of(machine: &Machine, frames: &Frames) -> State {
    let record = |number| record_of(machine.sandbox(number), &frames.rows[number]);
    let sandboxes = std::array::from_fn(record);
    // A frame that no mark can stand for is a difference of the table, found there.
    let held = frames.table.iter().filter(|&&entry| (1..=128).contains(&entry));
    State { sandboxes, held: held.fold(0, |marks, entry| marks | 1 << (entry - 1)) }
}

fn record_of(sandbox: &Sandbox, row: &Row) -> Record {
    let lengths: Vec<usize> = row.iter().map(|&run| length(run)).filter(|&run| run > 0).collect();
    assert_eq!(lengths, sandbox.runs.lengths(), "the places and the plain machine's runs");
    let none = Areas { count: 0, places: [Area::NONE; AREAS] };
    Record {
        open: sandbox.open,
        share: sandbox.share as u8,
        taken: sandbox.copy.is_some(),
        present: longest_runs(&sandbox.pages),
        snapshot: sandbox.copy.as_ref().map_or(none, |copy| longest_runs(copy)),
        runs: *row,
    }
}

fn longest_runs(pages: &Pages) -> Areas {
    let mut areas = Areas { count: 0, places: [Area::NONE; AREAS] };
    for (at, page) in pages.iter().enumerate().filter(|(_, page)| page.mapped) {
        let last = areas.places[..usize::from(areas.count)].last_mut();
        match last.filter(|area| goes_on(area, at, page)) {
            Some(area) => area.pages += 1,
            None => {
                areas.places[usize::from(areas.count)] = Area {
                    first: at as u8,
                    pages: 1,
                    rights: page.rights as u8,
                    committed: page.committed,
                    backing: page.backing,
                };
                areas.count += 1;
            }
        }
    }
    areas
}

fn goes_on(area: &Area, at: usize, page: &Page) -> bool {
    area.end() == at
        && u16::from(area.rights) == page.rights
        && area.committed == page.committed
        && area.backing_of(at) == page.backing
}

/// What the plain machine keeps where a program keeps this sound state, pool and table.
pub fn machine_of(state: &State, pool: &[u8], table: &[u16], image: &[u8]) -> Machine {
    let sandbox = |number: usize| {
        let entries = &table[number * 2 * PAGES..][..2 * PAGES];
        Arc::new(sandbox_of(&state.sandboxes[number], &Memory { entries, pool, image }))
    };
    Machine::keeping(image, pool.len() / PAGE_BYTES, std::array::from_fn(sandbox))
}

/// The entries of a sandbox, and what they are read with.
struct Memory<'a> {
    entries: &'a [u16],
    pool: &'a [u8],
    image: &'a [u8],
}

impl Memory<'_> {
    fn frame(&self, entry: u16) -> Option<[u8; PAGE_BYTES]> {
        let frame = usize::from(entry).checked_sub(1)?;
        self.pool[frame * PAGE_BYTES..][..PAGE_BYTES].try_into().ok()
    }

    /// "zero bytes or its image page".
    fn backed(&self, backing: Backing) -> [u8; PAGE_BYTES] {
        match backing {
            Backing::Anonymous => [0; PAGE_BYTES],
            Backing::Image(page) => {
                self.image[page * PAGE_BYTES..][..PAGE_BYTES].try_into().expect("a page")
            }
        }
    }
}

/// "A page reads its front frame; else, if committed, its back frame; else zero bytes or
/// its image page."
fn sandbox_of(record: &Record, memory: &Memory) -> Sandbox {
    let pages_of = |areas: &Areas, fronts: bool| -> Pages {
        std::array::from_fn(|at| {
            let (front, back) = (memory.entries[at], memory.entries[PAGES + at]);
            let front = if fronts { front } else { 0 };
            let (front_bytes, back_bytes) = (memory.frame(front), memory.frame(back));
            let marks = Page { front: front != 0, back: back != 0, ..Page::FRESH };
            let Some(area) = areas.at(at) else { return marks };
            let (backing, committed) = (area.backing_of(at), area.committed);
            let kept = back_bytes.filter(|_| committed);
            let bytes = front_bytes.or(kept).unwrap_or_else(|| memory.backed(backing));
            let rights = u16::from(area.rights);
            Page { mapped: true, backing, rights, committed, bytes, ..marks }
        })
    };
    Sandbox {
        open: record.open,
        share: usize::from(record.share),
        pages: pages_of(&record.present, true),
        copy: record.taken.then(|| Arc::new(pages_of(&record.snapshot, false))),
        runs: Runs::of(record.runs.map(length)),
    }
}

//! Which frames a call moves: table and runs that it leaves, from those that it found. Where the
//! documents leave a choice, the program's is taken if it is one of those allowed.

use crate::difference::{Difference, Place, Side};
use crate::layout;
use crate::row::{self, Row, Tie};
use model::{areas_of, Call, Sandbox, PAGES, PAGE_BYTES, RUNS, SANDBOXES};

/// The page table, and the kept runs of each sandbox.
#[derive(Clone, PartialEq, Eq, Debug)]
pub struct Frames {
    pub table: Vec<u16>,
    pub rows: [Row; SANDBOXES],
}

/// Where an entry stands in the table.
fn at(sandbox: usize, page: usize, side: Side) -> usize {
    Place { sandbox, page, side }.index()
}

/// The frame that an entry names, as a mark.
pub(crate) fn mark(entry: u16) -> u128 {
    let frame = u32::from(entry).checked_sub(1);
    frame.and_then(|frame| 1u128.checked_shl(frame)).unwrap_or(0)
}

impl Frames {
    /// The frames of a program that has this state and this table.
    pub fn of(state: &[u8], table: &[u16]) -> Frames {
        Frames { table: table.to_vec(), rows: layout::rows(state) }
    }

    /// A frame is unheld where no entry names it and no run keeps it.
    pub fn held(&self) -> u128 {
        let entries = self.table.iter().filter(|&&entry| entry != 0);
        let named = entries.fold(0, |marks, &entry| marks | mark(entry));
        self.rows.iter().flatten().fold(named, |marks, run| marks | run)
    }

    /// What an accepted call, with this value, makes of them; `before` is what the plain machine
    /// kept for its sandbox, `program` what the program left.
    pub fn follow(
        &mut self,
        call: &Call,
        value: u32,
        before: &Sandbox,
        program: &Frames,
    ) -> Result<(), Difference> {
        let sandbox = usize::from(call.sandbox);
        let [p1, p2, p3, ..] = call.parameters.map(usize::from);
        match call.code {
            2 if p1 == PAGES && p3 == 0 => self.grant(sandbox, value as usize, p2),
            3 => {
                // "Their fronts are freed": an unmap keeps none.
                self.table[at(sandbox, p1, Side::Front)..][..p2].fill(0);
            }
            6 => return self.write(sandbox, p1 / PAGE_BYTES, before, program),
            7 => {
                for page in 0..PAGES {
                    let front = &mut self.table[at(sandbox, page, Side::Front)];
                    let entry = std::mem::take(front);
                    self.table[at(sandbox, page, Side::Back)] = entry;
                }
            }
            8 => self.rewind(sandbox, before),
            _ => {}
        }
        Ok(())
    }

    /// "The first new pages get these frames as fronts, smallest frame number first; a surplus
    /// stays kept with its age."
    fn grant(&mut self, sandbox: usize, first: usize, pages: usize) {
        let Some(place) = row::fitting(&self.rows[sandbox], pages, Tie::Older) else { return };
        let frames = row::take(&mut self.rows[sandbox][place], pages);
        for (page, frame) in (first..).zip(frames) {
            self.table[at(sandbox, page, Side::Front)] = frame as u16 + 1;
        }
    }

    /// "one frame of the longest run is given up first; which one is open, and the write may take
    /// it". "Which unheld frame is taken is open."
    fn write(
        &mut self,
        sandbox: usize,
        page: usize,
        before: &Sandbox,
        program: &Frames,
    ) -> Result<(), Difference> {
        let front = at(sandbox, page, Side::Front);
        if self.table[front] != 0 {
            return Ok(());
        }
        if before.held() + 1 > before.share {
            let row = &mut self.rows[sandbox];
            let place = row::longest(row, Tie::Older).expect("a frame is kept");
            let given = row[place] & !program.rows[sandbox][place];
            if given.count_ones() != 1 {
                return Err(Difference::GivenUp { sandbox, place, frames: row::length(given) });
            }
            row[place] &= !given;
        }
        let entry = program.table[front];
        if mark(entry) & !self.held() == 0 {
            return Err(Difference::Taken {
                place: Place { sandbox, page, side: Side::Front },
                entry,
            });
        }
        self.table[front] = entry;
        Ok(())
    }

    /// "the frames of each uncommitted anonymous area, if any, are cleared and kept as one run";
    /// "of one rewind's runs the lower page is older".
    fn rewind(&mut self, sandbox: usize, before: &Sandbox) {
        for area in
            areas_of(&before.pages).into_iter().filter(|area| before.pages[area.start].is_spared())
        {
            let fronts = area.map(|page| self.table[at(sandbox, page, Side::Front)]);
            let run = fronts.fold(0, |run, entry| run | mark(entry));
            row::push(&mut self.rows[sandbox], run, Tie::Older);
        }
        for page in (0..PAGES).filter(|&page| !before.pages[page].committed) {
            self.table[at(sandbox, page, Side::Front)] = 0;
        }
    }
}

/// The first entry of the program's table that is not the expected one.
pub fn check_table(program: &[u16], expected: &[u16]) -> Result<(), Difference> {
    match (0..expected.len()).find(|&at| program[at] != expected[at]) {
        Some(at) => Err(Difference::Table { at, program: program[at], expected: expected[at] }),
        None => Ok(()),
    }
}

/// The first run of the program's that is not the expected one.
pub fn check_rows(
    program: &[Row; SANDBOXES],
    expected: &[Row; SANDBOXES],
) -> Result<(), Difference> {
    for (sandbox, place) in (0..SANDBOXES).flat_map(|s| (0..RUNS).map(move |place| (s, place))) {
        let (program, expected) = (program[sandbox][place], expected[sandbox][place]);
        if program != expected {
            return Err(Difference::Run { sandbox, place, program, expected });
        }
    }
    Ok(())
}

//! Kept runs of the plain machine with frames, and the faults that only they show: ages and
//! frame numbers alter no answer.

use crate::difference::{Difference, Place, Side};
use crate::frames::{check_rows, check_table, mark, Frames};
use crate::layout::STATE_BYTES;
use crate::row::{self, Tie};
use crate::with_frames::{MemoryFault, WithFrames};
use model::{areas_of, parse_line, Call, Sandbox, LINES, LINE_BYTES, SANDBOXES};
use rolls::Case;

impl WithFrames {
    /// Play a case a call at a time: table and runs are those that the calls leave.
    pub fn in_step(case: &Case, fault: MemoryFault) -> Result<(), Difference> {
        let mut program = WithFrames::start(case, fault);
        if !program.machine.lengths_are_right() {
            return Ok(());
        }
        let cleared = vec![0; program.frames.table.len()];
        let mut frames = Frames::of(&[0; STATE_BYTES], &cleared);
        for (index, line) in case.roll.chunks(LINE_BYTES).take(LINES).enumerate() {
            let Some(call) = parse_line(line) else { continue };
            let named = usize::from(call.sandbox);
            if named >= SANDBOXES {
                continue;
            }
            let before = program.machine.sandbox(named).clone();
            let (number, value) = program.answer(&call);
            let followed = match number {
                0 => frames.follow(&call, value, &before, &program.frames),
                _ => Ok(()),
            };
            followed
                .and_then(|()| check_table(&program.frames.table, &frames.table))
                .and_then(|()| check_rows(&program.frames.rows, &frames.rows))
                .map_err(|difference| difference.at_line(index + 1))?;
        }
        Ok(())
    }

    /// Where two are equal, which of them is meant; a fault means the other.
    fn tie(&self, wrong: MemoryFault) -> Tie {
        if self.fault == wrong {
            Tie::Newer
        } else {
            Tie::Older
        }
    }

    /// A rewind keeps the fronts of uncommitted anonymous areas; `before` is the sandbox as it
    /// was.
    pub(crate) fn keep(&mut self, sandbox: usize, before: &Sandbox) {
        let mut areas = areas_of(&before.pages);
        areas.retain(|area| before.pages[area.start].is_spared());
        if self.fault == MemoryFault::HigherPageOlder {
            areas.reverse();
        }
        for area in areas {
            let front = |page| Place { sandbox, page, side: Side::Front }.index();
            let entries = area.map(|page| self.frames.table[front(page)]);
            let run = entries.fold(0, |run, entry| run | mark(entry));
            let row = &mut self.frames.rows[sandbox];
            let shortest = row.iter().map(|&run| row::length(run)).min().expect("eight places");
            let ties = run != 0 && row::length(run) == shortest;
            if self.fault == MemoryFault::NewcomerWinsTie && ties {
                let place = row.iter().rposition(|&run| row::length(run) == shortest);
                let place = place.expect("there is a shortest");
                row[place] = run;
                row[place..].rotate_left(1);
            } else {
                let full = shortest > 0;
                let older_goes = full && self.fault == MemoryFault::OlderGoes;
                row::push(row, run, if older_goes { Tie::Newer } else { Tie::Older });
            }
        }
    }

    /// An anonymous map at 64 takes a run.
    pub(crate) fn grant(&mut self, call: &Call, first: usize) {
        let [place, pages, backing, ..] = call.parameters.map(usize::from);
        let sandbox = usize::from(call.sandbox);
        let tie = self.tie(MemoryFault::MapTakesNewer);
        let row = &mut self.frames.rows[sandbox];
        let Some(chosen) = row::fitting(row, pages, tie).filter(|_| (place, backing) == (64, 0))
        else {
            return;
        };
        let whole = row[chosen];
        let mut frames = row::take(&mut row[chosen], pages);
        match self.fault {
            MemoryFault::GreatestFrameFirst => {
                let all = row::take(&mut whole.clone(), 128);
                frames = all.into_iter().rev().take(frames.len()).collect();
                row[chosen] = frames.iter().fold(whole, |run, frame| run & !(1 << frame));
            }
            MemoryFault::SurplusBecomesNewest if row[chosen] != 0 => {
                row[chosen..].rotate_left(1);
            }
            MemoryFault::TakenStaysKept => row[chosen] = whole,
            _ => {}
        }
        for (page, frame) in (first..).zip(frames) {
            let front = Place { sandbox, page, side: Side::Front }.index();
            self.frames.table[front] = frame as u16 + 1;
        }
    }

    /// A write to a page without a front gives up a frame where the share is full.
    pub(crate) fn give_up(&mut self, sandbox: usize, before: &Sandbox) {
        if before.held() < before.share {
            return;
        }
        let tie = self.tie(MemoryFault::GivesUpNewer);
        let row = &mut self.frames.rows[sandbox];
        if let Some(place) = row::longest(row, tie) {
            row::take(&mut row[place], 1);
        }
    }
}

//! The machine: ten calls over a state and lent pool, page table and image.

use super::compare::lowest_difference;
use super::held::Held;
use super::memory::Memory;
use super::page::{Attributes, FrameNo, PageNo, PAGE_BYTES};
use super::request::{Refusal, Request};
use super::rewind::{gather, rewind};
use super::rules::{decide, page_at, Accepted};
use super::sandbox::Sandbox;

/// With `KEEPS_FRONTS` a rewind keeps the fronts of committed pages, as document 01 has
/// it; without, it frees all fronts, so that each has to be taken again. With `KEEPS_RUNS` it
/// keeps the frames of a finished request, as request A3 has it; without, there are no runs, and
/// nothing is done for them. With `TESTS` the whole state is tested before every call; without,
/// it is trusted, and the lengths of the lent memory alone are looked at, once, at the start.
#[derive(Clone, Debug)]
pub struct Machine<const KEEPS_FRONTS: bool, const KEEPS_RUNS: bool, const TESTS: bool> {
    /// Whether the lent memory had right lengths at the start.
    has_memory: bool,
    pub sandboxes: [Sandbox; 4],
    /// The frames that entries name; kept ones are marked in their runs alone.
    pub held: Held,
}

impl<const KEEPS_FRONTS: bool, const KEEPS_RUNS: bool, const TESTS: bool>
    Machine<KEEPS_FRONTS, KEEPS_RUNS, TESTS>
{
    /// A fresh machine; the lent memory is cleared if its lengths are right.
    pub fn start(memory: &mut Memory) -> Self {
        let has_memory = memory.has_right_lengths();
        if has_memory {
            memory.clear();
        }
        Machine { has_memory, sandboxes: [Sandbox::CLOSED; 4], held: Held::NONE }
    }

    pub fn shares(&self) -> usize {
        self.sandboxes.iter().map(|sandbox| usize::from(sandbox.share)).sum()
    }

    /// One request: its value, or why it is refused; then nothing has changed.
    pub fn call(&mut self, memory: &mut Memory, q: &Request) -> Result<u32, Refusal> {
        if !(1..=10).contains(&q.code) {
            return Err(Refusal::NoSuchCall);
        }
        let sound = if TESTS { self.is_sound(memory) } else { self.has_memory };
        if !sound {
            return Err(Refusal::Unsound);
        }
        let shares = self.shares();
        let s = usize::from(q.sandbox);
        let sandbox = self.sandboxes.get_mut(s).ok_or(Refusal::NotOpen)?;
        let Accepted { areas, place } =
            decide(sandbox, memory.frames(), memory.images(), shares, q)?;
        let held = &mut self.held;
        let value = match q.code {
            1 => {
                sandbox.open = true;
                sandbox.share = q.p1 as u8;
                0
            }
            2 => {
                let first = place.map_or(0, |page| page.0);
                if KEEPS_RUNS && q.takes_run() {
                    let run = sandbox.runs.fitting(u32::from(q.p2));
                    memory.grant(held, s, first..first + q.p2 as u8, run);
                }
                u32::from(first)
            }
            3 => {
                for page in (q.p1..q.p1 + q.p2).map(|page| PageNo(page as u8)) {
                    memory.free_front(held, s, page);
                }
                0
            }
            5 => u32::from(read(sandbox, memory, s, q)),
            6 => {
                self.write(memory, s, q);
                0
            }
            7 => {
                memory.move_fronts(s);
                sandbox.snapshot = Some(areas);
                areas.mapped_pages() as u32
            }
            8 => {
                if KEEPS_RUNS {
                    gather(sandbox, memory, s);
                }
                rewind::<KEEPS_FRONTS>(sandbox, held, memory, s)
            }
            9 if KEEPS_RUNS => frames_held(memory, s) + sandbox.runs.kept() as u32,
            9 => frames_held(memory, s),
            10 => lowest_difference(sandbox, memory, s),
            _ => 0,
        };
        self.sandboxes[s].present = areas;
        Ok(value)
    }

    /// One byte of a page's front is stored.
    fn write(&mut self, memory: &mut Memory, s: usize, q: &Request) {
        let (page, offset) = (page_at(q), usize::from(q.p1) % PAGE_BYTES);
        let Some(slot) = self.sandboxes[s].present.slot(page) else {
            return;
        };
        let front = memory.front(s, page).or_else(|| self.take(memory, s, page, slot));
        if let Some(frame) = front {
            memory.store(frame, offset, q.p2 as u8);
        }
    }

    /// "a page without a front first takes an unheld frame and fills it with what the page
    /// reads".
    fn take(
        &mut self,
        memory: &mut Memory,
        s: usize,
        page: PageNo,
        slot: Attributes,
    ) -> Option<FrameNo> {
        let mut kept = Held::NONE;
        if KEEPS_RUNS {
            self.give_up(memory, s);
            kept = self.kept();
        }
        let frame = self.held.with_all(&kept).greatest_free(memory.frames())?;
        let back = memory.back(s, page).filter(|_| slot.committed);
        memory.fill(frame, back, slot.backing);
        memory.set_front(s, page, frame);
        self.held.insert(frame);
        Some(frame)
    }

    /// "When a write would bring fronts, backs and kept frames above the share, one frame of the
    /// longest run is given up first".
    fn give_up(&mut self, memory: &Memory, s: usize) {
        let Sandbox { share, runs, .. } = &mut self.sandboxes[s];
        let kept = runs.kept();
        if kept > 0 && memory.used(s) + kept >= usize::from(*share) {
            runs.longest().take_least();
        }
    }

    /// The frames that the runs of all sandboxes keep.
    fn kept(&self) -> Held {
        let runs = self.sandboxes.iter().flat_map(|sandbox| &sandbox.runs.list);
        runs.fold(Held::NONE, Held::with_all)
    }
}

/// "A page reads its front frame; else, if committed, its back frame; else zero bytes
/// or its image page."
fn read(sandbox: &Sandbox, memory: &Memory, s: usize, q: &Request) -> u8 {
    let (page, offset) = (page_at(q), usize::from(q.p1) % PAGE_BYTES);
    let Some(slot) = sandbox.present.slot(page) else {
        return 0;
    };
    let back = || memory.back(s, page).filter(|_| slot.committed);
    match memory.front(s, page).or_else(back) {
        Some(frame) => memory.byte(frame, offset),
        None => memory.backing_byte(slot.backing, offset),
    }
}

/// How many frames the entries of one sandbox name, by the count of their marks.
fn frames_held(memory: &Memory, s: usize) -> u32 {
    let held = Held::named_by(memory.entries(s), memory.frames());
    held.map_or(0, |held| held.count())
}

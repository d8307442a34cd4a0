//! The plain machine built with a fault.
//!
//! The right machine is kept free of faults. A `Faulty` lets it answer, and then
//! spoils the sandbox or the answer.

use crate::fault::Fault;
use crate::faulty_cases::spoil_cases;
use crate::faulty_compare::{free_agreeing_fronts, wrong_difference};
use crate::faulty_count::Found;
use crate::faulty_gaps::{accept_unmapped, wrong_unmap};
use crate::faulty_pages::{areas_with_split_image, lowest_new_area, newly_mapped};
use crate::faulty_pages::{reads_image, reads_image_in_copy, unmapped_from};
use crate::faulty_runs::{spoil_runs, take_though_refused};
use crate::machine::{Answering, Machine, Refusal, Reply, SANDBOXES};
use crate::page::{Backing, Page, Pages, PAGES, PAGE_BYTES};
use crate::roll::Call;
use crate::sandbox::{Sandbox, AREAS};
use std::sync::Arc;

/// Beyond MACHINE 9.2: what a wrong machine remembers of a sandbox.
#[derive(Clone, Copy, Default)]
struct Memory {
    rewinds: usize,
    /// First page, and page past the last, of what the last rewind took away.
    rewound: Option<(usize, usize)>,
    /// The value of the last rewind, and of all together.
    put_back: u32,
    put_back_in_all: u32,
    /// The pages written since the snapshot or the last rewind, one bit a page.
    written: u64,
}

impl Memory {
    /// What an accepted call leaves of the pages written; a rewind looks at it first.
    fn note_written(&mut self, call: &Call) {
        match call.code {
            6 => self.written |= 1 << (usize::from(call.parameters[0]) / PAGE_BYTES),
            7 => self.written = 0,
            _ => {}
        }
    }

    /// Against MACHINE 9.14: what is told of a rewind that put back so many pages.
    fn told(&mut self, fault: Fault, put_back: u32) -> u32 {
        let before = std::mem::replace(&mut self.put_back, put_back);
        self.put_back_in_all += put_back;
        self.written = 0;
        match fault {
            Fault::PutBackToldOneBehind => before,
            Fault::PutBackAddsUp => self.put_back_in_all,
            _ => put_back,
        }
    }
}

/// MACHINE 15: The plain machine built with a fault; with `Fault::None` it is the right one.
#[derive(Clone)]
pub struct Faulty {
    machine: Machine,
    fault: Fault,
    memory: [Memory; SANDBOXES],
}

impl Faulty {
    /// MACHINE 9.3: fresh, with a fault.
    pub fn fresh(image: &[u8], frames: usize, fault: Fault) -> Faulty {
        let machine = Machine::fresh(image, frames);
        Faulty { machine, fault, memory: [Memory::default(); SANDBOXES] }
    }

    /// MACHINE 9.2: What the wrong machine keeps.
    pub fn machine(&self) -> &Machine {
        &self.machine
    }

    /// Against MACHINE 4.14: Where a faulty map at 64 puts its pages; `None` for the
    /// right place.
    fn wrong_place(&self, call: &Call) -> Option<usize> {
        let sandbox = self.machine.sandboxes.get(usize::from(call.sandbox))?;
        let count = usize::from(call.parameters[1]);
        if call.code != 2 || call.parameters[0] != 64 || !(1..=PAGES).contains(&count) {
            return None;
        }
        let gaps = |from: usize| {
            (from..=PAGES - count).filter(|&first| sandbox.none_mapped(first..first + count))
        };
        let (start, end) = match self.memory[usize::from(call.sandbox)].rewound {
            Some(place) => place,
            None if self.fault == Fault::TightestGap => (0, 0),
            None => return None,
        };
        match self.fault {
            Fault::HandsOutRewoundPlace => gaps(start).next().filter(|&first| first == start),
            Fault::SearchesPastRewoundPlace => gaps(end).next(),
            Fault::TightestGap => gaps(0)
                .filter(|&first| first == 0 || sandbox.pages[first - 1].mapped)
                .min_by_key(|&first| unmapped_from(sandbox, first)),
            _ => None,
        }
    }

    /// Against MACHINE 6: The answer to a call that the right machine refuses.
    fn spoil_refused(&mut self, call: &Call, number: u16) -> Reply {
        let sandbox = Arc::make_mut(&mut self.machine.sandboxes[usize::from(call.sandbox)]);
        let [p1, p2, p3, ..] = call.parameters;
        let pages = usize::from(p1)..usize::from(p1) + usize::from(p2);
        let too_many_areas = number == Refusal::TooManyAreas as u16;
        let too_few_frames = number == Refusal::TooFewFrames as u16;
        match (self.fault, call.code) {
            (Fault::AreasTestedInMapOnly, 3) if too_many_areas => sandbox.unmap(pages),
            (Fault::AreasTestedInMapOnly, 4) if too_many_areas => sandbox.protect(pages, p3),
            (Fault::ChargeForgetsUnmapped, 2) if too_few_frames => {
                // Try again as if the copy's unmapped pages were not snapshot pages.
                let true_copy = sandbox.copy.clone();
                if let Some(copy) = &mut sandbox.copy {
                    for (kept, page) in Arc::make_mut(copy).iter_mut().zip(&sandbox.pages) {
                        kept.mapped &= page.committed;
                    }
                }
                let reply = self.machine.answer(call);
                let sandbox = &mut self.machine.sandboxes[usize::from(call.sandbox)];
                Arc::make_mut(sandbox).copy = true_copy;
                return reply;
            }
            (Fault::RefusedWriteStores, 6) if number == Refusal::NoWriteRight as u16 => {
                sandbox.write(usize::from(p1) / PAGE_BYTES, usize::from(p1) % PAGE_BYTES, p2 as u8);
                return (number, 0);
            }
            (Fault::AnswersLaterRefusal, 2) if too_few_frames => {
                // Ask as if frames were plenty: then 14 is answered if it applies.
                let mut plenty = self.machine.clone();
                plenty.frames = 9_999;
                Arc::make_mut(&mut plenty.sandboxes[usize::from(call.sandbox)]).share = 999;
                let (later, _) = plenty.answer(call);
                return (number.max(later), 0);
            }
            (Fault::RefusedMapTakesRun, 2) if number > Refusal::MeetsMapped as u16 => {
                take_though_refused(call, sandbox);
                return (number, 0);
            }
            (Fault::PutBackToldThoughRefused, 8) if number == Refusal::OutsideLimits as u16 => {
                return (number, put_back(sandbox));
            }
            (Fault::SnapshotsAgain, 7) if number == Refusal::SnapshotTaken as u16 => {
                return (0, sandbox.snapshot() as u32);
            }
            (Fault::CompareWithoutSnapshot, 10) if number == Refusal::NoSnapshot as u16 => {
                let nothing = [Page::FRESH; PAGES];
                return (0, sandbox.lowest_difference(&nothing) as u32);
            }
            _ if number == Refusal::MeetsUnmapped as u16 => {
                return accept_unmapped(self.fault, call, sandbox);
            }
            _ => return (number, 0),
        }
        (0, 0)
    }

    /// Against MACHINE 9.6 to 9.14: The answer to a call that the right machine accepts,
    /// with `before` the sandbox as it was.
    fn spoil_accepted(&mut self, call: &Call, before: Arc<Sandbox>, value: u32) -> Reply {
        let number = usize::from(call.sandbox);
        let memory = &mut self.memory[number];
        memory.note_written(call);
        let all_shared_out = self.machine.shares() == self.machine.frames;
        let Machine { image, sandboxes, .. } = &mut self.machine;
        let wrong_runs = spoil_runs(self.fault, call, &before, sandboxes, value);
        let sandbox = &mut sandboxes[number];
        if let Err(refusal) = wrong_runs {
            return refuse(sandbox, before, refusal);
        }
        match (self.fault, call.code) {
            (Fault::RefusesAll, _) => return refuse(sandbox, before, Refusal::TooFewFrames),
            (Fault::RefusesThirteenEarly, 2) if sandbox.charge() == sandbox.share => {
                return refuse(sandbox, before, Refusal::TooFewFrames);
            }
            (Fault::RefusesFittingSnapshot, 7) if sandbox.charge() == sandbox.share => {
                return refuse(sandbox, before, Refusal::TooFewFrames);
            }
            (Fault::RefusesLastOpen, 1) if all_shared_out => {
                return refuse(sandbox, before, Refusal::TooFewFrames);
            }
            (Fault::ImagePagesNeverRunOn, 2) if areas_with_split_image(sandbox) > AREAS => {
                return refuse(sandbox, before, Refusal::TooManyAreas);
            }
            (Fault::InventsHeldCount, 9) => return (0, sandbox.charge() as u32),
            (Fault::ReportForgetsKept, 9) => return (0, sandbox.marks() as u32),
            (Fault::DropsSnapshotFrame, 2) => {
                let image = image.as_deref().unwrap_or(&[]);
                drop_snapshot_frames(Arc::make_mut(sandbox), &before, image);
            }
            (Fault::StaleBytesInNewPage, 2) => {
                for (page, was) in newly_mapped(Arc::make_mut(sandbox), &before) {
                    if was.bytes != [0; PAGE_BYTES] {
                        page.bytes = was.bytes;
                    }
                }
            }
            (fault, 3) => {
                let wrong = wrong_unmap(fault, call, &before, Arc::make_mut(sandbox));
                return wrong.unwrap_or_else(|refusal| refuse(sandbox, before, refusal));
            }
            (Fault::ReadTakesFrame, 5) => {
                let page = usize::from(call.parameters[0]) / PAGE_BYTES;
                Arc::make_mut(sandbox).pages[page].front = true;
            }
            (Fault::RewindsEverySandbox, 8) => {
                for sandbox in sandboxes {
                    if let Some(copy) = sandbox.copy.clone() {
                        Arc::make_mut(sandbox).rewind(&copy);
                    }
                }
            }
            (Fault::ZeroUnderWrittenImagePage, 6) => {
                let at = usize::from(call.parameters[0]);
                let was = &before.pages[at / PAGE_BYTES];
                if reads_image(was) {
                    let page = &mut Arc::make_mut(sandbox).pages[at / PAGE_BYTES];
                    page.bytes = [0; PAGE_BYTES];
                    page.bytes[at % PAGE_BYTES] = call.parameters[1] as u8;
                }
            }
            (Fault::CompareFreesAgreeingFronts, 10) => {
                if let Some(copy) = sandbox.copy.clone() {
                    free_agreeing_fronts(Arc::make_mut(sandbox), &copy);
                }
            }
            (fault, 10) => {
                let copy = sandbox.copy.as_ref();
                let wrong = copy.map(|copy| wrong_difference(fault, sandbox, copy) as u32);
                return (0, wrong.unwrap_or(value));
            }
            (_, 8) => {
                memory.rewinds += 1;
                memory.rewound = lowest_new_area(&before);
                let image = image.as_deref().unwrap_or(&[]);
                let rewound = Arc::make_mut(sandbox);
                spoil_rewind(self.fault, memory.rewinds, rewound, &before);
                spoil_cases(self.fault, &before, image, rewound);
                let pages = &mut rewound.pages;
                let counted = miscount(self.fault, &before, image, memory.written, pages);
                let others = match self.fault {
                    // The named one is rewound by now, and adds nothing.
                    Fault::PutBackCountsEverySandbox => {
                        sandboxes.iter().map(|sandbox| put_back(sandbox)).sum()
                    }
                    _ => 0,
                };
                return (0, memory.told(self.fault, counted + others));
            }
            _ => {}
        }
        (0, value)
    }
}

impl Answering for Faulty {
    /// Against MACHINE 9.5: lets the right machine answer, then spoils.
    fn answer(&mut self, call: &Call) -> Reply {
        if self.fault == Fault::ConstantReply {
            return (0, 0);
        }
        let mut call = *call;
        if let Some(place) = self.wrong_place(&call) {
            call.parameters[0] = place as u16;
        }
        let before = self.machine.sandboxes.get(usize::from(call.sandbox)).cloned();
        match (self.machine.answer(&call), before) {
            ((0, value), Some(before)) => self.spoil_accepted(&call, before, value),
            ((number, _), Some(before)) => {
                // Nobody else holds the sandbox then: it can be changed without a copy.
                drop(before);
                self.spoil_refused(&call, number)
            }
            (reply, None) => reply,
        }
    }
}

/// MACHINE 9.14: how many pages a rewind would put back now.
fn put_back(sandbox: &Sandbox) -> u32 {
    sandbox.copy.as_ref().map_or(0, |copy| sandbox.pages_to_put_back(copy)) as u32
}

/// Against MACHINE 9.14: how many pages a wrong rewind counts, and what it leaves of them; `before`
/// is the sandbox as it was.
fn miscount(
    fault: Fault,
    before: &Sandbox,
    image: &[[u8; PAGE_BYTES]],
    written: u64,
    pages: &mut Pages,
) -> u32 {
    let Some(copy) = &before.copy else { return 0 };
    let found = Found { pages: &before.pages, copy, image, written };
    found.leave_bytes(fault, pages);
    found.wrong_count(fault) as u32
}

/// Against MACHINE 6.2: a refusal where none applies; the sandbox stays.
fn refuse(sandbox: &mut Arc<Sandbox>, before: Arc<Sandbox>, refusal: Refusal) -> Reply {
    *sandbox = before;
    (refusal as u16, 0)
}

/// Against MACHINE 9.12: what a wrong rewind leaves.
fn spoil_rewind(fault: Fault, rewinds: usize, sandbox: &mut Sandbox, before: &Sandbox) {
    if fault == Fault::RewindsOnlyOnce && rewinds > 1 {
        *sandbox = before.clone();
    }
    for (page, was) in sandbox.pages.iter_mut().zip(&before.pages) {
        match fault {
            Fault::RewindKeepsRights if was.committed => page.rights = was.rights,
            Fault::RewindLeavesPagesDirty if was.committed => page.bytes = was.bytes,
            Fault::ZeroUnderRewoundImagePage if page.front && reads_image_in_copy(page) => {
                page.bytes = [0; PAGE_BYTES];
            }
            // So that the bytes outlast the rewind, until the number is mapped anew.
            Fault::StaleBytesInNewPage if !page.mapped => page.bytes = was.bytes,
            Fault::RewindKeepsAllFronts => page.front = was.front && page.mapped,
            Fault::RewindFreesAllFronts => page.front = false,
            Fault::RewindLeavesNewAreas if was.mapped && !page.mapped => *page = *was,
            _ => {}
        }
    }
}

/// Against MACHINE 4.15: The snapshot's bytes of the pages just mapped become those of
/// their backing.
fn drop_snapshot_frames(sandbox: &mut Sandbox, before: &Sandbox, image: &[[u8; PAGE_BYTES]]) {
    let Some(copy) = &mut sandbox.copy else { return };
    let kept_pages = Arc::make_mut(copy).iter_mut();
    for ((page, was), kept) in sandbox.pages.iter_mut().zip(&before.pages).zip(kept_pages) {
        if page.mapped && !was.mapped && kept.back {
            page.back = false;
            kept.back = false;
            kept.bytes = match kept.backing {
                Backing::Anonymous => [0; PAGE_BYTES],
                Backing::Image(image_page) => image[image_page],
            };
        }
    }
}

//! Four sandboxes, and the refusals in their order.

use crate::page::{Backing, PAGE_BYTES};
use crate::request::{Place, Request};
use crate::roll::Call;
use crate::sandbox::{Sandbox, AREAS};
use std::ops::RangeInclusive;
use std::sync::Arc;

/// MACHINE 2.1: "Four sandboxes stand in a row, numbered 0 to 3."
pub const SANDBOXES: usize = 4;
/// MACHINE 1.1: "The pool is 1 to 128 frames".
pub const FRAMES: RangeInclusive<usize> = 1..=128;
/// MACHINE 1.2: "The image, read only, is 0 to 64 pages".
pub const IMAGE_PAGES: RangeInclusive<usize> = 0..=64;

/// MACHINE 4.4: The codes of the calls.
pub const CODES: RangeInclusive<u16> = 1..=10;

/// MACHINE 6, the table: "Turned back"; the discriminant is the number answered.
#[derive(Clone, Copy, PartialEq, Eq, Debug)]
pub enum Refusal {
    Malformed = 1,
    UnknownCode = 2,
    WrongLength = 3,
    NoOpenSandbox = 4,
    AlreadyOpen = 5,
    OutsideLimits = 6,
    SnapshotTaken = 7,
    NoSnapshot = 8,
    /// "Refusal 9 remains for protect, read and write": unmap "passes over unmapped pages".
    MeetsUnmapped = 9,
    MeetsMapped = 10,
    NoGap = 11,
    NoWriteRight = 12,
    TooFewFrames = 13,
    TooManyAreas = 14,
    /// "output memory shorter than the roll": of an archive, and of no call.
    OutputTooShort = 15,
}

/// MACHINE 4.2 and 6.1: Number and value of an answer: "A refusal answers its number and
/// value 0"; an accepted call has number 0.
pub type Reply = (u16, u32);

/// MACHINE 4.2: Whatever answers calls one after the other: the plain machine, a wrong
/// one, or a program under test.
pub trait Answering {
    /// MACHINE 4.2: the number and the value.
    fn answer(&mut self, call: &Call) -> Reply;
}

/// MACHINE 9.1 and 9.2: The plain machine, "fed each call's code, sandbox and parameters,
/// with the image and the pool's number of frames".
#[derive(Clone, PartialEq, Eq, Debug)]
pub struct Machine {
    /// MACHINE 1.5: `None` where a lent length is wrong: then every call is refused 3.
    pub(crate) image: Option<Vec<[u8; PAGE_BYTES]>>,
    pub(crate) frames: usize,
    /// Shared: a call that changes a sandbox puts a new one in its place.
    pub(crate) sandboxes: [Arc<Sandbox>; SANDBOXES],
}

impl Machine {
    /// MACHINE 9.3, and 1.5 for the lengths: "Fresh, all are closed, nothing is mapped or
    /// marked, and there is no copy."
    pub fn fresh(image: &[u8], frames: usize) -> Machine {
        let sandboxes = std::array::from_fn(|_| Arc::new(Sandbox::closed()));
        Machine {
            image: whole_pages(image).filter(|_| FRAMES.contains(&frames)),
            frames,
            sandboxes,
        }
    }

    /// MACHINE 9.2: The machine that keeps these sandboxes.
    pub fn keeping(image: &[u8], frames: usize, sandboxes: [Arc<Sandbox>; SANDBOXES]) -> Machine {
        Machine { sandboxes, ..Machine::fresh(image, frames) }
    }

    /// MACHINE 4.1 and 4.2: One call: the number (0 when accepted) and the value.
    #[allow(clippy::too_many_arguments)]
    pub fn call(
        &mut self,
        code: u16,
        sandbox: u16,
        p1: u16,
        p2: u16,
        p3: u16,
        p4: u16,
        p5: u16,
    ) -> Reply {
        self.answer(&Call { code, sandbox, parameters: [p1, p2, p3, p4, p5] })
    }

    /// MACHINE 9.2: what is kept for a sandbox. A clone of it stays as it is.
    pub fn sandbox(&self, number: usize) -> &Arc<Sandbox> {
        &self.sandboxes[number]
    }

    /// MACHINE 9.1: the pool's number of frames.
    pub fn frames(&self) -> usize {
        self.frames
    }

    /// MACHINE 1.5 and 7.1: Whether every lent length is right, so that a start clears
    /// pool and table.
    pub fn lengths_are_right(&self) -> bool {
        self.image.is_some()
    }

    /// MACHINE 1.2: The image, empty where its length is wrong.
    pub fn image(&self) -> &[[u8; PAGE_BYTES]] {
        self.image.as_deref().unwrap_or(&[])
    }

    /// MACHINE 5.2: "the shares together".
    pub fn shares(&self) -> usize {
        self.sandboxes.iter().map(|sandbox| sandbox.share).sum()
    }

    /// MACHINE 6.2 and 6.4: The sandbox as the call would leave it, with the call's
    /// value; or the first refusal that applies: "When several apply, the lowest number
    /// is answered."
    fn outcome(&self, call: &Call) -> Result<(Arc<Sandbox>, u32), Refusal> {
        // 2: "call code not 1 to 9"; call 10, added since, "is no longer refusal 2".
        refuse(!CODES.contains(&call.code), Refusal::UnknownCode)?;
        // 3: "lent length wrong".
        let image = self.image.as_deref().ok_or(Refusal::WrongLength)?;
        // 4: "sandbox above 3; or, but for open, not open".
        let number = usize::from(call.sandbox);
        let before = self.sandboxes.get(number).ok_or(Refusal::NoOpenSandbox)?;
        let opens = call.code == 1;
        refuse(!opens && !before.open, Refusal::NoOpenSandbox)?;
        // 5: "open of an open sandbox".
        refuse(opens && before.open, Refusal::AlreadyOpen)?;
        // 6: the limits.
        let request = Request::within_limits(call.code, call.parameters, image.len())?;
        // 7 to 12: what the call meets.
        let mut after = Arc::clone(before);
        let value = carry_out(&mut after, request, image)?;
        // 13: "shares would exceed the pool, or the charge the share".
        let shares = self.shares() - before.share + after.share;
        refuse(shares > self.frames, Refusal::TooFewFrames)?;
        refuse(after.charge() > after.share, Refusal::TooFewFrames)?;
        // 14: "more than 8 areas would result".
        refuse(after.areas() > AREAS, Refusal::TooManyAreas)?;
        Ok((after, value))
    }
}

impl Answering for Machine {
    /// MACHINE 9.5: "It refuses by the table below [...] and then stays as it was."
    fn answer(&mut self, call: &Call) -> Reply {
        match self.outcome(call) {
            Ok((after, value)) => {
                self.sandboxes[usize::from(call.sandbox)] = after;
                (0, value)
            }
            Err(refusal) => (refusal as u16, 0),
        }
    }
}

/// MACHINE 1.5: The image's pages, if it is whole pages and not too many.
fn whole_pages(image: &[u8]) -> Option<Vec<[u8; PAGE_BYTES]>> {
    let pages = image.chunks(PAGE_BYTES).map(|page| page.try_into().ok());
    let pages: Vec<_> = pages.collect::<Option<_>>()?;
    IMAGE_PAGES.contains(&pages.len()).then_some(pages)
}

/// MACHINE 6.2: this refusal, where its condition applies.
fn refuse(applies: bool, refusal: Refusal) -> Result<(), Refusal> {
    if applies {
        Err(refusal)
    } else {
        Ok(())
    }
}

/// MACHINE 6, rows 7 to 12, and 9.6 to 9.14: what the call meets, then what the request
/// does and its value: "Value 0 where none is named." A sandbox that is to change is copied
/// first (`Arc::make_mut`), as the one before the call is still there.
fn carry_out(
    sandbox: &mut Arc<Sandbox>,
    request: Request,
    image: &[[u8; PAGE_BYTES]],
) -> Result<u32, Refusal> {
    let value = match request {
        Request::Open { share } => {
            Arc::make_mut(sandbox).open(share);
            0
        }
        Request::Map { place, count, backing, rights } => {
            // "An anonymous map at 64 takes" a run of kept frames, and no other map does.
            let takes_run = place == Place::LowestGap && backing == Backing::Anonymous;
            let first = match place {
                Place::Named(first) => {
                    let free = sandbox.none_mapped(first..first + count);
                    refuse(!free, Refusal::MeetsMapped)?;
                    first
                }
                Place::LowestGap => sandbox.lowest_gap(count).ok_or(Refusal::NoGap)?,
            };
            let sandbox = Arc::make_mut(sandbox);
            sandbox.map(first..first + count, backing, rights, image);
            if takes_run {
                sandbox.take_run(first..first + count);
            }
            first
        }
        Request::Unmap { pages } => {
            // No row 9: "a range with none mapped is accepted and changes nothing".
            Arc::make_mut(sandbox).unmap(pages);
            0
        }
        Request::Protect { pages, rights } => {
            refuse(!sandbox.all_mapped(pages.clone()), Refusal::MeetsUnmapped)?;
            Arc::make_mut(sandbox).protect(pages, rights);
            0
        }
        Request::Read { page, offset } => {
            refuse(!sandbox.pages[page].mapped, Refusal::MeetsUnmapped)?;
            usize::from(sandbox.pages[page].bytes[offset])
        }
        Request::Write { page, offset, byte } => {
            refuse(!sandbox.pages[page].mapped, Refusal::MeetsUnmapped)?;
            refuse(sandbox.pages[page].rights != 3, Refusal::NoWriteRight)?;
            Arc::make_mut(sandbox).write(page, offset, byte);
            0
        }
        Request::Snapshot => {
            refuse(sandbox.copy.is_some(), Refusal::SnapshotTaken)?;
            Arc::make_mut(sandbox).snapshot()
        }
        Request::Rewind => {
            let copy = sandbox.copy.clone().ok_or(Refusal::NoSnapshot)?;
            Arc::make_mut(sandbox).rewind(&copy)
        }
        Request::Report => sandbox.held(),
        Request::Compare => {
            let copy = sandbox.copy.as_ref().ok_or(Refusal::NoSnapshot)?;
            sandbox.lowest_difference(copy)
        }
    };
    Ok(value as u32)
}

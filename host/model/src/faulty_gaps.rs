//! Unmap of a wrong machine, and calls that pass over unmapped pages though they should not.

use crate::fault::Fault;
use crate::machine::{Refusal, Reply};
use crate::page::Page;
use crate::roll::Call;
use crate::sandbox::{Sandbox, AREAS};
use std::ops::Range;

/// The pages that an unmap or a protect within its limits names.
fn named_pages(call: &Call) -> Range<usize> {
    let [first, count, ..] = call.parameters.map(usize::from);
    first..first + count
}

/// Against MACHINE 4.8, 9.8 and row 9 of 6: the answer of a wrong unmap, with `before` the
/// sandbox as it was and `sandbox` as the right machine leaves it; or why it is refused.
pub fn wrong_unmap(
    fault: Fault,
    call: &Call,
    before: &Sandbox,
    sandbox: &mut Sandbox,
) -> Result<Reply, Refusal> {
    let named = named_pages(call);
    let were = &before.pages[named.clone()];
    let mapped = were.iter().filter(|page| page.mapped).count();
    let (none, some) = (mapped == 0, 0 < mapped && mapped < were.len());
    let unmapped_since = |at: usize| {
        let in_snapshot = before.copy.as_ref().is_some_and(|copy| copy[at].mapped);
        in_snapshot && !before.pages[at].mapped
    };
    let meets_unmapped = match fault {
        Fault::UnmapRefusedOverGap => some,
        Fault::UnmapOfNothingRefused => none,
        Fault::UnmapMustBeginMapped => some && !were[0].mapped,
        Fault::UnmapTwiceRefused => named.clone().any(unmapped_since),
        _ => false,
    };
    if meets_unmapped {
        return Err(Refusal::MeetsUnmapped);
    }
    if fault == Fault::UnmapOverGapNeedsArea && some && before.areas() + 1 > AREAS {
        return Err(Refusal::TooManyAreas);
    }
    spoil_pages(fault, &mut sandbox.pages[named], were);
    if fault == Fault::UnmapFreesBack {
        sandbox.pages.iter_mut().filter(|page| !page.mapped).for_each(|page| page.back = false);
    }
    let value = if fault == Fault::UnmapCountsPages { mapped } else { 0 };
    Ok((0, value as u32))
}

/// What a wrong unmap leaves of its pages, which were `were`.
fn spoil_pages(fault: Fault, pages: &mut [Page], were: &[Page]) {
    let first_gap = were.iter().position(|page| !page.mapped).unwrap_or(were.len());
    let last_mapped = were.iter().rposition(|page| page.mapped).unwrap_or(0);
    let gap_before = were[..last_mapped].iter().rposition(|page| !page.mapped);
    for (at, (page, was)) in pages.iter_mut().zip(were).enumerate() {
        match fault {
            Fault::UnmapStopsAtGap if at > first_gap => *page = *was,
            Fault::UnmapTakesLastRun if gap_before.is_some_and(|gap| at < gap) => *page = *was,
            Fault::UnmapLeavesFrontsBehindGap if at > first_gap => page.front = was.front,
            Fault::UnmapFreesBackInGap if !was.mapped => page.back = false,
            _ => {}
        }
    }
}

/// Against row 9 of MACHINE 6, which "remains for protect, read and write": the answer to a call
/// that the right machine refuses so.
pub fn accept_unmapped(fault: Fault, call: &Call, sandbox: &mut Sandbox) -> Reply {
    match (fault, call.code) {
        (Fault::ProtectPassesOverGaps, 4) if !sandbox.none_mapped(named_pages(call)) => {
            let mut after = sandbox.clone();
            for page in after.pages[named_pages(call)].iter_mut().filter(|page| page.mapped) {
                page.rights = call.parameters[2];
            }
            if after.areas() > AREAS {
                return (Refusal::TooManyAreas as u16, 0);
            }
            *sandbox = after;
            (0, 0)
        }
        (Fault::ProtectOfNothingAccepted, 4) if sandbox.none_mapped(named_pages(call)) => (0, 0),
        (Fault::ReadPassesOverGap, 5) | (Fault::WritePassesOverGap, 6) => (0, 0),
        _ => (Refusal::MeetsUnmapped as u16, 0),
    }
}

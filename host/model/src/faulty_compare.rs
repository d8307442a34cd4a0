//! Call 10 of a wrong machine.

use crate::fault::Fault;
use crate::page::{Page, Pages, PAGES};
use crate::sandbox::Sandbox;

/// Against MACHINE 4.20: the value of a wrong compare.
pub fn wrong_difference(fault: Fault, sandbox: &Sandbox, copy: &Pages) -> usize {
    let pages = match fault {
        Fault::CompareStartsAtPage1 => 1..PAGES,
        Fault::CompareStopsAtPage62 => 0..PAGES - 1,
        _ => 0..PAGES,
    };
    let mut differing = pages.filter(|&at| !wrongly_agree(fault, &sandbox.pages[at], &copy[at]));
    let nowhere = if fault == Fault::CompareAnswersZeroWhenClean { 0 } else { PAGES };
    let lowest = differing.next();
    match lowest {
        Some(_) if fault == Fault::CompareCountsPages => 1 + differing.count(),
        _ => lowest.unwrap_or(nowhere),
    }
}

/// Against MACHINE 4.20: whether a wrong compare takes two pages to agree.
fn wrongly_agree(fault: Fault, page: &Page, kept: &Page) -> bool {
    let both = page.mapped && kept.mapped;
    let neither = !page.mapped && !kept.mapped;
    let agree = page.agrees_with(kept);
    match fault {
        Fault::CompareLooksAtBacking if both => agree && page.backing == kept.backing,
        Fault::CompareLooksAtMark if both => agree && page.committed,
        Fault::CompareTakesFrontForDifference if both => agree && !page.front,
        Fault::CompareForgetsLastByte => {
            let mut last_alike = *page;
            last_alike.bytes[255] = kept.bytes[255];
            last_alike.agrees_with(kept)
        }
        Fault::CompareForgetsRights => Page { rights: kept.rights, ..*page }.agrees_with(kept),
        Fault::ComparePassesOverFrontless if both && !page.front => page.rights == kept.rights,
        Fault::CompareForgetsNewPages => agree || !kept.mapped,
        Fault::CompareForgetsUnmapped => agree || !page.mapped,
        Fault::CompareLooksAtUnmappedBytes if neither => page.bytes == kept.bytes,
        _ => agree,
    }
}

/// Against MACHINE 4.10: fronts are freed by a call that should change nothing.
pub fn free_agreeing_fronts(sandbox: &mut Sandbox, copy: &Pages) {
    for (page, kept) in sandbox.pages.iter_mut().zip(copy) {
        page.front &= !page.agrees_with(kept);
    }
}

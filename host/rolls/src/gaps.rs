//! Ranges that meet unmapped pages. Left to chance, an unmap would hardly ever pass over a gap
//! between areas, or over a page that was unmapped since the snapshot.

use crate::prng::Prng;
use model::{Sandbox, AREAS, PAGES};
use std::ops::Range;

/// First page and number of pages of an unmap that is to meet unmapped pages, or, with eight
/// areas, to split one of them; often `None`.
pub(crate) fn unmapped_or_inside(prng: &mut Prng, sandbox: &Sandbox) -> Option<[usize; 2]> {
    let areas = sandbox.areas();
    match prng.below(100) {
        0..15 => Some(over_gaps(prng, sandbox)),
        // Where areas are many, they are mostly left to become eight.
        15..35 if areas < 5 => Some(over_gaps(prng, sandbox)),
        15..40 if areas == AREAS => Some(over_gaps(prng, sandbox)),
        40..55 if areas == AREAS => unmapped_page(prng, sandbox).map(|page| [page, 1]),
        55..90 if areas == AREAS => inside_an_area(prng, sandbox).map(|page| [page, 1]),
        _ => None,
    }
}

/// First page and number of pages of a range that has an unmapped page in it; the whole sandbox
/// where there is none.
pub(crate) fn over_gaps(prng: &mut Prng, sandbox: &Sandbox) -> [usize; 2] {
    match unmapped_page(prng, sandbox).filter(|_| !prng.chance(2)) {
        Some(page) => around(prng, sandbox, page),
        None => [0, PAGES],
    }
}

/// The same of a range that has this unmapped page in it.
///
/// It goes over one gap or more, or begins in a gap, or ends in one, or no page of it is mapped.
/// Mostly few mapped pages are in it, so that not all is gone after an unmap.
pub(crate) fn around(prng: &mut Prng, sandbox: &Sandbox, at: usize) -> [usize; 2] {
    let runs = mapped_runs(sandbox);
    let (before, behind) = runs.split_at(runs.partition_point(|run| run.start < at));
    // The gap that the page lies in.
    let gap = before.last().map_or(0, |run| run.end)..behind.first().map_or(PAGES, |run| run.start);
    // Where two areas stand on a side of the page, often over the gap between them too.
    let first = match beside(prng, before.iter().rev()) {
        Some(run) if prng.chance(65) => near(prng, run.rev()),
        _ => prng.within(gap.start..=at),
    };
    let last = match beside(prng, behind.iter()) {
        Some(run) if prng.chance(65) => near(prng, run),
        _ => prng.within(at..=gap.end - 1),
    };
    [first, last + 1 - first]
}

/// A page inside an area: unmapped alone, it would split the area.
fn inside_an_area(prng: &mut Prng, sandbox: &Sandbox) -> Option<usize> {
    let alike = |at: usize, next: usize| {
        let (page, next) = (&sandbox.pages[at], &sandbox.pages[next]);
        let same = (page.rights, page.committed) == (next.rights, next.committed);
        page.mapped && next.mapped && same && page.backing.further(1) == next.backing
    };
    let inside = |&at: &usize| alike(at - 1, at) && alike(at, at + 1);
    let pages: Vec<usize> = (1..PAGES - 1).filter(inside).collect();
    (!pages.is_empty()).then(|| prng.pick(&pages))
}

/// The longest runs of mapped pages, in page order.
fn mapped_runs(sandbox: &Sandbox) -> Vec<Range<usize>> {
    let mapped = |at: usize| sandbox.pages[at].mapped;
    let starts = (0..PAGES).filter(|&at| mapped(at) && (at == 0 || !mapped(at - 1)));
    starts.map(|start| start..(start..PAGES).find(|&at| !mapped(at)).unwrap_or(PAGES)).collect()
}

/// An unmapped page: often one with a back, or one between two areas.
fn unmapped_page(prng: &mut Prng, sandbox: &Sandbox) -> Option<usize> {
    let runs = mapped_runs(sandbox);
    let mut pages: Vec<usize> = (0..PAGES).filter(|&at| !sandbox.pages[at].mapped).collect();
    let with_back: Vec<usize> =
        pages.iter().copied().filter(|&at| sandbox.pages[at].back).collect();
    let between: Vec<usize> = runs.windows(2).flat_map(|pair| pair[0].end..pair[1].start).collect();
    match prng.below(10) {
        0..6 if !with_back.is_empty() => pages = with_back,
        0..8 if !between.is_empty() => pages = between,
        _ => {}
    }
    (!pages.is_empty()).then(|| prng.pick(&pages))
}

/// The first or the second of these runs.
fn beside<'a>(
    prng: &mut Prng,
    mut runs: impl ExactSizeIterator<Item = &'a Range<usize>>,
) -> Option<Range<usize>> {
    let second = usize::from(runs.len() > 1 && prng.chance(50));
    runs.nth(second).cloned()
}

/// Mostly the first of these pages.
fn near(prng: &mut Prng, mut pages: impl ExactSizeIterator<Item = usize>) -> usize {
    let any = prng.below(pages.len());
    let further = prng.weighted(&[(2, 0), (1, any)]);
    pages.nth(further).expect("a run has a page")
}

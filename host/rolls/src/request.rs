//! Requests as a tally makes them: anonymous areas are mapped and written, and all is rewound,
//! again and again. Left to chance, a sandbox would hardly ever keep nine runs, fill its share
//! with kept frames, or map what a run just suffices for.

use crate::gaps::over_gaps;
use crate::prng::Prng;
use crate::steering::new_call;
use model::{Call, Machine, Page, Sandbox, AREAS, PAGES, PAGE_BYTES, RUNS};

/// What the next call of a request is for.
#[derive(Clone, Copy)]
enum Step {
    Write,
    WriteCommitted,
    Map,
    Divide,
    Unmap,
    Report,
    Rewind,
}

/// The next call of a request, `lowest_gap` percent of its maps at 64; `None` where there is no
/// snapshot to return to yet.
pub(crate) fn call_of_request(
    prng: &mut Prng,
    machine: &Machine,
    number: usize,
    lowest_gap: usize,
) -> Option<Call> {
    let sandbox = machine.sandbox(number);
    if sandbox.copy.is_none() {
        let fits = sandbox.open && 2 * sandbox.mapped_pages() + 1 < sandbox.share;
        return (fits && prng.chance(35)).then(|| new_call(7, number, [0; 5]));
    }
    let pages = |wanted: &dyn Fn(&Page) -> bool| -> Vec<usize> {
        (0..PAGES).filter(|&at| wanted(&sandbox.pages[at])).collect()
    };
    let frontless = pages(&|page| page.is_spared() && !page.front && page.rights == 3);
    let committed = pages(&|page| page.committed && !page.front && page.rights == 3);
    let written = pages(&|page| page.is_spared() && page.front);
    let full = sandbox.charge() == sandbox.share || sandbox.areas() == AREAS;
    let kept_fill = sandbox.held() == sandbox.share && sandbox.runs.frames() > 0;
    let weight = |wanted: bool, weight: usize| if wanted { weight } else { 0 };
    let step = prng.weighted(&[
        (weight(!frontless.is_empty(), 22), Step::Write),
        // Mostly where the write must give up a kept frame.
        (weight(!committed.is_empty(), if kept_fill { 12 } else { 2 }), Step::WriteCommitted),
        (weight(!full, 14), Step::Map),
        (weight(!written.is_empty(), 1), Step::Divide),
        (weight(!written.is_empty(), 2), Step::Unmap),
        (4, Step::Report),
        (if full && frontless.is_empty() { 12 } else { 2 }, Step::Rewind),
    ]);
    let write = |prng: &mut Prng, pages: &[usize]| {
        let address = prng.pick(pages) * PAGE_BYTES + prng.pick(&[0, 255]);
        new_call(6, number, [address, 1 + prng.below(255), 0, 0, 0])
    };
    Some(match step {
        Step::Write => write(prng, &frontless),
        Step::WriteCommitted => write(prng, &committed),
        Step::Map => map(prng, sandbox, number, lowest_gap),
        // Other rights make an area of its own of a page, or of those behind it.
        Step::Divide => {
            let page = prng.pick(&written);
            let rights = if sandbox.pages[page].rights == 3 { 1 } else { 3 };
            new_call(4, number, [page, 1, rights, 0, 0])
        }
        Step::Unmap => {
            let [first, pages] = match prng.chance(70) {
                true => over_gaps(prng, sandbox),
                false => [prng.pick(&written), 1],
            };
            new_call(3, number, [first, pages, 0, 0, 0])
        }
        Step::Report => new_call(9, number, [0; 5]),
        Step::Rewind => new_call(8, number, [0; 5]),
    })
}

/// An anonymous map: at 64, often for as many pages as a kept run has frames, one less, or one
/// more; or at a named page apart from other areas.
fn map(prng: &mut Prng, sandbox: &Sandbox, number: usize, lowest_gap: usize) -> Call {
    let room = (sandbox.share - sandbox.charge()).clamp(1, PAGES);
    let runs = sandbox.runs.lengths();
    // Where eight runs are kept, shorter ones too are to compete with them.
    let single = if runs.len() == RUNS { 14 } else { 3 };
    let few = prng.weighted(&[(single, 1), (5, 2), (3, 3), (1, 6)]);
    let rights = prng.weighted(&[(6, 3), (1, 1)]);
    if prng.chance(lowest_gap) {
        let near_run = match runs.is_empty() {
            true => few,
            false => prng.pick(runs) + prng.below(3) - 1,
        };
        let pages = prng.weighted(&[(3, few), (5, near_run)]).clamp(1, room);
        return new_call(2, number, [PAGES, pages, 0, 0, rights]);
    }
    let pages = few.min(room);
    let apart = |&first: &usize| {
        let around = first.saturating_sub(1)..(first + pages + 1).min(PAGES);
        first + pages <= PAGES && sandbox.none_mapped(around)
    };
    let places: Vec<usize> = (0..PAGES).filter(apart).collect();
    let first = if places.is_empty() { PAGES } else { prng.pick(&places) };
    new_call(2, number, [first, pages, 0, 0, rights])
}

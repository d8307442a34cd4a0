//! Kept runs of a wrong machine. Each function gets the sandbox as the right machine leaves it
//! and as it was `before`, and says anew what becomes of runs and fronts.

use crate::fault::Fault;
use crate::machine::{Refusal, SANDBOXES};
use crate::page::{areas_of, Backing, Page, Pages, PAGE_BYTES};
use crate::roll::Call;
use crate::runs::{Runs, RUNS};
use crate::sandbox::Sandbox;
use std::sync::Arc;

/// Spoil what an accepted call left of runs, if the fault is one of these; `value` is the
/// call's. Refused where a wrong charge is exceeded.
pub fn spoil_runs(
    fault: Fault,
    call: &Call,
    before: &Sandbox,
    sandboxes: &mut [Arc<Sandbox>; SANDBOXES],
    value: u32,
) -> Result<(), Refusal> {
    let sandbox = &mut sandboxes[usize::from(call.sandbox)];
    match call.code {
        2 if fault == Fault::KeptCharged => {
            let charged = sandbox.charge() + before.runs.frames();
            return if charged > sandbox.share { Err(Refusal::TooFewFrames) } else { Ok(()) };
        }
        2 => {
            spoil_map(fault, call, before, Arc::make_mut(sandbox), value as usize);
            if fault == Fault::MapTakesOthersRun && takes_run(call) && before.runs.frames() == 0 {
                let [_, pages, ..] = call.parameters.map(usize::from);
                let others = sandboxes.iter_mut().map(Arc::make_mut);
                let taken = others.map(|other| other.runs.take(pages));
                let taken = taken.into_iter().find(|&taken| taken > 0).unwrap_or(0);
                let sandbox = &mut sandboxes[usize::from(call.sandbox)];
                grant(Arc::make_mut(sandbox), value as usize, taken);
            }
        }
        3 if fault == Fault::UnmapKeepsFronts => {
            let freed = before.pages.iter().zip(&sandbox.pages);
            let freed = freed.filter(|(was, is)| was.is_spared() && was.front && !is.front).count();
            Arc::make_mut(sandbox).runs.keep([freed]);
        }
        6 => spoil_write(fault, call, before, &mut Arc::make_mut(sandbox).runs),
        8 => spoil_rewind(fault, before, Arc::make_mut(sandbox)),
        _ => {}
    }
    Ok(())
}

/// Whether the call is an anonymous map at 64.
fn takes_run(call: &Call) -> bool {
    call.parameters[0] == 64 && call.parameters[2] == 0
}

/// The first so many pages of a map get fronts.
fn grant(sandbox: &mut Sandbox, first: usize, taken: usize) {
    sandbox.pages[first..first + taken].iter_mut().for_each(|page| page.front = true);
}

/// A refused map at 64 that loses its run all the same.
pub fn take_though_refused(call: &Call, sandbox: &mut Sandbox) {
    if takes_run(call) {
        sandbox.runs.take(usize::from(call.parameters[1]));
    }
}

fn spoil_map(fault: Fault, call: &Call, before: &Sandbox, sandbox: &mut Sandbox, first: usize) {
    let [place, pages, backing, _, rights] = call.parameters.map(usize::from);
    let takes = match fault {
        Fault::NamedMapTakesRun => backing == 0,
        Fault::ImageMapTakesRun => place == 64,
        Fault::ReadOnlyMapTakesNone => takes_run(call) && rights == 3,
        Fault::MapTakesNone => false,
        _ => takes_run(call),
    };
    let mut runs = before.runs.clone();
    let fitting = runs.fitting(pages).filter(|_| takes);
    let sufficient = |&place: &usize| before.runs.lengths[place] >= pages;
    let oldest = (0..runs.lengths.len()).find(sufficient);
    let place = match fault {
        Fault::MapTakesLongest => runs.longest().filter(|_| takes),
        Fault::MapTakesOldest => fitting.map(|fitting| oldest.unwrap_or(fitting)),
        Fault::MapNeedsEnough => fitting.filter(sufficient),
        _ => fitting,
    };
    let length = place.map_or(0, |place| runs.lengths[place]);
    let mut taken = place.map_or(0, |place| runs.take_from(place, pages));
    match fault {
        // The run's place holds the surplus, if there is one.
        Fault::SurplusFreed if length > pages => {
            runs.take_from(place.expect("taken"), length - pages);
        }
        Fault::MapTakesSeveral => {
            while let Some(place) = runs.longest().filter(|_| takes && taken < pages) {
                taken += runs.take_from(place, pages - taken);
            }
        }
        Fault::TakenRunFreed => taken = 0,
        _ => {}
    }
    sandbox.runs = runs;
    sandbox.pages[first..first + pages].iter_mut().for_each(|page| page.front = false);
    grant(sandbox, first, taken);
    if fault == Fault::KeptFramesNotCleared {
        let left_over = before.pages.iter().filter(|page| !page.mapped).map(|page| page.bytes);
        if let Some(bytes) = left_over.into_iter().find(|bytes| *bytes != [0; PAGE_BYTES]) {
            sandbox.pages[first..first + taken].iter_mut().for_each(|page| page.bytes = bytes);
        }
    }
}

fn spoil_write(fault: Fault, call: &Call, before: &Sandbox, runs: &mut Runs) {
    let front = before.pages[usize::from(call.parameters[0]) / PAGE_BYTES].front;
    let held = before.held() + usize::from(!front);
    let above = !front && held > before.share;
    let gives_up = match fault {
        Fault::WriteGivesUpNone => false,
        Fault::GivesUpLate => !front && held > before.share + 1,
        Fault::GivesUpEarly => !front && held >= before.share,
        Fault::GivesUpForFront => held + usize::from(front) > before.share,
        _ => above,
    };
    *runs = before.runs.clone();
    let Some(longest) = runs.longest().filter(|_| gives_up) else { return };
    let places = 0..runs.lengths.len();
    let (place, frames) = match fault {
        Fault::GivesUpFromShortest => {
            (places.min_by_key(|&place| runs.lengths[place]).expect("one"), 1)
        }
        Fault::GivesUpWholeRun => (longest, runs.lengths[longest]),
        _ => (longest, 1),
    };
    runs.take_from(place, frames);
}

fn spoil_rewind(fault: Fault, before: &Sandbox, sandbox: &mut Sandbox) {
    let mut runs = before.runs.clone();
    let old = runs.lengths.len();
    let new = wrong_new_runs(fault, &before.pages);
    if fault == Fault::RewindDropsOldRuns {
        runs.lengths.clear();
    }
    runs.lengths.extend(new.into_iter().filter(|&length| length > 0));
    let over = runs.lengths.len().saturating_sub(RUNS);
    match fault {
        Fault::NinthRunKept => runs.leave_longest(RUNS + 1),
        Fault::RunsNeverCompete => runs.lengths.truncate(RUNS.max(old)),
        Fault::OldestRunGoes => drop(runs.lengths.drain(..over)),
        Fault::ShortestRunsKept => {
            for _ in 0..over {
                runs.lengths.remove(runs.longest().expect("one"));
            }
        }
        _ => runs.leave_longest(RUNS),
    }
    sandbox.runs = runs;
    for (page, was) in sandbox.pages.iter_mut().zip(&before.pages) {
        match fault {
            Fault::CommittedFrontKept if was.backing == Backing::Anonymous => page.front = false,
            // So that the bytes outlast the rewind, until a map gets a kept frame.
            Fault::KeptFramesNotCleared if !page.mapped => page.bytes = was.bytes,
            _ => {}
        }
    }
}

/// The lengths of the runs that a wrong rewind makes, in page order.
fn wrong_new_runs(fault: Fault, pages: &Pages) -> Vec<usize> {
    let mut alike = *pages;
    if fault == Fault::RightsDivideNoRun {
        alike.iter_mut().for_each(|page| page.rights = 3);
    }
    let keeps = |page: &Page| match fault {
        Fault::ImageAreaKept => page.mapped && !page.committed,
        Fault::CommittedFrontKept => page.mapped && page.backing == Backing::Anonymous,
        Fault::RewindKeepsNothing => false,
        _ => page.is_spared(),
    };
    let areas = areas_of(&alike).into_iter().map(|area| &alike[area]);
    let areas: Vec<&[Page]> = areas.filter(|area| keeps(&area[0])).collect();
    let fronts = |area: &[Page]| area.iter().filter(|page| page.front).count();
    let counted = areas.iter().map(|area| match fault {
        Fault::RunAsLongAsItsArea if fronts(area) > 0 => area.len(),
        _ => fronts(area),
    });
    match fault {
        Fault::RunForEachPage => vec![1; counted.sum()],
        Fault::RunForEachRewind => vec![counted.sum()],
        _ => counted.collect(),
    }
}

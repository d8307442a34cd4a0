//! Unmap of the proved machine, beside the random rolls: "Unmap now passes over unmapped pages,
//! and a range with none mapped is accepted and changes nothing." What is mapped is read off the
//! state's bytes, so that nothing here leans on the model.

use compare::layout::{Areas, State};
use compare::{Kept, Lengths};
use gazhuppin::Told;
use model::{parse_line, Call, AREAS, LINE_BYTES, PAGES};
use rolls::Case;
use std::ops::Range;

const ACCEPTED: Told = Told { number: 0, value: 0 };
const TOO_MANY_AREAS: u32 = 14;

/// Memory that was started, for the cases whose lengths are right.
fn started(case: &Case) -> Option<Kept> {
    let mut kept = Kept::filled(Lengths::of(case));
    (kept.start(&case.image) == ACCEPTED).then_some(kept)
}

fn areas(kept: &Kept, sandbox: u16) -> Areas {
    let state = State::of(&kept.state).expect("a state");
    state.sandboxes[usize::from(sandbox)].present
}

/// The pages of an unmap that is within its limits.
fn named_pages(call: &Call) -> Range<usize> {
    let [first, count, ..] = call.parameters.map(usize::from);
    first..first + count
}

fn unmap_of(sandbox: u16, pages: Range<usize>) -> Call {
    let parameters = [pages.start as u16, pages.len() as u16, 0, 0, 0];
    Call { code: 3, sandbox, parameters }
}

/// The longest runs of mapped pages among these, in page order.
fn mapped_runs(areas: &Areas, pages: Range<usize>) -> Vec<Range<usize>> {
    let mut runs: Vec<Range<usize>> = Vec::new();
    for page in pages.filter(|&page| areas.at(page).is_some()) {
        match runs.last_mut().filter(|run| run.end == page) {
            Some(run) => run.end += 1,
            None => runs.push(page..page + 1),
        }
    }
    runs
}

/// How often each kind of unmap was met.
#[derive(Default, Debug)]
struct Met {
    of_nothing: usize,
    of_two_runs: usize,
    of_three_runs: usize,
    over_a_gap_with_eight_areas: usize,
    refused_14: usize,
}

/// What an unmap answered and left, beside the same made of its runs one after the other.
fn check(before: &Kept, after: &Kept, image: &[u8], call: &Call, told: Told, met: &mut Met) {
    let (areas, pages) = (areas(before, call.sandbox), named_pages(call));
    let runs = mapped_runs(&areas, pages.clone());
    let mapped: usize = runs.iter().map(|run| run.len()).sum();
    if told.number == TOO_MANY_AREAS {
        assert_eq!(mapped, pages.len(), "refused 14 though a page is unmapped: {call:?}");
        assert!(after == before, "a refused unmap changed something: {call:?}");
        met.refused_14 += 1;
        return;
    }
    assert_eq!(told, ACCEPTED, "{call:?}");
    if runs.is_empty() {
        assert!(after == before, "an unmap of nothing changed something: {call:?}");
    }
    let mut apart = before.clone();
    for run in &runs {
        let part = unmap_of(call.sandbox, run.clone());
        assert_eq!(apart.call(image, &part), ACCEPTED, "{part:?}, part of {call:?}");
    }
    assert!(apart == *after, "the runs of {call:?}, unmapped apart, leave something else");
    met.of_nothing += usize::from(runs.is_empty());
    met.of_two_runs += usize::from(runs.len() == 2);
    met.of_three_runs += usize::from(runs.len() > 2);
    let eight = usize::from(areas.count) == AREAS;
    met.over_a_gap_with_eight_areas += usize::from(eight && mapped < pages.len());
}

/// Nothing changes where nothing is mapped; an unmap leaves what those of its runs of mapped
/// pages leave; and it is refused 14 only where all its pages are mapped.
#[test]
fn an_unmap_is_that_of_its_mapped_runs() {
    let mut met = Met::default();
    for case in (0..1_000).map(|seed| Case::of_lines(seed, 150)) {
        let Some(mut kept) = started(&case) else { continue };
        for call in case.roll.chunks(LINE_BYTES).filter_map(parse_line) {
            if call.code != 3 {
                kept.call(&case.image, &call);
                continue;
            }
            let before = kept.clone();
            let told = kept.call(&case.image, &call);
            if [0, TOO_MANY_AREAS].contains(&told.number) {
                check(&before, &kept, &case.image, &call, told, &mut met);
            } else {
                assert!([4, 6].contains(&told.number), "{call:?} is refused {}", told.number);
            }
        }
    }
    println!("{met:?}");
    assert!(met.of_nothing > 1_500 && met.of_two_runs > 300 && met.of_three_runs > 80, "{met:?}");
    assert!(met.over_a_gap_with_eight_areas > 80 && met.refused_14 > 60, "{met:?}");
}

/// With eight areas every range there is: refused 14 where it would split an area, and only there.
#[test]
fn with_eight_areas_only_a_hole_in_one_is_refused_14() {
    let (mut states, mut met) = (0, Met::default());
    for case in (0..400).map(|seed| Case::of_lines(seed, 120)) {
        let Some(mut kept) = started(&case) else { continue };
        for call in case.roll.chunks(LINE_BYTES).filter_map(parse_line) {
            let told = kept.call(&case.image, &call);
            if told.number != 0 || usize::from(areas(&kept, call.sandbox).count) < AREAS {
                continue;
            }
            every_range(&kept, &case.image, call.sandbox, &mut met);
            states += 1;
            break;
        }
    }
    println!("{states} states, {met:?}");
    assert!(states > 30, "only {states} states with eight areas");
    assert!(met.of_nothing > 1_000 && met.of_two_runs > 1_000 && met.of_three_runs > 1_000);
    assert!(met.refused_14 > 100 && met.over_a_gap_with_eight_areas > 10_000, "{met:?}");
}

fn every_range(before: &Kept, image: &[u8], sandbox: u16, met: &mut Met) {
    let mut kept = before.clone();
    let areas = areas(before, sandbox);
    for (first, end) in
        (0..PAGES).flat_map(|first| (first + 1..=PAGES).map(move |end| (first, end)))
    {
        let call = unmap_of(sandbox, first..end);
        let splits =
            areas.list().iter().any(|area| usize::from(area.first) < first && end < area.end());
        kept.clone_from(before);
        let told = kept.call(image, &call);
        assert_eq!(told.number == TOO_MANY_AREAS, splits, "{call:?}");
        check(before, &kept, image, &call, told, met);
    }
}

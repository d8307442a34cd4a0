//! How many random rolls unmap over gaps, in each way.

use model::{parse_line, Answering, Call, Machine, Page, Sandbox, LINE_BYTES, SANDBOXES};
use rolls::Case;
use std::collections::{BTreeMap, BTreeSet};

/// The ways in which a roll unmaps or protects pages that are not all mapped.
fn branches_of_gaps(case: &Case) -> BTreeSet<&'static str> {
    let mut machine = Machine::fresh(&case.image, case.frames);
    let mut met = BTreeSet::new();
    for call in case.roll.chunks(LINE_BYTES).filter_map(parse_line) {
        let named = usize::from(call.sandbox);
        let before = (named < SANDBOXES).then(|| machine.sandbox(named).clone());
        let (number, _) = machine.answer(&call);
        let Some(before) = before.filter(|_| [0, 9, 14].contains(&number)) else { continue };
        match (call.code, number) {
            (3, 0) => met.extend(unmapped(&before, named_pages(&before, &call))),
            (3, 14) => met.extend(["refused 14"]),
            (4, 9) => {
                let pages = named_pages(&before, &call);
                let [all_over, nothing] = [gaps_between(pages) > 0, mapped(pages) == 0];
                met.extend(all_over.then_some("protect refused 9, over a gap"));
                met.extend(nothing.then_some("protect refused 9, of nothing"));
            }
            _ => {}
        }
    }
    met
}

/// The pages of an unmap or a protect within its limits.
fn named_pages<'a>(sandbox: &'a Sandbox, call: &Call) -> &'a [Page] {
    let [first, count, ..] = call.parameters.map(usize::from);
    &sandbox.pages[first..first + count]
}

fn mapped(pages: &[Page]) -> usize {
    pages.iter().filter(|page| page.mapped).count()
}

/// How many gaps lie between mapped pages of these.
fn gaps_between(pages: &[Page]) -> usize {
    let runs = pages.chunk_by(|page, next| page.mapped == next.mapped);
    runs.filter(|run| run[0].mapped).count().saturating_sub(1)
}

/// What an accepted unmap met, with `pages` its pages as they were.
fn unmapped(before: &Sandbox, pages: &[Page]) -> BTreeSet<&'static str> {
    let mut met = BTreeSet::new();
    let mut saw = |branch: &'static str, happened: bool| met.extend(happened.then_some(branch));
    let (gaps, taken) = (gaps_between(pages), before.copy.is_some());
    let (nothing, all) = (mapped(pages) == 0, mapped(pages) == pages.len());
    let some = !nothing && !all;
    let back_passed_over = pages.iter().any(|page| !page.mapped && page.back);
    saw("over one gap", gaps == 1);
    saw("over one gap, after a snapshot", gaps == 1 && taken);
    saw("over two gaps or more, so out of three areas", gaps >= 2);
    saw("over two gaps or more, after a snapshot", gaps >= 2 && taken);
    saw("starting in a gap", some && !pages[0].mapped);
    saw("ending in a gap", some && !pages[pages.len() - 1].mapped);
    saw("of nothing", nothing);
    saw("of nothing, between areas or beside them", nothing && before.mapped_pages() > 0);
    saw("of nothing, nothing mapped at all", nothing && before.mapped_pages() == 0);
    saw("of nothing, after a snapshot", nothing && taken);
    saw("of nothing, a back passed over", nothing && back_passed_over);
    saw("over a gap, a back passed over", some && back_passed_over);
    let behind_gap = pages.iter().skip_while(|page| page.mapped);
    saw("a front freed behind a gap", behind_gap.clone().any(|page| page.front));
    saw("a committed page unmapped behind a gap", behind_gap.clone().any(|page| page.committed));
    saw("over a gap, with eight areas", some && before.areas() == 8);
    saw("of nothing, with eight areas", nothing && before.areas() == 8);
    saw("of all 64 pages", pages.len() == 64);
    met
}

/// How many rolls of 1,000 do so, at least.
#[test]
fn random_rolls_unmap_over_gaps_in_every_way() {
    let fewest = BTreeMap::from([
        ("over one gap", 240),
        ("over one gap, after a snapshot", 155),
        ("over two gaps or more, so out of three areas", 70),
        ("over two gaps or more, after a snapshot", 42),
        ("starting in a gap", 250),
        ("ending in a gap", 500),
        ("over a gap, a back passed over", 55),
        ("over a gap, with eight areas", 48),
        ("a front freed behind a gap", 225),
        ("a committed page unmapped behind a gap", 165),
        ("of all 64 pages", 52),
        ("of nothing", 560),
        ("of nothing, between areas or beside them", 400),
        ("of nothing, nothing mapped at all", 275),
        ("of nothing, after a snapshot", 415),
        ("of nothing, a back passed over", 45),
        ("of nothing, with eight areas", 18),
        ("refused 14", 27),
        ("protect refused 9, over a gap", 52),
        ("protect refused 9, of nothing", 290),
    ]);
    for case_of in [Case::random, Case::for_player] {
        let mut rolls = BTreeMap::<&str, usize>::new();
        for branch in (0..1_000).flat_map(|seed| branches_of_gaps(&case_of(seed))) {
            *rolls.entry(branch).or_default() += 1;
        }
        println!("{rolls:#?}");
        assert!(rolls.keys().eq(fewest.keys()), "{:?}", rolls.keys());
        for (branch, count) in rolls {
            assert!(count >= fewest[branch], "{branch}: {count} rolls of 1,000");
        }
    }
}

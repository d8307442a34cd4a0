//! How many random rolls rewind a committed page in each of the four cases, and write again to the
//! fronts that the rewind keeps. At every rewind each page is left as its case says.

use model::{parse_line, Answering, Backing, Machine, Page, RewindCase, Sandbox};
use model::{LINE_BYTES, PAGES, PAGE_BYTES, SANDBOXES};
use rolls::Case;
use std::collections::{BTreeMap, BTreeSet};

type Met = BTreeSet<&'static str>;

/// The case in which the last rewind of a sandbox found each of its pages.
type Found = [Option<RewindCase>; PAGES];

/// The ways in which a roll rewinds.
fn branches_of_cases(case: &Case) -> Met {
    let mut machine = Machine::fresh(&case.image, case.frames);
    let mut found: [Found; SANDBOXES] = [[None; PAGES]; SANDBOXES];
    let mut met = Met::new();
    for call in case.roll.chunks(LINE_BYTES).filter_map(parse_line) {
        let named = usize::from(call.sandbox);
        if named >= SANDBOXES {
            continue;
        }
        let before = machine.sandbox(named).clone();
        let (number, _) = machine.answer(&call);
        match (call.code, number) {
            (8, 0) => {
                found[named] = std::array::from_fn(|at| RewindCase::of(&before.pages[at]));
                rewound(&before, &found[named], &mut met);
                left(&before, machine.sandbox(named), &found[named], machine.image());
            }
            (6, 0) => {
                let at = usize::from(call.parameters[0]) / PAGE_BYTES;
                // Unmapped since, a page has lost that front.
                let still = before.pages[at].committed && before.pages[at].front;
                met.extend(found[named][at].filter(|_| still).and_then(written_again));
            }
            _ => {}
        }
    }
    met
}

/// A write to a page that still has the front which a rewind kept; in the first case it kept none.
fn written_again(case: RewindCase) -> Option<&'static str> {
    match case {
        RewindCase::Shared => None,
        RewindCase::Copied => Some("a kept front written again: copied"),
        RewindCase::Zeroed => Some("a kept front written again: zeroed"),
        RewindCase::ImagePage(_) => Some("a kept front written again: image page"),
    }
}

/// What an accepted rewind met, with `before` the sandbox as it was.
fn rewound(before: &Sandbox, found: &Found, met: &mut Met) {
    let copy = before.copy.as_ref().expect("accepted, so there is a snapshot");
    for ((page, kept), case) in before.pages.iter().zip(&copy[..]).zip(found) {
        let image = page.backing != Backing::Anonymous;
        met.extend(match case {
            Some(RewindCase::Shared) if page.back => Some("shared, with a back"),
            Some(RewindCase::Shared) => Some("shared, with neither"),
            Some(RewindCase::Copied) if image => Some("copied, an image page"),
            Some(RewindCase::Copied) => Some("copied, anonymous"),
            Some(RewindCase::Zeroed) => Some("zeroed"),
            Some(RewindCase::ImagePage(_)) => Some("image page"),
            None if page.mapped && kept.mapped => Some("in no case: mapped anew"),
            None if kept.mapped => Some("in no case: unmapped"),
            None => None,
        });
    }
    let some = |wanted: fn(&RewindCase) -> bool| found.iter().flatten().any(wanted);
    let all = some(|case| *case == RewindCase::Shared)
        && some(|case| *case == RewindCase::Copied)
        && some(|case| *case == RewindCase::Zeroed)
        && some(|case| matches!(case, RewindCase::ImagePage(_)));
    met.extend(all.then_some("all four cases at one rewind"));
}

/// What is done in each case, and that it is what "puts the whole copy in place" gives.
fn left(before: &Sandbox, after: &Sandbox, found: &Found, image: &[[u8; PAGE_BYTES]]) {
    let copy = after.copy.as_ref().expect("accepted, so there is a snapshot");
    for at in 0..PAGES {
        let (was, is, kept) = (&before.pages[at], &after.pages[at], &copy[at]);
        let Some(case) = found[at] else {
            assert!(!is.front, "a page in no case keeps no front");
            continue;
        };
        // The back that a case is found by is the snapshot's.
        assert_eq!((was.back, was.backing), (kept.back, kept.backing));
        let (front, bytes) = match case {
            RewindCase::Shared => (false, was.bytes),
            RewindCase::Copied => (true, kept.bytes),
            RewindCase::Zeroed => (true, [0; PAGE_BYTES]),
            RewindCase::ImagePage(under) => (true, image[under]),
        };
        assert!(*is == Page { front, bytes, ..*kept }, "{case:?}, page {at}");
    }
}

/// How many rolls of 1,000 do so, at least.
#[test]
fn random_rolls_rewind_in_every_case() {
    let fewest = BTreeMap::from([
        ("shared, with a back", 300),
        ("shared, with neither", 465),
        ("copied, anonymous", 210),
        ("copied, an image page", 115),
        ("zeroed", 285),
        ("image page", 155),
        ("all four cases at one rewind", 28),
        ("in no case: mapped anew", 300),
        ("in no case: unmapped", 420),
        ("a kept front written again: copied", 225),
        ("a kept front written again: zeroed", 200),
        ("a kept front written again: image page", 110),
    ]);
    for case_of in [Case::random, Case::for_player] {
        let mut rolls = BTreeMap::<&str, usize>::new();
        for branch in (0..1_000).flat_map(|seed| branches_of_cases(&case_of(seed))) {
            *rolls.entry(branch).or_default() += 1;
        }
        println!("{rolls:#?}");
        assert!(rolls.keys().eq(fewest.keys()), "{:?}", rolls.keys());
        for (branch, count) in rolls {
            assert!(count >= fewest[branch], "{branch}: {count} rolls of 1,000");
        }
    }
}

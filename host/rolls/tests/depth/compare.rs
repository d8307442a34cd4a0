//! How many random rolls exercise each branch of call 10.

use model::{parse_line, Answering, Machine, Sandbox, LINE_BYTES, PAGES, SANDBOXES};
use rolls::Case;
use std::collections::{BTreeMap, BTreeSet};

/// The branches of call 10 that a roll exercises.
fn branches_of_compare(case: &Case) -> BTreeSet<&'static str> {
    let mut machine = Machine::fresh(&case.image, case.frames);
    let mut met = BTreeSet::new();
    // The committed pages that had other bytes than the snapshot's since it, or since a rewind.
    let mut changed = [[false; PAGES]; SANDBOXES];
    for call in case.roll.chunks(LINE_BYTES).filter_map(parse_line) {
        let ((number, value), named) = (machine.answer(&call), usize::from(call.sandbox));
        match (call.code, number) {
            (10, 8) => met.extend(["refused 8"]),
            (10, 0) => {
                met.extend(answered(machine.sandbox(named), value as usize, &changed[named]))
            }
            (8, 0) => changed[named] = [false; PAGES],
            (_, 0) => note_changes(machine.sandbox(named), &mut changed[named]),
            _ => {}
        }
    }
    met
}

fn note_changes(sandbox: &Sandbox, changed: &mut [bool; PAGES]) {
    let Some(copy) = &sandbox.copy else { return };
    for ((page, kept), changed) in sandbox.pages.iter().zip(&copy[..]).zip(changed) {
        *changed = page.committed && (*changed || page.bytes != kept.bytes);
    }
}

/// What led to an accepted compare's value: the page named, and the pages before it, which agree.
fn answered(sandbox: &Sandbox, value: usize, changed: &[bool]) -> BTreeSet<&'static str> {
    let mut met = BTreeSet::new();
    let mut saw = |branch: &'static str, happened: bool| met.extend(happened.then_some(branch));
    let copy = sandbox.copy.as_ref().expect("accepted, so there is a snapshot");
    for ((page, kept), &changed) in sandbox.pages.iter().zip(&copy[..]).zip(changed).take(value) {
        let (both, anew) = (page.mapped && kept.mapped, page.mapped && !page.committed);
        let left_over = !page.mapped && page.bytes != kept.bytes;
        saw("agrees: committed, no front, passed over", page.committed && !page.front);
        saw("agrees: written back", changed);
        saw("agrees: a front that was not changed", page.committed && page.front && !changed);
        saw("agrees: mapped anew", both && anew);
        saw("agrees: mapped anew and written", both && anew && page.front);
        saw("agrees: mapped anew over another backing", both && page.backing != kept.backing);
        saw("agrees: unmapped in both, after it was written", left_over);
    }
    saw("64", value == 64);
    if value < 64 {
        let (page, kept) = (&sandbox.pages[value], &copy[value]);
        let (rights, bytes) = (page.rights != kept.rights, page.bytes != kept.bytes);
        let both = page.mapped && kept.mapped;
        saw("differs: mapped since", page.mapped && !kept.mapped);
        saw("differs: unmapped since", !page.mapped && kept.mapped);
        saw("differs: rights alone", both && rights && !bytes);
        saw("differs: rights alone, no front", both && rights && !bytes && !page.front);
        saw("differs: bytes alone", both && bytes && !rights);
        saw("differs: rights and bytes", both && bytes && rights);
        let last_alone = page.bytes[..255] == kept.bytes[..255];
        saw("differs: the last byte alone", both && bytes && !rights && last_alone);
        saw("differs: mapped anew, no front", both && bytes && !page.committed && !page.front);
        saw("differs: page 0", value == 0);
        saw("differs: page 63", value == 63);
    }
    met
}

/// How many rolls of 1,000 exercise each branch of call 10, at least.
#[test]
fn random_rolls_reach_every_branch_of_compare() {
    let fewest = BTreeMap::from([
        ("refused 8", 200),
        ("64", 500),
        ("differs: mapped since", 300),
        ("differs: unmapped since", 130),
        ("differs: rights alone", 120),
        ("differs: rights alone, no front", 100),
        ("differs: bytes alone", 250),
        ("differs: rights and bytes", 60),
        ("differs: the last byte alone", 70),
        ("differs: mapped anew, no front", 60),
        ("differs: page 0", 280),
        ("differs: page 63", 20),
        ("agrees: committed, no front, passed over", 400),
        ("agrees: written back", 100),
        ("agrees: a front that was not changed", 220),
        ("agrees: mapped anew", 90),
        ("agrees: mapped anew and written", 12),
        ("agrees: mapped anew over another backing", 15),
        ("agrees: unmapped in both, after it was written", 80),
    ]);
    for case_of in [Case::random, Case::for_player] {
        let mut rolls = BTreeMap::<&str, usize>::new();
        for branch in (0..1_000).flat_map(|seed| branches_of_compare(&case_of(seed))) {
            *rolls.entry(branch).or_default() += 1;
        }
        println!("{rolls:#?}");
        assert!(rolls.keys().eq(fewest.keys()), "{:?}", rolls.keys());
        for (branch, count) in rolls {
            assert!(count >= fewest[branch], "{branch}: {count} rolls of 1,000");
        }
    }
}

//! How many random rolls rewind pages that differ, and pages that do not, in each way.

use model::{parse_line, Answering, Backing, Call, Machine, Page, Sandbox};
use model::{LINE_BYTES, PAGES, SANDBOXES};
use rolls::Case;
use std::collections::{BTreeMap, BTreeSet};

type Met = BTreeSet<&'static str>;

/// What came since the snapshot of a sandbox, or since its last rewind.
#[derive(Clone, Copy, Default)]
struct Since {
    /// The committed pages that had other bytes than the snapshot's, one bit a page.
    changed: u64,
    /// Whether the last accepted call that names the sandbox was a rewind.
    just_rewound: bool,
    /// The value of the last rewind.
    before: u32,
}

impl Since {
    fn note(&mut self, call: &Call, value: u32, sandbox: &Sandbox) {
        let Some(copy) = &sandbox.copy else { return };
        self.just_rewound = call.code == 8;
        if self.just_rewound {
            (self.changed, self.before) = (0, value);
        }
        for at in (0..PAGES).filter(|&at| differs(&sandbox.pages[at], &copy[at])) {
            self.changed |= 1 << at;
        }
    }
}

/// Whether a rewind counts the page.
fn differs(page: &Page, kept: &Page) -> bool {
    page.committed && page.bytes != kept.bytes
}

/// The ways in which a roll rewinds.
fn branches_of_rewind(case: &Case) -> Met {
    let mut machine = Machine::fresh(&case.image, case.frames);
    let mut since = [Since::default(); SANDBOXES];
    let mut met = Met::new();
    for call in case.roll.chunks(LINE_BYTES).filter_map(parse_line) {
        let named = usize::from(call.sandbox);
        if named >= SANDBOXES {
            continue;
        }
        let before = machine.sandbox(named).clone();
        let (number, value) = machine.answer(&call);
        match (call.code, number) {
            (8, 0) => {
                rewound(&before, &since[named], value, &mut met);
                let others = (0..SANDBOXES).filter(|&number| number != named);
                let disturbed = |number: usize| put_back(machine.sandbox(number)) > 0;
                if others.into_iter().any(disturbed) {
                    met.insert("a page of another sandbox differs, and is not counted");
                }
            }
            (8, 6) if put_back(&before) > 0 => {
                met.insert("refused 6, though a page differs");
            }
            _ => {}
        }
        if number == 0 {
            since[named].note(&call, value, machine.sandbox(named));
        }
    }
    met
}

fn put_back(sandbox: &Sandbox) -> usize {
    sandbox.copy.as_ref().map_or(0, |copy| sandbox.pages_to_put_back(copy))
}

/// What an accepted rewind met, with `before` the sandbox as it was.
fn rewound(before: &Sandbox, since: &Since, value: u32, met: &mut Met) {
    let mut saw = |branch: &'static str, happened: bool| met.extend(happened.then_some(branch));
    let copy = before.copy.as_ref().expect("accepted, so there is a snapshot");
    saw("0", value == 0);
    saw("1", value == 1);
    saw("2", value == 2);
    saw("3 or more", value >= 3);
    saw("5 or more", value >= 5);
    saw("right behind a rewind that put pages back", since.just_rewound && since.before > 0);
    saw("another value than that of the rewind before", value != since.before && value > 0);
    let fronts = before.pages.iter().filter(|page| page.committed && page.front).count();
    saw("fewer than the fronts that are kept", (value as usize) < fronts);
    saw("fewer than the fronts that are kept, but not 0", 0 < value && (value as usize) < fronts);
    for (at, (page, kept)) in before.pages.iter().zip(&copy[..]).enumerate() {
        let (counted, other_bytes) = (differs(page, kept), page.bytes != kept.bytes);
        let image = kept.backing != Backing::Anonymous;
        let written_back = page.committed && !counted && since.changed >> at & 1 == 1;
        saw("counted: a page with a back", counted && kept.back);
        saw("counted: an anonymous page without a back", counted && !kept.back && !image);
        saw("counted: an image page without a back", counted && !kept.back && image);
        saw("counted: an image page with a back", counted && kept.back && image);
        saw("counted: page 0", counted && at == 0);
        saw("counted: page 63", counted && at == 63);
        saw("counted: rights 1 by now", counted && page.rights == 1 && kept.rights == 3);
        saw("counted: all zero by now, but not in the snapshot", counted && page.bytes == [0; 256]);
        saw("written back: a page with a back", written_back && kept.back);
        saw("written back: an anonymous page without a back", written_back && !kept.back && !image);
        saw("written back: an image page without a back", written_back && !kept.back && image);
        saw("written back: an image page with a back", written_back && kept.back && image);
        let anew = page.mapped && !page.committed && kept.mapped;
        saw("not counted: mapped anew with other bytes", anew && other_bytes);
        saw("not counted: mapped anew with the same bytes", anew && !other_bytes);
        saw("not counted: mapped anew, with a back", anew && other_bytes && kept.back);
        saw("not counted: mapped anew, an image page", anew && other_bytes && image);
        saw("not counted: unmapped", !page.mapped && kept.mapped);
        saw("not counted: unmapped after it was changed", {
            !page.mapped && kept.mapped && since.changed >> at & 1 == 1
        });
        saw("not counted: written where the snapshot has no page", page.front && !kept.mapped);
        let rights = page.committed && page.rights != kept.rights;
        saw("not counted: rights alone", rights && !other_bytes);
        saw("not counted: a front that was not changed", {
            page.committed && page.front && !counted && !written_back
        });
        if counted {
            let alone = only_difference(page, kept);
            saw("differs in several bytes", alone.is_none());
            saw("differs in the first byte alone", alone == Some(0));
            saw("differs in the last byte alone", alone == Some(255));
            saw("differs in another byte alone", alone.is_some_and(|at| at != 0 && at != 255));
        }
    }
}

/// The only place at which two pages differ, if there is one alone.
fn only_difference(page: &Page, kept: &Page) -> Option<usize> {
    let mut places = (0..page.bytes.len()).filter(|&at| page.bytes[at] != kept.bytes[at]);
    places.next().filter(|_| places.next().is_none())
}

/// How many rolls of 1,000 do so, at least.
#[test]
fn random_rolls_put_pages_back_in_every_way() {
    let fewest = BTreeMap::from([
        ("0", 765),
        ("1", 445),
        ("2", 215),
        ("3 or more", 115),
        ("5 or more", 29),
        ("right behind a rewind that put pages back", 110),
        ("another value than that of the rewind before", 500),
        ("fewer than the fronts that are kept", 375),
        ("fewer than the fronts that are kept, but not 0", 240),
        ("counted: a page with a back", 290),
        ("counted: all zero by now, but not in the snapshot", 35),
        ("counted: an anonymous page without a back", 285),
        ("counted: an image page with a back", 115),
        ("counted: an image page without a back", 160),
        ("counted: page 0", 155),
        ("counted: page 63", 52),
        ("counted: rights 1 by now", 150),
        ("differs in another byte alone", 365),
        ("differs in several bytes", 295),
        ("differs in the first byte alone", 255),
        ("differs in the last byte alone", 270),
        ("written back: a page with a back", 115),
        ("written back: an anonymous page without a back", 105),
        ("written back: an image page with a back", 48),
        ("written back: an image page without a back", 60),
        ("not counted: a front that was not changed", 330),
        ("not counted: mapped anew with other bytes", 225),
        ("not counted: mapped anew with the same bytes", 195),
        ("not counted: mapped anew, an image page", 85),
        ("not counted: mapped anew, with a back", 130),
        ("not counted: rights alone", 255),
        ("not counted: unmapped", 430),
        ("not counted: unmapped after it was changed", 240),
        ("not counted: written where the snapshot has no page", 535),
        ("a page of another sandbox differs, and is not counted", 185),
        ("refused 6, though a page differs", 75),
    ]);
    for case_of in [Case::random, Case::for_player] {
        let mut rolls = BTreeMap::<&str, usize>::new();
        for branch in (0..1_000).flat_map(|seed| branches_of_rewind(&case_of(seed))) {
            *rolls.entry(branch).or_default() += 1;
        }
        println!("{rolls:#?}");
        assert!(rolls.keys().eq(fewest.keys()), "{:?}", rolls.keys());
        for (branch, count) in rolls {
            assert!(count >= fewest[branch], "{branch}: {count} rolls of 1,000");
        }
    }
}

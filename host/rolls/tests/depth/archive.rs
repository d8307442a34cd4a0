//! How many archives of random rolls exercise each kind of line, area and refusal.

use model::{areas_of, parse_line, Answering, Backing, Call, Machine, Pages, Refusal};
use model::{LINE_BYTES, PAGE_BYTES, SANDBOXES};
use rolls::Case;
use std::collections::{BTreeMap, BTreeSet};

type Met = BTreeSet<&'static str>;

const ARCHIVES: usize = 1_000;

/// The addresses written before the snapshot, for each sandbox.
type Written = [BTreeSet<usize>; SANDBOXES];

fn played(case: &Case) -> (Machine, Written) {
    let mut machine = Machine::fresh(&case.image, case.frames);
    let mut written = Written::default();
    for call in case.roll.chunks(LINE_BYTES).filter_map(parse_line) {
        let (number, _) = machine.answer(&call);
        let sandbox = usize::from(call.sandbox);
        if number != 0 || sandbox >= SANDBOXES || machine.sandbox(sandbox).copy.is_some() {
            continue;
        }
        let Call { code, parameters: [p1, p2, ..], .. } = call;
        match code {
            6 => _ = written[sandbox].insert(usize::from(p1)),
            3 => {
                let pages = usize::from(p1)..usize::from(p1 + p2);
                written[sandbox].retain(|address| !pages.contains(&(address / PAGE_BYTES)));
            }
            _ => {}
        }
    }
    (machine, written)
}

/// What an archive exercises; `written` has the addresses that were written before the snapshot.
fn exercised(machine: &Machine, number: usize, written: &BTreeSet<usize>) -> Met {
    let mut met = Met::new();
    let mut saw = |what: &'static str, happened: bool| met.extend(happened.then_some(what));
    let sandbox = machine.sandbox(number);
    let copy = sandbox.copy.as_ref().expect("a snapshot");
    let archive = machine.archived(number as u16).expect("a snapshot");
    let areas = areas_of(copy);
    let on_image = |at: usize| copy[at].backing != Backing::Anonymous;
    saw("an empty snapshot", areas.is_empty());
    saw("several areas", areas.len() > 1);
    saw("eight areas", areas.len() == 8);
    saw("page 63", copy[63].mapped);
    for area in &areas {
        saw("an area of several pages", area.len() > 1);
        saw("an anonymous area", !on_image(area.start));
        saw("an image area", on_image(area.start));
        saw("image pages running on", on_image(area.start) && area.len() > 1);
        saw("an area with rights 1", copy[area.start].rights == 1);
        saw("an area with rights 3", copy[area.start].rights == 3);
    }
    for pair in areas.windows(2).filter(|pair| pair[0].end == pair[1].start) {
        let [one, two] = [&copy[pair[0].end - 1], &copy[pair[1].start]];
        let runs_on = one.backing.further(1) == two.backing;
        saw("neighbours divided by rights alone", runs_on);
        saw("neighbours with rights 1 divided by backing", one.rights == 1 && two.rights == 1);
        saw("image pages side by side that do not run on", !runs_on && on_image(pair[1].start));
    }
    let writes = archive.writes.iter().map(|call| call.parameters.map(usize::from));
    for [address, byte, ..] in writes {
        let page = address / PAGE_BYTES;
        saw("a write", true);
        saw("a write to an image page", on_image(page));
        saw("a zero over an image byte", byte == 0);
        saw("a write to a page's last byte", address % PAGE_BYTES == PAGE_BYTES - 1);
        saw("a write to a page with rights 1", copy[page].rights == 1);
    }
    for &address in written {
        let page = address / PAGE_BYTES;
        let line = archive.writes.iter().any(|call| usize::from(call.parameters[0]) == address);
        saw("a byte written back to its zero before the snapshot", !line && !on_image(page));
        saw("a byte written back to its image byte before the snapshot", !line && on_image(page));
    }
    saw("several protects", archive.protects.len() > 1);
    saw("the present pages differ", sandbox.lowest_difference(copy) < 64);
    saw("a sandbox other than 0", number != 0);
    saw("a share just twice the pages", sandbox.share == 2 * mapped(copy));
    saw("ten lines or more", archive.calls().len() >= 10);
    met
}

fn mapped(pages: &Pages) -> usize {
    pages.iter().filter(|page| page.mapped).count()
}

/// Of rolls of one kind: how many archives of 1,000 exercise each, and how often each refusal but
/// 15 is met beside them.
fn measured(case_of: fn(u64) -> Case) -> BTreeMap<&'static str, usize> {
    let mut counts = BTreeMap::new();
    let mut archives = 0;
    for seed in 0.. {
        let (machine, written) = played(&case_of(seed));
        for number in 0..=SANDBOXES {
            let met = match (machine.archived(number as u16), written.get(number)) {
                (Ok(_), _) if archives == ARCHIVES => return counts,
                (Ok(_), Some(written)) => {
                    archives += 1;
                    exercised(&machine, number, written)
                }
                (Err(Refusal::WrongLength), _) => Met::from(["refused 3"]),
                (Err(Refusal::NoOpenSandbox), Some(_)) => Met::from(["refused 4"]),
                (Err(Refusal::NoSnapshot), _) => Met::from(["refused 8"]),
                // There is no sandbox 4, in any roll.
                _ => Met::new(),
            };
            met.into_iter().for_each(|what| *counts.entry(what).or_default() += 1);
        }
    }
    counts
}

/// How many archives of 1,000 do so, at least.
#[test]
fn archives_of_random_rolls_exercise_every_kind_of_snapshot() {
    let fewest = BTreeMap::from([
        ("refused 3", 60),
        ("refused 4", 800),
        ("refused 8", 300),
        ("an empty snapshot", 280),
        ("several areas", 330),
        ("eight areas", 40),
        ("page 63", 80),
        ("an area of several pages", 340),
        ("an anonymous area", 490),
        ("an image area", 290),
        ("image pages running on", 130),
        ("image pages side by side that do not run on", 105),
        ("an area with rights 1", 325),
        ("an area with rights 3", 560),
        ("neighbours divided by rights alone", 160),
        ("neighbours with rights 1 divided by backing", 25),
        ("a write", 380),
        ("a write to an image page", 140),
        ("a zero over an image byte", 17),
        ("a write to a page's last byte", 175),
        ("a write to a page with rights 1", 75),
        ("a byte written back to its zero before the snapshot", 50),
        ("a byte written back to its image byte before the snapshot", 30),
        ("several protects", 120),
        ("the present pages differ", 700),
        ("a sandbox other than 0", 450),
        ("a share just twice the pages", 50),
        ("ten lines or more", 130),
    ]);
    for case_of in [Case::random, Case::for_player, |seed| Case::of_lines(seed, 200)] {
        let counts = measured(case_of);
        println!("{counts:#?}");
        assert!(counts.keys().eq(fewest.keys()), "{:?}", counts.keys());
        for (what, count) in counts {
            assert!(count >= fewest[what], "{what}: {count} archives of 1,000");
        }
    }
}

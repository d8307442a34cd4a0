//! The other demands on lists, and what makes a state sound, after every call of
//! random rolls.

use model::{
    count_areas, parse_line, Answering, Call, Fault, Faulty, Machine, Page, Sandbox, LINE_BYTES,
    RUNS,
};
use rolls::Case;

const ROLLS: u64 = 600;

fn count(pages: &[Page], wanted: impl Fn(&Page) -> bool) -> usize {
    pages.iter().filter(|page| wanted(page)).count()
}

fn check(sandbox: &Sandbox) {
    let pages = &sandbox.pages;
    assert!(sandbox.areas() <= 8);
    assert!(sandbox.charge() <= sandbox.share);
    // "mapped pages and backs together are at most its share"
    assert!(count(pages, |page| page.mapped) + count(pages, |page| page.back) <= sandbox.share);
    // "fronts stand on mapped pages only"
    assert_eq!(count(pages, |page| page.front && !page.mapped), 0);
    assert_eq!(count(pages, |page| page.committed && !page.mapped), 0);
    assert_eq!(count(pages, |page| page.mapped && page.rights != 1 && page.rights != 3), 0);
    // "At most 8 runs are kept"; kept frames "with fronts and backs stay within the share"
    assert!(sandbox.runs.lengths().len() <= RUNS && !sandbox.runs.lengths().contains(&0));
    assert!(sandbox.held() <= sandbox.share);
    // "a closed one has nothing"
    assert!(sandbox.open || *sandbox == Sandbox::closed());
    match &sandbox.copy {
        // "a sandbox without a snapshot has no committed page"
        None => assert_eq!(count(pages, |page| page.committed || page.back), 0),
        Some(copy) => {
            assert!(count_areas(copy) <= 8);
            assert_eq!(count(&copy[..], |kept| kept.front || kept.committed != kept.mapped), 0);
            for (page, kept) in pages.iter().zip(&copy[..]) {
                // "committed pages are snapshot pages and agree with them in backing"
                assert!(!page.committed || (kept.mapped && page.backing == kept.backing));
                // "backs on snapshot pages only"; they are those of the snapshot.
                assert_eq!(page.back, kept.back);
                assert!(!kept.back || kept.mapped);
                // A committed page without a front reads as in the snapshot.
                assert!(!page.committed || page.front || page.bytes == kept.bytes);
            }
        }
    }
}

/// "a next write within its limits, to any mapped page with rights 3, is accepted and
/// leaves the page with a front".
fn check_next_writes(machine: &Machine, number: usize) {
    for at in 0..64 {
        let page = &machine.sandbox(number).pages[at];
        if page.mapped && page.rights == 3 {
            let mut next = machine.clone();
            assert_eq!(next.call(6, number as u16, at as u16 * 256 + 255, 7, 0, 0, 0), (0, 0));
            assert!(next.sandbox(number).pages[at].front);
        }
    }
}

/// "mappings and rights of the snapshot return", with its bytes; "In a rewound
/// sandbox each front and back is that of a snapshot page".
fn check_rewound(before: &Sandbox, after: &Sandbox, value: u32) {
    let copy = after.copy.as_ref().expect("a snapshot");
    // "Copying a page back now also says whether any byte differed": a front alone is copied to.
    let copied = before.pages.iter().zip(&after.pages).filter(|(_, page)| page.front);
    assert_eq!(copied.filter(|(was, page)| was.bytes != page.bytes).count(), value as usize);
    for ((page, was), kept) in after.pages.iter().zip(&before.pages).zip(&copy[..]) {
        assert_eq!(Page { front: false, ..*page }, *kept);
        assert_eq!(page.front, was.front && was.committed);
        assert!(!page.front || kept.mapped);
    }
    // "the frames of each uncommitted anonymous area": none is lost but where runs compete.
    let kept = before.runs.frames() + before.fronts_to_keep().iter().sum::<usize>();
    let runs = before.runs.lengths().len() + before.fronts_to_keep().len();
    assert!(after.runs.frames() == kept || after.runs.frames() < kept && runs > RUNS);
}

/// A machine that keeps nothing answers the same, but for call 9: "Places, bytes and refusals are
/// those of a machine that keeps nothing."
#[test]
fn a_machine_that_keeps_nothing_answers_the_same_but_for_call_9() {
    let (mut compared, mut reports) = (0, 0);
    for seed in 0..ROLLS {
        let case = Case::random(seed);
        let mut keeping = Machine::fresh(&case.image, case.frames);
        let mut other = Faulty::fresh(&case.image, case.frames, Fault::RewindKeepsNothing);
        for call in case.roll.chunks(LINE_BYTES).filter_map(parse_line) {
            let (reply, without) = (keeping.answer(&call), other.answer(&call));
            if call.code == 9 {
                reports += usize::from(reply != without);
            } else {
                assert_eq!(reply, without, "seed {seed}: {call:?}");
                compared += 1;
            }
        }
    }
    assert!(compared > 10_000 && reports > 300, "{compared} calls, {reports} reports differ");
}

#[test]
fn every_state_is_sound_and_every_refusal_changes_nothing() {
    let mut refused = 0;
    for seed in 0..ROLLS {
        let case = Case::random(seed);
        let mut machine = Machine::fresh(&case.image, case.frames);
        for call in case.roll.chunks(LINE_BYTES).filter_map(parse_line) {
            let before = machine.clone();
            let (number, value) = machine.answer(&call);
            if number != 0 {
                assert!(value == 0 && machine == before, "seed {seed}: {call:?}");
                refused += 1;
                continue;
            }
            let named = usize::from(call.sandbox);
            for other in (0..4).filter(|&other| other != named) {
                assert!(machine.sandbox(other) == before.sandbox(other), "seed {seed}: {call:?}");
            }
            check_accepted(&call, before.sandbox(named), machine.sandbox(named), value);
            assert!(machine.shares() <= case.frames);
        }
        for number in 0..4 {
            check_next_writes(&machine, number);
        }
    }
    assert!(refused > 1_000, "{refused}");
}

/// "Unmap takes away mapping, mark and front mark", and "passes over unmapped pages".
fn check_unmapped(call: &Call, before: &Sandbox, after: &Sandbox) {
    let [first, pages, ..] = call.parameters.map(usize::from);
    let mut expected = before.clone();
    for page in expected.pages[first..first + pages].iter_mut().filter(|page| page.mapped) {
        *page = Page { mapped: false, committed: false, front: false, ..*page };
    }
    assert!(*after == expected, "{call:?}");
}

fn check_accepted(call: &Call, before: &Sandbox, after: &Sandbox, value: u32) {
    check(after);
    match call.code {
        3 => check_unmapped(call, before, after),
        5 | 9 | 10 => assert!(after == before, "a read, a report or a compare changed something"),
        8 => check_rewound(before, after, value),
        _ => {}
    }
}

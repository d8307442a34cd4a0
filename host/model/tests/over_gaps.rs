//! "Unmapping over gaps", by hand: "Unmap now passes over unmapped pages, and a range with none
//! mapped is accepted and changes nothing. Refusal 9 remains for protect, read and write."

use crate::common::{accept, after, call, image, refusal, short, value};
use model::{Machine, Page, Sandbox};

/// Three areas with two gaps between them: pages 2 and 3, page 6, pages 9 to 11.
const THREE_AREAS: [&str; 4] = ["1 0 32", "2 0 2 2 0 0 3", "2 0 6 1 0 0 1", "2 0 9 3 0 0 3"];

/// Eight areas of three pages, and a gap of one page behind each: pages 0 to 2, 4 to 6, .. 28 to
/// 30.
fn eight_areas() -> Machine {
    let mut machine = after(&["1 0 128"]);
    for first in (0..32).step_by(4) {
        accept(&mut machine, &[&format!("2 0 {first} 3 0 0 3")]);
    }
    assert_eq!(machine.sandbox(0).areas(), 8);
    machine
}

/// An accepted unmap, whose value is 0: its mapped pages lose mapping, mark and front mark, and
/// everything else stays. Gives the pages that it unmapped.
#[track_caller]
fn unmapped(machine: &mut Machine, text: &str) -> Vec<usize> {
    let [first, pages, ..] = short(text).parameters.map(usize::from);
    let before = machine.clone();
    assert_eq!(call(machine, text), (0, 0), "{text}");
    let mut expected = Sandbox::clone(before.sandbox(0));
    let mut gone = Vec::new();
    for at in first..first + pages {
        let page = expected.pages[at];
        if page.mapped {
            expected.pages[at] = Page { mapped: false, committed: false, front: false, ..page };
            gone.push(at);
        }
    }
    assert!(**machine.sandbox(0) == expected, "sandbox 0 after {text}");
    for other in 1..4 {
        assert!(machine.sandbox(other) == before.sandbox(other), "sandbox {other} after {text}");
    }
    gone
}

/// "a range with none mapped is accepted and changes nothing"
#[track_caller]
fn changes_nothing(machine: &mut Machine, text: &str) {
    let before = machine.clone();
    assert_eq!(call(machine, text), (0, 0), "{text}");
    assert!(*machine == before, "{text} changed the machine");
}

#[test]
fn over_one_gap() {
    // Pages 4 and 5 are the gap.
    assert_eq!(unmapped(&mut after(&THREE_AREAS), "3 0 3 4"), [3, 6]);
    assert_eq!(unmapped(&mut after(&THREE_AREAS), "3 0 2 5"), [2, 3, 6]);
}

#[test]
fn over_three_areas_and_two_gaps() {
    let mut machine = after(&THREE_AREAS);
    assert_eq!(unmapped(&mut machine, "3 0 2 10"), [2, 3, 6, 9, 10, 11]);
    assert_eq!(machine.sandbox(0).mapped_pages(), 0);
    // From within the first to within the third: what is left of them stays mapped.
    let mut machine = after(&THREE_AREAS);
    assert_eq!(unmapped(&mut machine, "3 0 3 8"), [3, 6, 9, 10]);
    assert_eq!(machine.sandbox(0).areas(), 2);
    assert_eq!(value(&mut machine, "5 0 512"), 0);
    assert_eq!(refusal(&mut machine, "5 0 768"), 9);
    assert_eq!(refusal(&mut machine, "5 0 1536"), 9);
    assert_eq!(refusal(&mut machine, "5 0 2560"), 9);
    assert_eq!(value(&mut machine, "5 0 2816"), 0);
}

#[test]
fn starting_or_ending_in_a_gap() {
    assert_eq!(unmapped(&mut after(&THREE_AREAS), "3 0 0 3"), [2], "starting in one");
    assert_eq!(unmapped(&mut after(&THREE_AREAS), "3 0 11 10"), [11], "ending in one");
    assert_eq!(unmapped(&mut after(&THREE_AREAS), "3 0 4 4"), [6], "both");
    assert_eq!(unmapped(&mut after(&THREE_AREAS), "3 0 0 64"), [2, 3, 6, 9, 10, 11], "all pages");
}

#[test]
fn none_mapped() {
    // Nothing is mapped at all, in the whole sandbox.
    let mut machine = after(&["1 0 8"]);
    for text in ["3 0 0 1", "3 0 63 1", "3 0 5 20", "3 0 0 64"] {
        changes_nothing(&mut machine, text);
    }
    // Before, between and behind areas.
    let mut machine = after(&THREE_AREAS);
    for text in ["3 0 0 2", "3 0 4 2", "3 0 5 1", "3 0 7 2", "3 0 12 52", "3 0 63 1"] {
        changes_nothing(&mut machine, text);
    }
    // After a snapshot of no pages, and after one of some.
    let mut machine = after(&["1 0 8", "7 0"]);
    changes_nothing(&mut machine, "3 0 0 64");
    let mut machine = after(&THREE_AREAS);
    accept(&mut machine, &["6 0 513 7", "7 0", "6 0 514 8"]);
    for text in ["3 0 0 2", "3 0 4 2", "3 0 7 2", "3 0 12 52"] {
        changes_nothing(&mut machine, text);
    }
}

#[test]
fn pages_that_were_mapped_before_are_passed_over_too() {
    // Written and unmapped, or written and rewound: the page's bytes and rights are still kept.
    let mut machine = after(&["1 0 8", "2 0 3 1 0 0 1", "4 0 3 1 3", "6 0 768 9", "3 0 3 1"]);
    changes_nothing(&mut machine, "3 0 3 1");
    accept(&mut machine, &["7 0", "2 0 5 2 0 0 3", "6 0 1280 9", "8 0"]);
    changes_nothing(&mut machine, "3 0 0 64");
    // Mapped anew, the page reads zero as ever.
    accept(&mut machine, &["2 0 3 1 0 0 3"]);
    assert_eq!(value(&mut machine, "5 0 768"), 0);
}

#[test]
fn a_committed_page_unmapped_twice() {
    let mut machine = after(&["1 0 8", "2 0 4 2 0 0 3", "6 0 1024 7", "7 0", "6 0 1025 8"]);
    assert_eq!(value(&mut machine, "9 0"), 2, "the back and the front of page 4");
    assert_eq!(unmapped(&mut machine, "3 0 4 1"), [4]);
    assert_eq!(value(&mut machine, "9 0"), 1, "the back");
    changes_nothing(&mut machine, "3 0 4 1");
    assert_eq!(value(&mut machine, "9 0"), 1, "the back");
    assert!(machine.sandbox(0).pages[4].back);
}

#[test]
fn a_page_unmapped_since_the_snapshot_keeps_its_back_and_returns() {
    let mut machine = after(&["1 0 16", "2 0 4 3 0 0 3", "6 0 1024 7", "6 0 1280 8", "7 0"]);
    // The gap over which the second unmap passes is a snapshot page with a back.
    assert_eq!(unmapped(&mut machine, "3 0 5 1"), [5]);
    assert_eq!(unmapped(&mut machine, "3 0 4 3"), [4, 6]);
    changes_nothing(&mut machine, "3 0 0 64");
    assert_eq!(value(&mut machine, "9 0"), 2, "the backs of pages 4 and 5");
    accept(&mut machine, &["8 0"]);
    assert_eq!(value(&mut machine, "5 0 1024"), 7);
    assert_eq!(value(&mut machine, "5 0 1280"), 8);
    assert_eq!(value(&mut machine, "5 0 1536"), 0);
    assert_eq!(value(&mut machine, "10 0"), 64);
}

#[test]
fn fronts_of_its_mapped_pages_are_freed_and_no_others() {
    let mut machine = after(&THREE_AREAS);
    accept(&mut machine, &["6 0 512 1", "6 0 768 2", "6 0 2304 3", "6 0 2816 4"]);
    assert_eq!(value(&mut machine, "9 0"), 4, "pages 2, 3, 9 and 11");
    assert_eq!(unmapped(&mut machine, "3 0 3 7"), [3, 6, 9]);
    assert_eq!(value(&mut machine, "9 0"), 2, "pages 2 and 11");
    assert_eq!(value(&mut machine, "5 0 512"), 1);
    assert_eq!(value(&mut machine, "5 0 2816"), 4);
    // After the snapshot backs are kept: those of pages 2 and 11.
    accept(&mut machine, &["7 0", "6 0 2816 5", "2 0 6 1 0 0 3", "6 0 1536 6"]);
    assert_eq!(value(&mut machine, "9 0"), 4, "two backs, fronts of pages 6 and 11");
    assert_eq!(unmapped(&mut machine, "3 0 0 64"), [2, 6, 10, 11]);
    assert_eq!(value(&mut machine, "9 0"), 2, "two backs");
    changes_nothing(&mut machine, "3 0 0 64");
    assert_eq!(value(&mut machine, "9 0"), 2, "two backs");
    accept(&mut machine, &["8 0"]);
    assert_eq!(value(&mut machine, "5 0 2816"), 4);
}

#[test]
fn image_pages_return_from_under_a_gap() {
    let mut machine = Machine::fresh(&image(4), 128);
    accept(&mut machine, &["1 0 16", "2 0 0 2 1 1 3", "2 0 5 1 1 3 1", "6 0 0 99", "7 0"]);
    assert_eq!(unmapped(&mut machine, "3 0 1 8"), [1, 5]);
    assert_eq!(unmapped(&mut machine, "3 0 0 64"), [0]);
    accept(&mut machine, &["8 0"]);
    assert_eq!(value(&mut machine, "5 0 0"), 99);
    assert_eq!(value(&mut machine, "5 0 256"), 3);
    assert_eq!(value(&mut machine, "5 0 1280"), 4);
    assert_eq!(refusal(&mut machine, "6 0 1280 1"), 12, "its rights are the snapshot's");
}

#[test]
fn only_mapped_pages_give_back_their_charge() {
    // Before a snapshot the charge is the mapped pages.
    let mut machine = after(&["1 0 6", "2 0 0 2 0 0 3", "2 0 4 4 0 0 3"]);
    assert_eq!(refusal(&mut machine, "2 0 64 1 0 0 3"), 13);
    assert_eq!(unmapped(&mut machine, "3 0 1 4"), [1, 4]);
    assert_eq!(refusal(&mut machine, "2 0 64 3 0 0 3"), 13);
    assert_eq!(value(&mut machine, "2 0 64 2 0 0 3"), 1);
    // Afterwards a committed page gives nothing back: the snapshot's pages are charged twice.
    let mut machine = after(&["1 0 6", "2 0 0 1 0 0 3", "2 0 4 1 0 0 3", "7 0"]);
    accept(&mut machine, &["2 0 8 2 0 0 3"]);
    assert_eq!(unmapped(&mut machine, "3 0 0 9"), [0, 4, 8]);
    assert_eq!(refusal(&mut machine, "2 0 64 2 0 0 3"), 13);
    accept(&mut machine, &["2 0 64 1 0 0 3"]);
}

#[test]
fn a_hole_in_one_of_eight_areas_is_refused_14() {
    let mut machine = eight_areas();
    for first in (0..32).step_by(4) {
        assert_eq!(refusal(&mut machine, &format!("3 0 {} 1", first + 1)), 14);
    }
}

#[test]
fn over_eight_areas_a_range_with_a_gap_in_it_is_accepted() {
    // From one area into the next: both are cut, and eight are left.
    let mut machine = eight_areas();
    assert_eq!(unmapped(&mut machine, "3 0 2 3"), [2, 4]);
    assert_eq!(machine.sandbox(0).areas(), 8);
    assert_eq!(unmapped(&mut eight_areas(), "3 0 3 2"), [4], "starting in a gap");
    assert_eq!(unmapped(&mut eight_areas(), "3 0 2 2"), [2], "ending in a gap");
    changes_nothing(&mut eight_areas(), "3 0 3 1");
    assert_eq!(unmapped(&mut eight_areas(), "3 0 1 29").len(), 22, "all but pages 0 and 30");
    // Every range there is: 14 where it is a hole in one area, and nowhere else.
    let whole = eight_areas();
    for first in 0..64 {
        for pages in 1..=64 - first {
            let mut machine = whole.clone();
            let text = format!("3 0 {first} {pages}");
            if first < 32 && first % 4 == 1 && pages == 1 {
                assert_eq!(refusal(&mut machine, &text), 14, "{text}");
            } else {
                unmapped(&mut machine, &text);
            }
        }
    }
}

#[test]
fn rows_4_and_6_come_before() {
    // Not open, and a sandbox above 3.
    let mut machine = after(&["1 0 8"]);
    for text in ["3 1 0 1", "3 1 0 64", "3 4 0 64", "3 3 0 65", "3 1 64 1"] {
        assert_eq!(refusal(&mut machine, text), 4, "{text}");
    }
    // With nothing mapped, over a gap, and after a snapshot.
    for texts in [&[][..], &["2 0 60 1 0 0 3", "2 0 63 1 0 0 3"], &["7 0"]] {
        accept(&mut machine, texts);
        for text in ["3 0 64 1", "3 0 0 0", "3 0 0 65", "3 0 60 5", "3 0 63 2", "3 0 1 65535"] {
            assert_eq!(refusal(&mut machine, text), 6, "{text}");
        }
        for text in ["3 0 60 4 1", "3 0 60 4 0 1", "3 0 60 4 0 0 1", "3 0 10 1 3"] {
            assert_eq!(refusal(&mut machine, text), 6, "{text}");
        }
    }
}

#[test]
fn refusal_9_remains_for_protect_read_and_write() {
    let mut machine = after(&THREE_AREAS);
    let ranges = ["4 0 3 4", "4 0 2 10", "4 0 0 3", "4 0 11 2", "4 0 4 2", "4 0 0 64"];
    for (range, rights) in ranges.into_iter().flat_map(|range| [(range, 1), (range, 3)]) {
        let text = format!("{range} {rights}");
        assert_eq!(refusal(&mut machine, &text), 9, "{text}");
    }
    for text in ["5 0 0", "5 0 1024", "5 0 16383", "6 0 1279 1", "6 0 16383 1"] {
        assert_eq!(refusal(&mut machine, text), 9, "{text}");
    }
    // Of a page that an unmap passed over, as of one that it unmapped.
    assert_eq!(unmapped(&mut machine, "3 0 3 4"), [3, 6]);
    for text in ["4 0 3 4 1", "4 0 6 1 1", "5 0 1536", "6 0 768 1", "5 0 1024", "6 0 1024 1"] {
        assert_eq!(refusal(&mut machine, text), 9, "{text}");
    }
}

/// Every range there is, before and after a snapshot, beside another sandbox.
#[test]
fn every_range_over_three_areas() {
    let before = after(&THREE_AREAS);
    let mut since = after(&THREE_AREAS);
    accept(&mut since, &["6 0 512 1", "6 0 2560 2", "7 0", "6 0 513 3", "3 0 10 1"]);
    accept(&mut since, &["2 0 20 2 0 0 3", "6 0 5120 4", "1 1 8", "2 1 0 8 0 0 3", "6 1 512 9"]);
    let mapped_in = |machine: &Machine, first: usize, pages: usize| -> Vec<usize> {
        (first..first + pages).filter(|&at| machine.sandbox(0).pages[at].mapped).collect()
    };
    for whole in [before, since] {
        for first in 0..64 {
            for pages in 1..=64 - first {
                let mut machine = whole.clone();
                let mapped = mapped_in(&machine, first, pages);
                assert_eq!(unmapped(&mut machine, &format!("3 0 {first} {pages}")), mapped);
                changes_nothing(&mut machine, &format!("3 0 {first} {pages}"));
            }
        }
    }
}

#[test]
fn what_compare_and_a_next_map_see() {
    let mut machine = after(&THREE_AREAS);
    accept(&mut machine, &["7 0"]);
    changes_nothing(&mut machine, "3 0 4 2");
    assert_eq!(value(&mut machine, "10 0"), 64, "an unmap of nothing leaves it clean");
    assert_eq!(unmapped(&mut machine, "3 0 4 7"), [6, 9, 10]);
    assert_eq!(value(&mut machine, "10 0"), 6, "the lowest of the pages unmapped");
    // The range is one gap now: pages 4 to 10.
    assert_eq!(value(&mut machine, "2 0 64 7 0 0 3"), 4);
}

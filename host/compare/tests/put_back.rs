//! What the proved machine answers to a rewind, beside the random rolls: read off its own state,
//! pool and table as they were before it.

use crate::along::{along_rolls, backing_bytes, entries, frame, record, Made};
use model::PAGES;

/// A committed page with a front, and whether it differs from the snapshot's.
struct Front {
    has_back: bool,
    differs: bool,
}

/// Of each page that is committed before the call and has a front: "Copying a page back now also
/// says whether any byte differed."
fn fronts(made: &Made) -> Vec<Front> {
    let sandbox = usize::from(made.call.sandbox);
    let record = record(made.before, sandbox);
    let (fronts, backs) = entries(made.before, sandbox).split_at(PAGES);
    let bytes = |entry: u16| frame(made.before, usize::from(entry) - 1);
    let committed = |page: usize| record.present.at(page).is_some_and(|area| area.committed);
    let with_front = (0..PAGES).filter(|&page| committed(page) && fronts[page] != 0);
    let front = |page: usize| {
        let area = record.snapshot.at(page).expect("a committed page is a snapshot page");
        let kept = match backs[page] {
            0 => backing_bytes(area, page, made.image),
            back => bytes(back),
        };
        Front { has_back: backs[page] != 0, differs: bytes(fronts[page]) != kept }
    };
    with_front.map(front).collect()
}

/// "Rewind answers the number of committed pages still mapped whose bytes differed from the
/// snapshot": a committed page without a front reads what the snapshot's page reads.
#[test]
fn a_rewind_counts_the_fronts_that_it_changes() {
    let (mut by_value, mut same, mut with_back, mut without) = ([0; 4], 0, 0, 0);
    along_rolls(1_500, |made| {
        if made.call.code != 8 {
            return;
        }
        let fronts = fronts(made);
        let differing: Vec<&Front> = fronts.iter().filter(|front| front.differs).collect();
        assert_eq!(made.value as usize, differing.len());
        by_value[differing.len().min(3)] += 1;
        same += fronts.len() - differing.len();
        with_back += differing.iter().filter(|front| front.has_back).count();
        without += differing.iter().filter(|front| !front.has_back).count();
    });
    println!("{by_value:?} rewinds put back 0, 1, 2 or more pages");
    println!("{same} fronts were not changed, {with_back} with a back were, {without} without");
    assert!(by_value.iter().all(|&rewinds| rewinds > 200), "{by_value:?}");
    assert!(same > 1_000 && with_back > 500 && without > 500, "{same}, {with_back}, {without}");
}

//! Kept frames of the proved machine, beside the random rolls.

use crate::along::{along_rolls, entries, frame, record, Made};
use compare::layout::rows;
use compare::row::{length, smallest};
use compare::{Frames, Kept, Lengths};
use model::{parse_line, Call, LINE_BYTES, PAGES, PAGE_BYTES};
use rolls::Case;

const ROLLS: u64 = 1_500;

fn kept_frames(kept: &Kept, sandbox: usize) -> usize {
    rows(&kept.state)[sandbox].iter().map(|&run| length(run)).sum()
}

/// "A rewound sandbox's frames hold snapshot pages or zeros, and no more than its share."
#[test]
fn a_rewound_sandbox_holds_snapshot_pages_or_zeros_within_its_share() {
    let (mut rewinds, mut with_runs, mut full) = (0, 0, 0);
    along_rolls(ROLLS, |&Made { after, call, .. }| {
        if call.code != 8 {
            return;
        }
        let sandbox = usize::from(call.sandbox);
        let record = record(after, sandbox);
        for run in rows(&after.state)[sandbox] {
            for kept in (0..128).filter(|kept| run >> kept & 1 == 1) {
                assert_eq!(frame(after, kept), [0; PAGE_BYTES], "kept frame {kept}");
            }
        }
        let (fronts, backs) = entries(after, sandbox).split_at(PAGES);
        for page in (0..PAGES).filter(|&page| fronts[page] != 0) {
            assert!(record.snapshot.at(page).is_some(), "a front on page {page}");
            let bytes = |entry: u16| frame(after, usize::from(entry) - 1);
            // Without a back the snapshot's page has the bytes of its backing.
            assert!(backs[page] == 0 || bytes(fronts[page]) == bytes(backs[page]), "page {page}");
        }
        let held = entries(after, sandbox).iter().filter(|&&entry| entry != 0).count();
        let kept = kept_frames(after, sandbox);
        assert!(held + kept <= usize::from(record.share), "{held} and {kept}");
        rewinds += 1;
        with_runs += usize::from(kept > 0);
        full += usize::from(kept > 0 && held + kept == usize::from(record.share));
    });
    println!("{rewinds} rewinds, {with_runs} with kept frames, {full} with a full share");
    assert!(rewinds > 5_000 && with_runs > 2_000 && full > 100, "{rewinds}, {with_runs}, {full}");
}

/// What the documents leave open, this machine does so: it gives up the smallest frame of the
/// run, and takes the unheld frame with the greatest number.
#[test]
fn the_smallest_frame_is_given_up_and_the_greatest_unheld_one_taken() {
    let (mut takes, mut gives, mut same) = (0, 0, 0);
    along_rolls(ROLLS, |&Made { before, after, call, .. }| {
        if call.code != 6 {
            return;
        }
        let sandbox = usize::from(call.sandbox);
        let page = usize::from(call.parameters[0]) / PAGE_BYTES;
        let entry = |kept: &Kept| usize::from(entries(kept, sandbox)[page]);
        if entry(before) != 0 {
            assert_eq!(rows(&before.state), rows(&after.state));
            return;
        }
        let mut frames = Frames::of(&before.state, &before.table);
        let (were, are) = (frames.rows[sandbox], rows(&after.state)[sandbox]);
        let place = (0..were.len()).find(|&place| were[place] != are[place]);
        let given = place.map(|place| smallest(were[place]));
        if let (Some(place), Some(given)) = (place, given) {
            assert_eq!(are[place], were[place] & !(1 << given));
            frames.rows[sandbox][place] = are[place];
        }
        let frames_of_pool = before.pool.len() / PAGE_BYTES;
        let held = frames.held();
        let greatest = (0..frames_of_pool).rev().find(|frame| held >> frame & 1 == 0);
        assert_eq!(Some(entry(after) - 1), greatest, "{call:?}");
        takes += 1;
        gives += usize::from(given.is_some());
        same += usize::from(given == greatest);
    });
    println!("{takes} frames taken, {gives} given up, {same} of them taken by the same write");
    assert!(takes > 10_000 && gives > 500 && same > 50, "{takes}, {gives}, {same}");
}

/// "they count in call 9": it is the entries and the marks in the runs, and no other call than
/// a rewind of the sandbox lets runs grow.
#[test]
fn call_9_counts_entries_and_runs() {
    let (mut reports, mut with_runs, mut taken) = (0, 0, 0);
    for case in (0..ROLLS / 3).map(|seed| Case::of_lines(seed, 150)) {
        let mut kept = Kept::filled(Lengths::of(&case));
        if kept.start(&case.image).number != 0 {
            continue;
        }
        for call in case.roll.chunks(LINE_BYTES).filter_map(parse_line) {
            let before = rows(&kept.state);
            kept.call(&case.image, &call);
            taken += usize::from(call.code == 2 && before != rows(&kept.state));
            for (sandbox, row) in before.iter().enumerate() {
                let rewound = call.code == 8 && usize::from(call.sandbox) == sandbox;
                let places = row.iter().zip(rows(&kept.state)[sandbox]);
                let grown = places.into_iter().any(|(was, is)| is & !was != 0);
                assert!(!grown || rewound, "{call:?}");
                let report = Call { code: 9, sandbox: sandbox as u16, parameters: [0; 5] };
                let told = kept.call(&case.image, &report);
                let named = entries(&kept, sandbox).iter().filter(|&&entry| entry != 0).count();
                let expected = named + kept_frames(&kept, sandbox);
                assert!(told.number == 4 || told.value as usize == expected, "{told:?}");
                reports += usize::from(told.number == 0);
                with_runs += usize::from(told.number == 0 && expected > named);
            }
        }
    }
    println!("{reports} reports, {with_runs} of them with kept frames, {taken} maps took a run");
    assert!(
        reports > 10_000 && with_runs > 3_000 && taken > 300,
        "{reports}, {with_runs}, {taken}"
    );
}

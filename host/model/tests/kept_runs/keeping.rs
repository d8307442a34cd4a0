//! What a rewind keeps, and which eight runs are kept.

use super::requests::{assert_kept, fronts, keeping, opened, request, written_area};
use crate::common::{accept, after, image, value};
use model::{Machine, Runs, RUNS};

#[test]
fn a_rewind_keeps_one_run_for_each_area() {
    // Pages 2 and 3, of which 3 is written; pages 5 to 7, all written; page 9, not written.
    let mut machine = opened(16);
    accept(&mut machine, &["2 0 2 2 0 0 3", "6 0 768 1", "2 0 9 1 0 0 3"]);
    written_area(&mut machine, 5, 3);
    assert_kept(&mut machine, &[]);
    accept(&mut machine, &["8 0"]);
    // "whose length is its number of frames"; "if any"; "of one rewind's runs the lower page is
    // older".
    assert_kept(&mut machine, &[1, 3]);
    assert_eq!(value(&mut machine, "9 0"), 4);
    // A second rewind finds no area, and the runs stay.
    accept(&mut machine, &["8 0"]);
    assert_kept(&mut machine, &[1, 3]);
}

#[test]
fn areas_are_those_just_before_the_rewind() {
    // Neighbours with other rights are two areas.
    let mut machine = opened(16);
    written_area(&mut machine, 4, 4);
    accept(&mut machine, &["4 0 5 2 1", "8 0"]);
    assert_kept(&mut machine, &[1, 2, 1]);
    // Two maps side by side that agree are one.
    let mut machine = opened(16);
    written_area(&mut machine, 4, 2);
    written_area(&mut machine, 6, 3);
    accept(&mut machine, &["8 0"]);
    assert_kept(&mut machine, &[5]);
    // An image page between them divides them.
    let mut machine = Machine::fresh(&image(2), 128);
    accept(&mut machine, &["1 0 16", "7 0", "2 0 1 1 1 0 3"]);
    written_area(&mut machine, 0, 1);
    written_area(&mut machine, 2, 2);
    accept(&mut machine, &["8 0"]);
    assert_kept(&mut machine, &[1, 2]);
    // A committed page divides them too.
    let mut machine = after(&["1 0 16", "2 0 1 1 0 0 3", "7 0"]);
    written_area(&mut machine, 0, 1);
    written_area(&mut machine, 2, 2);
    accept(&mut machine, &["8 0"]);
    assert_kept(&mut machine, &[1, 2]);
}

#[test]
fn fronts_of_image_areas_and_of_committed_pages_are_not_kept() {
    let mut machine = Machine::fresh(&image(4), 128);
    accept(&mut machine, &["1 0 32", "2 0 0 2 0 0 3", "6 0 0 7", "7 0"]);
    assert_eq!(value(&mut machine, "9 0"), 1, "the back of page 0");
    // An uncommitted image area: its fronts are freed and cleared as before.
    accept(&mut machine, &["2 0 10 2 1 0 3", "6 0 2560 1", "6 0 2816 1"]);
    assert_eq!(value(&mut machine, "9 0"), 3);
    accept(&mut machine, &["8 0"]);
    assert_kept(&mut machine, &[]);
    assert_eq!(value(&mut machine, "9 0"), 1);
    // A committed page still mapped keeps its front, and it is in no run.
    accept(&mut machine, &["6 0 0 8", "6 0 256 8", "8 0"]);
    assert_kept(&mut machine, &[]);
    assert_eq!(value(&mut machine, "9 0"), 3);
    // A snapshot page unmapped loses its front; mapped anew it is uncommitted and anonymous, and
    // its front is kept.
    accept(&mut machine, &["3 0 0 1", "2 0 0 1 0 0 3", "6 0 1 5", "8 0"]);
    assert_kept(&mut machine, &[1]);
    assert_eq!(fronts(&machine), [1]);
    assert_eq!(value(&mut machine, "5 0 0"), 7, "the snapshot's byte");
}

#[test]
fn fronts_that_an_unmap_frees_are_not_kept() {
    let mut machine = opened(16);
    written_area(&mut machine, 0, 4);
    accept(&mut machine, &["3 0 1 2"]);
    assert_kept(&mut machine, &[]);
    accept(&mut machine, &["8 0"]);
    assert_kept(&mut machine, &[1, 1]);
    // Nor those of a run that a map took.
    accept(&mut machine, &["2 0 64 1 0 0 3", "3 0 0 1", "8 0"]);
    assert_kept(&mut machine, &[1]);
}

#[test]
fn frames_taken_and_not_written_are_kept_again() {
    let mut machine = keeping(&[3]);
    accept(&mut machine, &["2 0 64 5 0 0 1", "8 0"]);
    assert_kept(&mut machine, &[3]);
    accept(&mut machine, &["2 0 64 2 0 0 1", "8 0"]);
    assert_kept(&mut machine, &[1, 2]);
}

#[test]
fn at_most_eight_runs_are_kept_the_longest() {
    // Eight runs of 2; a ninth that is longer, as long, or shorter.
    let eight = [2; RUNS];
    for (ninth, left) in [(3, [2, 2, 2, 2, 2, 2, 2, 3]), (2, [2; 8]), (1, [2; 8])] {
        let mut machine = keeping(&eight);
        request(&mut machine, &[ninth]);
        assert_kept(&mut machine, &left);
    }
    // Old and new compete together: of one rewind some win and some lose.
    let mut machine = keeping(&[1, 5, 1, 3, 2, 1, 4, 3]);
    request(&mut machine, &[1, 2, 6, 1, 2]);
    assert_kept(&mut machine, &[5, 3, 2, 4, 3, 2, 6, 2]);
    // The rest is freed: what call 9 counts is these alone.
    assert_eq!(value(&mut machine, "9 0"), 27);
    // Nine of one sandbox cannot come of one rewind: "A sandbox has at most 8" areas.
    let mut machine = opened(64);
    request(&mut machine, &[1; 8]);
    assert_kept(&mut machine, &[1; 8]);
}

#[test]
fn keeping_all_at_once_or_one_after_the_other_is_the_same() {
    let mut state = 1u64;
    let mut next = |below: u64| {
        state = state.wrapping_mul(6364136223846793005).wrapping_add(1442695040888963407);
        ((state >> 33) % below) as usize
    };
    for _ in 0..20_000 {
        let old = Runs::of((0..next(9)).map(|_| next(5)).collect::<Vec<_>>());
        let new: Vec<usize> = (0..next(9)).map(|_| next(5)).collect();
        let (mut at_once, mut apart) = (old.clone(), old);
        at_once.keep(new.clone());
        new.into_iter().for_each(|run| apart.keep([run]));
        assert_eq!(at_once, apart);
        assert!(at_once.lengths().len() <= RUNS);
    }
}

#[test]
fn each_sandbox_has_its_own_runs() {
    let mut machine = opened(8);
    accept(&mut machine, &["1 1 8", "7 1"]);
    request(&mut machine, &[3]);
    accept(&mut machine, &["2 1 64 3 0 0 3"]);
    assert_kept(&mut machine, &[3]);
    assert_eq!(value(&mut machine, "9 1"), 0);
    accept(&mut machine, &["6 1 0 1", "8 1"]);
    assert_eq!((value(&mut machine, "9 0"), value(&mut machine, "9 1")), (3, 1));
    accept(&mut machine, &["2 0 64 3 0 0 3"]);
    assert_kept(&mut machine, &[]);
    assert_eq!(machine.sandbox(1).runs.lengths(), [1]);
}

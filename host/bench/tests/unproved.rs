//! The unproved machines answer as the model does, so that they are a fair measure.

use bench::{same_steps, unproved};
use model::{parse_line, Fault};
use rolls::Case;
use std::sync::LazyLock;

const ROLLS: u64 = 3_000;

type Play = fn(&[u8], &[u8], &mut [u8], &mut [u16], &mut [u8]) -> usize;

/// What a machine prints, over memory that is not zero before the start.
fn printed(play: Play, case: &Case) -> Vec<u8> {
    let lines = case.roll.len().div_ceil(43);
    let mut out = vec![0; 19 * lines];
    let mut pool = vec![1; 256 * case.frames];
    assert_eq!(play(&case.roll, &case.image, &mut pool, &mut [1; 512], &mut out), lines);
    out
}

/// The cases of the first seeds, the same for every machine.
static CASES: LazyLock<Vec<Case>> = LazyLock::new(|| (0..ROLLS).map(Case::random).collect());

/// What the model prints of each.
static MODEL: LazyLock<Vec<Vec<u8>>> = LazyLock::new(|| printed_with(Fault::None));

fn printed_with(fault: Fault) -> Vec<Vec<u8>> {
    CASES.iter().map(|case| case.printed_with(fault)).collect()
}

fn answers_as(play: Play, expected: &[Vec<u8>]) {
    let mut lines = 0;
    for (seed, (case, expected)) in CASES.iter().zip(expected).enumerate() {
        let out = printed(play, case);
        assert!(out == *expected, "seed {seed}");
        lines += out.len() / 19;
    }
    assert!(lines > 100_000, "{lines}");
}

/// The replies without the values of accepted reports, and how many of these there are.
fn without_reports(case: &Case, mut out: Vec<u8>) -> (Vec<u8>, usize) {
    let mut reports = 0;
    for (line, reply) in case.roll.chunks(43).zip(out.chunks_mut(19)) {
        if parse_line(line).is_some_and(|call| call.code == 9) && reply[6..12] == *b"     0" {
            reply[12..18].fill(b'?');
            reports += 1;
        }
    }
    (out, reports)
}

#[test]
fn the_unproved_machine_answers_as_the_model() {
    answers_as(unproved::play, &MODEL);
}

/// A roll's state comes from its start, so that a test of it would find nothing.
#[test]
fn the_trusting_machine_answers_the_same() {
    answers_as(unproved::play_trusting, &MODEL);
}

#[test]
fn with_the_proved_machines_steps_it_answers_the_same() {
    answers_as(same_steps::play, &MODEL);
}

#[test]
fn the_dropping_machine_differs_by_its_freed_fronts_alone() {
    answers_as(unproved::play_dropping, &printed_with(Fault::RewindFreesAllFronts));
}

/// "Places, bytes and refusals are those of a machine that keeps nothing": only a report tells the
/// two apart, and it does.
#[test]
fn a_machine_that_keeps_nothing_differs_in_its_reports_alone() {
    let (mut reports, mut differ) = (0, 0);
    for (seed, case) in CASES.iter().enumerate() {
        let [keeping, not] = [unproved::play as Play, unproved::play_keeping_nothing]
            .map(|play| printed(play, case));
        differ += usize::from(keeping != not);
        let [keeping, not] = [keeping, not].map(|out| without_reports(case, out));
        assert!(keeping == not, "seed {seed}");
        reports += keeping.1;
    }
    assert!(reports > 1_000 && differ > 100, "{reports} reports, {differ} rolls differ");
}

/// Pool and table are those of the proved machine too: all four take the greatest
/// unheld frame, and give up the smallest of a run.
#[test]
fn pool_and_table_are_those_of_the_proved_machine() {
    for (seed, case) in CASES[..ROLLS as usize / 10].iter().enumerate() {
        let mut out = vec![0; 19 * case.roll.len().div_ceil(43)];
        let (mut pool, mut table) = (vec![1; 256 * case.frames], [1; 512]);
        let lines = gazhuppin::play(&case.roll, &case.image, &mut pool, &mut table, &mut out);
        let left = (lines.expect("out has room"), pool, table, out);
        for play in [unproved::play as Play, unproved::play_trusting, same_steps::play] {
            let mut out = vec![0; left.3.len()];
            let (mut pool, mut table) = (vec![1; 256 * case.frames], [1; 512]);
            let lines = play(&case.roll, &case.image, &mut pool, &mut table, &mut out);
            assert!((lines, pool, table, out) == left, "seed {seed}");
        }
    }
}

#[test]
fn out_without_room_is_left_alone() {
    let roll = Case::random(1).roll;
    let mut out = [7; 18];
    let (mut pool, mut table) = ([3; 256], [5; 512]);
    assert!(roll.len() >= 43);
    assert_eq!(unproved::play(&roll, &[], &mut pool, &mut table, &mut out), 0);
    assert!(out == [7; 18] && pool == [3; 256] && table == [5; 512]);
}

//! The proved machine answers and keeps what the plain machine does: answers, state, pool and
//! table after every line of random rolls, replies, pool and table of the whole rolls, and the
//! archives of all sandboxes after every fourth of them.

use compare::{compare, compare_with, run, Failure, Lengths};
use gazhuppin::{Played, REPLY_BYTES};
use model::{parse_line, LINE_BYTES};
use rolls::{shrink, Case};

const ROLLS: u64 = 20_000;
const LINES: usize = 200;

/// The numbers that the table "Turned back" allows each code, from 1 on.
const POSSIBLE: [&[u16]; 10] = [
    &[0, 3, 4, 5, 6, 13],
    &[0, 3, 4, 6, 10, 11, 13, 14],
    &[0, 3, 4, 6, 14],
    &[0, 3, 4, 6, 9, 14],
    &[0, 3, 4, 6, 9],
    &[0, 3, 4, 6, 9, 12],
    &[0, 3, 4, 6, 7, 13],
    &[0, 3, 4, 6, 8],
    &[0, 3, 4, 6],
    &[0, 3, 4, 6, 8],
];

#[test]
fn random_rolls() {
    let coverage = run(0, ROLLS, LINES).unwrap_or_else(|failure| panic!("{failure}"));
    println!("{coverage}");
    assert_eq!((coverage.rolls, coverage.lines), (ROLLS, ROLLS * LINES as u64));
    for number in 0..=14 {
        assert!(coverage.of_number(number) >= 100, "{number} was hardly ever answered");
        for (code, possible) in (1..).zip(POSSIBLE) {
            let met = coverage.answered(code, number) > 0;
            assert_eq!(met, possible.contains(&number), "{number} to call {code}");
        }
    }
    // Of archives too, the refusals that they can have, and no others.
    for number in 0..16 {
        let (met, possible) = (coverage.archives.answered(number), [0, 3, 4, 8, 15]);
        let enough = if possible.contains(&number) { met >= 2_000 } else { met == 0 };
        assert!(enough, "{met} archives were answered {number}");
    }
    let played = coverage.archives.lines;
    assert!(played >= 40_000, "only {played} lines of archives were played");
    assert!(coverage.rewinds.iter().all(|&met| met >= 4_000), "{:?}", coverage.rewinds);
    let accepted = coverage.of_number(0);
    assert!(2 * accepted > coverage.lines, "only {accepted} calls were accepted");
    assert!(coverage.pools.iter().copied().eq(1..=128), "{:?}", coverage.pools);
    assert!((0..=65).all(|pages| coverage.images.contains(&(256 * pages))));
}

#[test]
fn rolls_of_the_greatest_length_and_above() {
    for (seed, lines) in [(1, 65_535), (2, 65_540)] {
        let case = Case::of_lines(seed, lines);
        let played = compare_with(&case, Lengths::of(&case));
        let played = played.unwrap_or_else(|difference| panic!("seed {seed}: {difference}"));
        assert_eq!(played.replies.len(), 65_535 * REPLY_BYTES);
    }
}

/// Of rolls played as a whole, memory is compared after every line and not just after the
/// last one; and a call that is refused, reads, reports or compares leaves pool and table as they
/// were.
#[test]
fn every_part_of_a_roll() {
    let (mut unchanged, mut changed) = (0, 0);
    for seed in 0..100 {
        let whole = Case::of_lines(seed, 80);
        let mut before: Option<Played> = None;
        for lines in 0..=80 {
            let roll: Vec<&[u8]> = whole.roll.chunks(LINE_BYTES).take(lines).collect();
            let part = Case { roll: roll.concat(), ..whole.clone() };
            let played = compare_with(&part, Lengths::of(&part));
            let played = played.unwrap_or_else(|difference| {
                panic!("seed {seed}, the first {lines} lines: {difference}")
            });
            if let Some(before) = before {
                let last = &played.replies[(lines - 1) * REPLY_BYTES..];
                let refused = last[6..12] != *b"     0";
                let call = parse_line(roll[lines - 1]);
                let only_looks = call.is_some_and(|call| [5, 9, 10].contains(&call.code));
                let same = (&before.pool, &before.table) == (&played.pool, &played.table);
                let may_change = !refused && !only_looks;
                assert!(same || may_change, "seed {seed}: line {lines} changed memory");
                unchanged += usize::from(refused);
                changed += usize::from(!same);
            }
            before = Some(played);
        }
    }
    println!("{unchanged} refused calls, {changed} calls that changed memory");
    assert!(unchanged > 1_000 && changed > 1_000);
}

/// What is printed of a failing roll is enough to play it again.
#[test]
fn a_failure_says_how_to_see_it_again() {
    let refuses_all = compare::Mutant::Machine(model::Fault::RefusesAll);
    let case = Case::random(0);
    let shrunk = shrink(&case, |case| refuses_all.difference(case).is_some());
    let difference = refuses_all.difference(&shrunk).expect("it still fails");
    let printed = Failure { seed: 0, shrunk, difference }.to_string();
    let expected = "seed 0: line 1: the program answers `     1     0     0`, \
                    the model `     1    13     0`
shrunk, with an image of 0 bytes and 128 frames:
     1     0     1     0     0     0     0
";
    assert_eq!(printed, expected);
    assert!(compare(&case).is_ok());
}

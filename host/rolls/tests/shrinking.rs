//! The shrinker works for any predicate.

use model::{parse_line, play, LINE_BYTES};
use rolls::{shrink, Case};

/// How often a reply with this number is printed.
fn refusals(case: &Case, number: u16) -> usize {
    let printed = play(&case.roll, Some(&case.image), case.frames);
    let wanted = format!("{number:>6}");
    printed.chunks(19).filter(|line| line[6..12] == *wanted.as_bytes()).count()
}

fn first_case(fails: impl Fn(&Case) -> bool) -> Case {
    (0..).map(Case::random).find(fails).expect("some seed")
}

#[test]
fn a_roll_shrinks_to_what_a_refusal_needs() {
    // The fewest lines that can meet each number. The shrinker leaves out and lowers
    // but never adds, so it may end a little above them.
    let fewest = [
        (1, 1),
        (2, 1),
        (3, 1),
        (4, 1),
        (5, 2),
        (6, 1),
        (7, 3),
        (8, 2),
        (9, 2),
        (10, 3),
        (11, 3),
        (12, 3),
        (13, 1),
        (14, 6),
    ];
    for (number, lines) in fewest {
        let meets = |case: &Case| refusals(case, number) > 0;
        let small = shrink(&first_case(meets), meets);
        let left = small.roll.len().div_ceil(LINE_BYTES);
        println!("refusal {number}: {left} lines");
        assert!((lines..=lines + 5).contains(&left), "refusal {number}: {left} lines");
    }
}

#[test]
fn no_line_of_a_shrunk_roll_can_be_left_out() {
    let fails = |case: &Case| refusals(case, 14) > 0 && refusals(case, 12) > 0;
    let small = shrink(&first_case(fails), fails);
    for line in 0..small.roll.len().div_ceil(LINE_BYTES) {
        let mut without = small.clone();
        let end = ((line + 1) * LINE_BYTES).min(without.roll.len());
        without.roll.drain(line * LINE_BYTES..end);
        assert!(!fails(&without), "line {line}");
    }
}

#[test]
fn numbers_and_image_become_small() {
    let writes_an_image_page = |case: &Case| {
        let write = |line: &[u8]| parse_line(line).is_some_and(|call| call.code == 6);
        !case.image.is_empty() && case.roll.chunks(LINE_BYTES).any(write)
    };
    let small = shrink(&first_case(writes_an_image_page), writes_an_image_page);
    assert_eq!(small.image, [1; 256]);
    assert_eq!(small.roll, b"     6     0     0     0     0     0     0\n");
    assert_eq!(small.frames, 128);
}

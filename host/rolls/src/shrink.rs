//! A smaller case that still fails. Any predicate will do: a difference between two
//! machines, a certain answer, a crash.

use crate::case::{Case, PLAYER_FRAMES};
use model::{call_line, parse_line, Call, LINE_BYTES, PAGE_BYTES};

/// Make a failing case smaller until no step makes it smaller still. The predicate
/// must hold for the case itself and for whatever else counts as failing.
pub fn shrink(case: &Case, mut fails: impl FnMut(&Case) -> bool) -> Case {
    assert!(fails(case), "only a failing case can be shrunk");
    let mut smallest = case.clone();
    loop {
        let before = smallest.clone();
        drop_lines(&mut smallest, &mut fails);
        swap_sandboxes(&mut smallest, &mut fails);
        lower_fields(&mut smallest, &mut fails);
        simplify_surroundings(&mut smallest, &mut fails);
        if smallest == before {
            return smallest;
        }
    }
}

/// Take over a candidate that still fails.
fn try_case(smallest: &mut Case, candidate: Case, fails: &mut impl FnMut(&Case) -> bool) -> bool {
    let better = candidate != *smallest && fails(&candidate);
    if better {
        *smallest = candidate;
    }
    better
}

/// Leave out lines: first halves of the roll, then ever shorter parts, then single
/// lines.
fn drop_lines(smallest: &mut Case, fails: &mut impl FnMut(&Case) -> bool) {
    let mut part = smallest.roll.len().div_ceil(LINE_BYTES);
    while part > 0 {
        let mut at = 0;
        while at * LINE_BYTES < smallest.roll.len() {
            let mut candidate = smallest.clone();
            let end = ((at + part) * LINE_BYTES).min(candidate.roll.len());
            candidate.roll.drain(at * LINE_BYTES..end);
            if !try_case(smallest, candidate, fails) {
                at += part;
            }
        }
        part /= 2;
    }
}

/// Let a lower sandbox take the place of a higher one in all lines.
fn swap_sandboxes(smallest: &mut Case, fails: &mut impl FnMut(&Case) -> bool) {
    for (lower, higher) in [(0, 1), (0, 2), (0, 3), (1, 2), (1, 3), (2, 3)] {
        let named = calls(smallest).iter().flatten().map(|call| call.sandbox).collect::<Vec<_>>();
        if named.contains(&higher) && !named.contains(&lower) {
            let mut candidate = smallest.clone();
            for (at, call) in calls(smallest).into_iter().enumerate() {
                if let Some(call) = call.filter(|call| call.sandbox == higher) {
                    store(&mut candidate, at, &Call { sandbox: lower, ..call });
                }
            }
            try_case(smallest, candidate, fails);
        }
    }
}

/// Make the numbers of each well-formed line smaller.
fn lower_fields(smallest: &mut Case, fails: &mut impl FnMut(&Case) -> bool) {
    for (at, call) in calls(smallest).into_iter().enumerate() {
        let Some(mut call) = call else { continue };
        for field in 0..7 {
            let mut lower = |call: &mut Call, number: u16| {
                let mut lowered = *call;
                *field_of(&mut lowered, field) = number;
                let mut candidate = smallest.clone();
                store(&mut candidate, at, &lowered);
                let better = try_case(smallest, candidate, fails);
                if better {
                    *call = lowered;
                }
                better
            };
            let number = *field_of(&mut call, field);
            if number == 0 || lower(&mut call, 0) {
                continue;
            }
            // By ever smaller steps, each as often as it goes.
            let mut step = number / 2;
            while step > 0 {
                let number = *field_of(&mut call, field);
                if number <= step || !lower(&mut call, number - step) {
                    step /= 2;
                }
            }
        }
    }
}

/// A smaller or plainer image, and the player's number of frames, with which the
/// roll can be handed to the player.
fn simplify_surroundings(smallest: &mut Case, fails: &mut impl FnMut(&Case) -> bool) {
    let with_image = |smallest: &Case, image: Vec<u8>| Case { image, ..smallest.clone() };
    try_case(smallest, Case { frames: PLAYER_FRAMES, ..smallest.clone() }, fails);
    try_case(smallest, with_image(smallest, Vec::new()), fails);
    loop {
        let length = smallest.image.len();
        let shorter = [length / 2 / PAGE_BYTES * PAGE_BYTES, length.saturating_sub(PAGE_BYTES)];
        let fits = shorter.into_iter().any(|length| {
            try_case(smallest, with_image(smallest, smallest.image[..length].to_vec()), fails)
        });
        if !fits {
            break;
        }
    }
    let plain = (0..smallest.image.len()).map(|at| (at / PAGE_BYTES + 1) as u8).collect();
    try_case(smallest, with_image(smallest, plain), fails);
}

fn calls(case: &Case) -> Vec<Option<Call>> {
    case.roll.chunks(LINE_BYTES).map(parse_line).collect()
}

fn store(case: &mut Case, line: usize, call: &Call) {
    case.roll[line * LINE_BYTES..][..LINE_BYTES].copy_from_slice(&call_line(call));
}

fn field_of(call: &mut Call, field: usize) -> &mut u16 {
    match field {
        0 => &mut call.code,
        1 => &mut call.sandbox,
        _ => &mut call.parameters[field - 2],
    }
}

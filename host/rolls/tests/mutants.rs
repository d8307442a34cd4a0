//! Random rolls tell each wrong machine from the right one.

use model::{reply_lines, Fault, Faulty, LINE_BYTES};
use rolls::{shrink, Case};
use std::sync::LazyLock;

const ROLLS: u64 = 300;
/// The bytes of a printed line.
const REPLY_BYTES: usize = 19;

/// A case, and what the right machine prints: the same whatever the fault.
type Printed = (Case, Vec<u8>);

static RANDOM: LazyLock<Vec<Printed>> = LazyLock::new(|| all_printed(Case::random));

fn all_printed(case_of: fn(u64) -> Case) -> Vec<Printed> {
    let with_printed = |case: Case| (case.clone(), case.printed());
    (0..ROLLS).map(case_of).map(with_printed).collect()
}

fn machine(case: &Case, fault: Fault) -> Faulty {
    Faulty::fresh(&case.image, case.frames, fault)
}

/// Whether a line is printed otherwise; the lines behind the first one are not played.
fn told_apart(case: &Case, fault: Fault) -> bool {
    let (mut wrong, mut right) = (machine(case, fault), machine(case, Fault::None));
    reply_lines(&case.roll, &mut wrong).ne(reply_lines(&case.roll, &mut right))
}

/// The first seed whose roll tells the fault.
fn telling_seed(cases: &[Printed], fault: Fault) -> Option<usize> {
    cases.iter().position(|(case, printed)| {
        reply_lines(&case.roll, &mut machine(case, fault)).ne(printed.chunks(REPLY_BYTES))
    })
}

#[test]
fn random_rolls_tell_every_fault() {
    for fault in Fault::ALL {
        let seed = telling_seed(&RANDOM, fault);
        let seed = seed.unwrap_or_else(|| panic!("{fault:?} passed {ROLLS} rolls"));
        println!("{fault:?}: told by the roll of seed {seed}");
    }
}

#[test]
fn rolls_for_the_player_tell_every_fault() {
    let cases = all_printed(Case::for_player);
    for fault in Fault::ALL {
        let seed = telling_seed(&cases, fault);
        let seed = seed.unwrap_or_else(|| panic!("{fault:?} passed {ROLLS} rolls"));
        println!("{fault:?}: told by the roll of seed {seed}");
    }
}

#[test]
fn no_roll_tells_a_machine_without_fault_from_the_right_one() {
    for seed in 0..ROLLS {
        let case = Case::random(seed);
        let printed = model::play(&case.roll, Some(&case.image), case.frames);
        assert!(case.printed_with(Fault::default()) == printed, "seed {seed}");
    }
}

/// Each telling roll becomes a few lines, and is still telling.
#[test]
fn a_telling_roll_shrinks_to_a_few_lines() {
    for fault in Fault::ALL {
        let (case, _) = &RANDOM[telling_seed(&RANDOM, fault).expect("told")];
        let small = shrink(case, |case| told_apart(case, fault));
        assert!(told_apart(&small, fault), "{fault:?}");
        let lines = small.roll.len().div_ceil(LINE_BYTES);
        println!("{fault:?}, image of {} bytes, {} frames:", small.image.len(), small.frames);
        println!("{}", String::from_utf8_lossy(&small.roll));
        let most = if fault.is_near_runs() { 36 } else { 12 };
        assert!(lines <= most, "{fault:?}: {lines} lines");
    }
}

//! The state in bytes, held to the plain machine: the layout written apart is the proved one,
//! every byte counts, and a state gives back what the plain machine keeps.
//! (`random_rolls` compares state, pool and table after every line of its rolls.)

use compare::layout::{self, State};
use compare::{check_entries, check_state, machine_of, state_of, unsound_clauses};
use compare::{Difference, Frames, Kept, Lengths};
use model::{parse_line, Answering, Call, Machine, LINE_BYTES};
use rolls::Case;

/// Cases whose lengths are right, with their calls.
fn cases(count: usize, lines: usize) -> impl Iterator<Item = (Case, Vec<Call>)> {
    let cases = (0..).map(move |seed| Case::of_lines(seed, lines));
    let right = |case: &Case| Machine::fresh(&case.image, case.frames).lengths_are_right();
    let calls = |case: &Case| case.roll.chunks(LINE_BYTES).filter_map(parse_line).collect();
    cases.filter(right).take(count).map(move |case| (case.clone(), calls(&case)))
}

fn started(case: &Case) -> (Kept, Machine) {
    let mut kept = Kept::filled(Lengths::of(case));
    assert_eq!(kept.start(&case.image).number, 0);
    (kept, Machine::fresh(&case.image, case.frames))
}

#[test]
fn the_layout_apart_has_as_many_bytes() {
    assert_eq!(layout::STATE_BYTES, gazhuppin::state_bytes());
    let (kept, _) = started(&Case { roll: Vec::new(), image: Vec::new(), frames: 1 });
    assert_eq!(kept.state, [0; layout::STATE_BYTES], "a fresh state is zero");
}

#[test]
fn every_byte_of_the_state_is_looked_at() {
    for (case, calls) in cases(20, 120) {
        let (mut kept, mut machine) = started(&case);
        for call in &calls {
            kept.call(&case.image, call);
            machine.answer(call);
        }
        let expected = state_of(&machine, &Frames::of(&kept.state, &kept.table)).bytes();
        assert_eq!(check_state(&kept.state, &expected), Ok(()));
        for at in 0..kept.state.len() {
            let mut other = kept.state.clone();
            other[at] ^= 1;
            let (program, model) = (Some(other[at]), Some(expected[at]));
            let difference = Difference::State { at, program, model };
            assert_eq!(check_state(&other, &expected), Err(difference));
        }
        let short = check_state(&kept.state[..931], &expected);
        let model = Some(expected[931]);
        assert_eq!(short, Err(Difference::State { at: 931, program: None, model }));
    }
}

#[test]
fn a_byte_has_a_name() {
    let places = [0, 1, 2, 3, 4, 9, 52, 58, 101, 117, 228, 229, 787, 788, 915, 916, 931];
    let names = places.map(layout::name);
    let expected = [
        "sandbox 0, open",
        "sandbox 0, share",
        "sandbox 0, snapshot taken",
        "sandbox 0, areas' count",
        "sandbox 0, area 0's first page",
        "sandbox 0, area 0's image page",
        "sandbox 0, snapshot areas' count",
        "sandbox 0, snapshot area 0's image page",
        "sandbox 0, run 0's byte 0",
        "sandbox 0, run 1's byte 0",
        "sandbox 0, run 7's byte 15",
        "sandbox 1, open",
        "sandbox 3, snapshot area 7's image page",
        "sandbox 3, run 0's byte 0",
        "sandbox 3, run 7's byte 15",
        "the held marks' byte 0",
        "the held marks' byte 15",
    ];
    assert_eq!(names, expected);
}

/// Along random rolls: the bytes are a state's and give it again, the state is sound, and the
/// plain machine made from it answers the next call and keeps what the one in step does.
#[test]
fn a_state_gives_back_what_the_plain_machine_keeps() {
    let mut accepted = 0;
    for (case, calls) in cases(150, 120) {
        let (mut kept, mut machine) = started(&case);
        for call in &calls {
            let Kept { state, pool, table } = &kept;
            let read = State::of(state).expect("a state");
            let frames = Frames::of(state, table);
            assert!(read.bytes() == *state && read == state_of(&machine, &frames));
            assert_eq!(unsound_clauses(state, pool, table, &case.image), []);
            let mut given_back = machine_of(&read, pool, table, &case.image);
            assert!(check_entries(pool, table, &given_back).is_ok());
            let told = kept.call(&case.image, call);
            let (number, value) = machine.answer(call);
            assert_eq!((told.number, told.value), (u32::from(number), value));
            assert_eq!(given_back.answer(call), (number, value), "{call:?}");
            let frames = Frames::of(&kept.state, &kept.table);
            assert!(state_of(&given_back, &frames) == state_of(&machine, &frames));
            accepted += usize::from(number == 0);
        }
    }
    assert!(accepted > 8_000, "only {accepted} calls were accepted");
}

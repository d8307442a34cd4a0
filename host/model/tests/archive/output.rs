//! Number, value and output: "The answer is the number of lines; output memory past them is
//! untouched. Without a snapshot it is refusal 8, and any refusal leaves all output memory
//! untouched. Turned away: 15, output memory shorter than the roll, after 14."

use super::{after, archived};
use crate::common::accept;
use model::{Machine, LINE_BYTES};

const SNAPSHOT: [&str; 4] = ["1 1 8", "2 1 0 2 0 0 3", "6 1 5 7", "7 1"];

/// The number; the value is 0 and the output as it was, whatever its length.
#[track_caller]
fn refused(machine: &Machine, sandbox: u16) -> u16 {
    let numbers = [0, 1, 42, 43, 85, 86, 171, 172, 1_000].map(|length| {
        let mut out = vec![0xa5; length];
        let (number, value) = machine.archive(sandbox, &mut out);
        assert_eq!(value, 0);
        assert!(out.iter().all(|&byte| byte == 0xa5), "{length} bytes");
        number
    });
    assert!(numbers.iter().all(|&number| number == numbers[0]), "{numbers:?}");
    numbers[0]
}

#[test]
fn output_past_the_lines_is_untouched() {
    let machine = after(&[], &SNAPSHOT);
    let text = archived(&machine, 1).text();
    assert_eq!(text.len(), 4 * LINE_BYTES);
    for length in [172, 173, 214, 215, 1_000] {
        let mut out = vec![0xa5; length];
        assert_eq!(machine.archive(1, &mut out), (0, 4));
        assert_eq!(out[..172], text);
        assert!(out[172..].iter().all(|&byte| byte == 0xa5), "{length} bytes");
    }
}

#[test]
fn output_shorter_than_the_roll_is_refused_15_and_untouched() {
    let machine = after(&[], &SNAPSHOT);
    for length in [0, 1, 42, 43, 85, 86, 129, 170, 171] {
        let mut out = vec![0xa5; length];
        assert_eq!(machine.archive(1, &mut out), (15, 0), "{length} bytes");
        assert!(out.iter().all(|&byte| byte == 0xa5), "{length} bytes");
    }
}

#[test]
fn a_sandbox_above_3_or_not_open_is_refused_4() {
    let machine = after(&[], &SNAPSHOT);
    for sandbox in [0, 2, 3, 4, 5, 256, 65_535] {
        assert_eq!(refused(&machine, sandbox), 4, "sandbox {sandbox}");
    }
}

#[test]
fn without_a_snapshot_it_is_refused_8() {
    let mut machine = after(&[], &SNAPSHOT);
    accept(&mut machine, &["1 0 8", "2 0 0 1 0 0 3", "6 0 0 1"]);
    assert_eq!(refused(&machine, 0), 8);
    accept(&mut machine, &["7 0"]);
    assert_eq!(machine.archive(0, &mut [0; 172]), (0, 4));
}

#[test]
fn a_wrong_length_is_refused_3() {
    for machine in
        [Machine::fresh(&[0; 255], 128), Machine::fresh(&[], 0), Machine::fresh(&[], 129)]
    {
        for sandbox in [0, 3, 4] {
            assert_eq!(refused(&machine, sandbox), 3);
        }
    }
}

/// It is no call: 11 is still no call's code, and no call answers 15.
#[test]
fn it_changes_nothing_and_has_no_code() {
    let mut machine = after(&[], &SNAPSHOT);
    let before = machine.clone();
    machine.archive(1, &mut [0; 172]);
    machine.archive(1, &mut [0; 171]);
    assert!(machine == before);
    assert_eq!(crate::common::refusal(&mut machine, "11 1"), 2);
}

//! "Still clean?": call 10, compare, by hand. Its answers are read off the request's words: "the
//! lowest page number at which the sandbox and its snapshot differ in being mapped, in rights or
//! in bytes, and 64 if they nowhere differ; a page unmapped in both agrees".

use crate::common::{accept, after, image, refusal, value};
use model::{Machine, Sandbox};

/// Two pages written before the snapshot, 5 and 6, and page 63.
const SNAPSHOT: [&str; 6] =
    ["1 0 16", "2 0 5 2 0 0 3", "2 0 63 1 0 0 3", "6 0 1280 7", "6 0 1540 8", "7 0"];

/// The value, after calls that are accepted. Compare itself changes nothing.
#[track_caller]
fn compared(machine: &mut Machine, texts: &[&str]) -> u32 {
    accept(machine, texts);
    let before = machine.clone();
    let page = value(machine, "10 0");
    assert!(*machine == before, "compare changed the machine");
    page
}

#[test]
fn a_snapshot_just_taken_or_just_rewound_is_clean() {
    let mut machine = after(&SNAPSHOT);
    assert_eq!(compared(&mut machine, &[]), 64);
    assert_eq!(compared(&mut machine, &["6 0 1280 1", "3 0 6 1", "2 0 0 2 0 0 1"]), 0);
    assert_eq!(compared(&mut machine, &["8 0"]), 64);
}

#[test]
fn a_snapshot_of_no_pages_is_clean_until_one_is_mapped() {
    let mut machine = after(&["1 0 8", "7 0"]);
    assert_eq!(compared(&mut machine, &[]), 64);
    assert_eq!(compared(&mut machine, &["2 0 63 1 0 0 1"]), 63);
    assert_eq!(compared(&mut machine, &["3 0 63 1"]), 64);
}

#[test]
fn rights_alone_differ_until_they_are_put_back() {
    let mut machine = after(&SNAPSHOT);
    assert_eq!(compared(&mut machine, &["4 0 6 1 1"]), 6);
    assert_eq!(compared(&mut machine, &["4 0 6 1 3"]), 64);
    // From read to read and write as well.
    let mut machine = after(&["1 0 8", "2 0 2 1 0 0 1", "7 0"]);
    assert_eq!(compared(&mut machine, &["4 0 2 1 3"]), 2);
    assert_eq!(compared(&mut machine, &["4 0 2 1 1"]), 64);
}

#[test]
fn every_byte_of_a_page_is_compared() {
    for address in [1280, 1281, 1407, 1408, 1535] {
        let mut machine = after(&SNAPSHOT);
        let written = format!("6 0 {address} 99");
        assert_eq!(compared(&mut machine, &[&written]), 5, "address {address}");
    }
}

#[test]
fn the_last_byte_of_page_63_is_compared() {
    let mut machine = after(&SNAPSHOT);
    assert_eq!(compared(&mut machine, &["6 0 16383 1"]), 63);
    assert_eq!(compared(&mut machine, &["6 0 16383 0"]), 64);
}

#[test]
fn page_0_is_compared() {
    let mut machine = after(&["1 0 4", "2 0 0 1 0 0 3", "7 0"]);
    assert_eq!(compared(&mut machine, &["6 0 255 1"]), 0);
}

#[test]
fn a_page_written_and_written_back_agrees_though_it_has_a_front() {
    let mut machine = after(&SNAPSHOT);
    assert_eq!(compared(&mut machine, &["6 0 1280 9"]), 5);
    assert_eq!(compared(&mut machine, &["6 0 1280 7"]), 64);
    assert_eq!(value(&mut machine, "9 0"), 3, "two backs and the front");
    // A byte written as it was takes a front and changes nothing else.
    assert_eq!(compared(&mut machine, &["6 0 1540 8"]), 64);
    assert_eq!(value(&mut machine, "9 0"), 4);
}

#[test]
fn a_page_unmapped_since_differs() {
    let mut machine = after(&SNAPSHOT);
    assert_eq!(compared(&mut machine, &["3 0 6 1"]), 6);
    assert_eq!(compared(&mut machine, &["3 0 5 1"]), 5);
}

#[test]
fn a_page_mapped_since_differs_and_agrees_again_once_unmapped() {
    let mut machine = after(&SNAPSHOT);
    assert_eq!(compared(&mut machine, &["2 0 10 1 0 0 3"]), 10);
    // Written and unmapped: unmapped in both, whatever it held.
    assert_eq!(compared(&mut machine, &["6 0 2560 1", "3 0 10 1"]), 64);
}

#[test]
fn a_page_mapped_anew_with_equal_bytes_agrees() {
    let mut machine = after(&SNAPSHOT);
    // Page 6 has one byte that is not zero: 8 at address 1540.
    assert_eq!(compared(&mut machine, &["3 0 6 1", "2 0 6 1 0 0 3"]), 6);
    assert_eq!(compared(&mut machine, &["6 0 1540 8"]), 64);
    assert!(!machine.sandbox(0).pages[6].committed, "its mark is another");
    // With other rights it differs.
    assert_eq!(compared(&mut machine, &["4 0 6 1 1"]), 6);
    // Page 63 is zero in the snapshot: mapped anew it agrees without a write.
    let mut machine = after(&SNAPSHOT);
    assert_eq!(compared(&mut machine, &["3 0 63 1", "2 0 63 1 0 0 3"]), 64);
    assert_eq!(compared(&mut machine, &["3 0 63 1", "2 0 63 1 0 0 1"]), 63);
}

#[test]
fn a_page_mapped_anew_does_not_read_its_back() {
    let mut machine = after(&SNAPSHOT);
    // Number 5 has a back with byte 7, which a page mapped anew does not read.
    assert_eq!(compared(&mut machine, &["3 0 5 1", "2 0 5 1 0 0 3"]), 5);
    assert_eq!(compared(&mut machine, &["6 0 1280 7"]), 64);
}

#[test]
fn backing_is_not_compared() {
    // Image page 0 is zero, image page 1 is filled with 2.
    let bytes = [[0; 256], [2; 256]].concat();
    let mut machine = Machine::fresh(&bytes, 128);
    accept(&mut machine, &["1 0 8", "2 0 3 1 0 0 3", "7 0"]);
    assert_eq!(compared(&mut machine, &["3 0 3 1", "2 0 3 1 1 0 3"]), 64, "a zero image page");
    assert_eq!(compared(&mut machine, &["3 0 3 1", "2 0 3 1 1 1 3"]), 3, "another image page");
    assert_eq!(compared(&mut machine, &["3 0 3 1", "2 0 3 1 1 0 1"]), 3, "with other rights");
    // And the other way about.
    let mut machine = Machine::fresh(&bytes, 128);
    accept(&mut machine, &["1 0 8", "2 0 3 1 1 0 3", "7 0"]);
    assert_eq!(compared(&mut machine, &["3 0 3 1", "2 0 3 1 0 0 3"]), 64);
}

#[test]
fn image_pages_are_compared_by_their_bytes() {
    let mut machine = Machine::fresh(&image(4), 128);
    accept(&mut machine, &["1 0 8", "2 0 0 2 1 2 3", "6 0 9 200", "7 0"]);
    assert_eq!(compared(&mut machine, &[]), 64);
    // Page 1 reads image page 3, whose bytes are 4.
    assert_eq!(compared(&mut machine, &["6 0 300 5"]), 1);
    assert_eq!(compared(&mut machine, &["6 0 300 4"]), 64);
    // Page 0 mapped anew over its own image page lacks the byte written before the snapshot.
    assert_eq!(compared(&mut machine, &["3 0 0 1", "2 0 0 1 1 2 3"]), 0);
    assert_eq!(compared(&mut machine, &["6 0 9 200"]), 64);
}

#[test]
fn the_lowest_page_is_named() {
    let mut machine = after(&["1 0 128", "2 0 0 64 0 0 3", "7 0"]);
    for page in (0..64).rev() {
        let written = format!("6 0 {} 1", 256 * page + page);
        assert_eq!(compared(&mut machine, &[&written]), page);
    }
    for page in 0..64 {
        let written_back = format!("6 0 {} 0", 256 * page + page);
        assert_eq!(compared(&mut machine, &[&written_back]), page + 1);
    }
}

#[test]
fn each_sandbox_is_compared_with_its_own_snapshot() {
    let mut machine = after(&["1 0 8", "1 1 8", "2 0 0 1 0 0 3", "2 1 0 1 0 0 3", "7 0", "7 1"]);
    accept(&mut machine, &["6 1 0 1"]);
    assert_eq!(value(&mut machine, "10 0"), 64);
    assert_eq!(value(&mut machine, "10 1"), 0);
}

#[test]
fn without_a_snapshot_it_is_refused_8() {
    let mut machine = after(&["1 0 8", "1 1 8", "2 0 0 1 0 0 3", "7 1"]);
    assert_eq!(refusal(&mut machine, "10 0"), 8);
    accept(&mut machine, &["7 0"]);
    assert_eq!(value(&mut machine, "10 0"), 64);
}

#[test]
fn refusals_come_in_their_order() {
    let mut machine = after(&["1 0 8"]);
    for (text, number) in [("10 4", 4), ("10 4 1", 4), ("10 1", 4), ("10 1 1", 4), ("10 0", 8)] {
        assert_eq!(refusal(&mut machine, text), number, "{text}");
    }
    // No parameter is used: 6 comes before 8, and stays once there is a snapshot.
    let unused = ["10 0 1", "10 0 0 1", "10 0 0 0 1", "10 0 0 0 0 1", "10 0 0 0 0 0 1"];
    for text in unused {
        assert_eq!(refusal(&mut machine, text), 6, "{text}");
    }
    accept(&mut machine, &["7 0"]);
    for text in unused {
        assert_eq!(refusal(&mut machine, text), 6, "{text}");
    }
}

#[test]
fn code_11_is_the_first_that_is_no_call() {
    let mut machine = after(&["1 0 8", "7 0"]);
    assert_eq!(value(&mut machine, "10 0"), 64);
    assert_eq!(refusal(&mut machine, "11 0"), 2);
    // Over a wrong length call 10 is refused 3, code 11 still 2.
    let mut machine = Machine::fresh(&[0; 255], 128);
    assert_eq!(refusal(&mut machine, "10 0"), 3);
    assert_eq!(refusal(&mut machine, "11 0"), 2);
}

/// "The answer equals that of comparing all 64 pages", told in another way: the page that is named
/// is the lowest of which a rewind changes anything that can be read, and 64 means none.
#[test]
fn the_page_named_is_the_lowest_that_a_rewind_changes() {
    let seen = |sandbox: &Sandbox| {
        let read = |page: &model::Page| page.mapped.then_some((page.rights, page.bytes));
        sandbox.pages.iter().map(read).collect::<Vec<_>>()
    };
    let middles: [&[&str]; 6] = [
        &[],
        &["6 0 1280 7"],
        &["6 0 1280 6"],
        &["3 0 63 1", "2 0 63 1 0 0 3"],
        &["4 0 5 1 1"],
        &["2 0 64 1 0 0 3"],
    ];
    for middle in middles {
        let mut machine = after(&SNAPSHOT);
        let page = compared(&mut machine, middle) as usize;
        let before = seen(machine.sandbox(0));
        accept(&mut machine, &["8 0"]);
        let after = seen(machine.sandbox(0));
        assert_eq!(before.iter().zip(&after).position(|(a, b)| a != b).unwrap_or(64), page);
    }
}

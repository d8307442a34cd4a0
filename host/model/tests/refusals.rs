//! "Turned back": every row with its example, and the order of the rows.

use crate::common::{accept, after, image, refusal, roll, value};
use model::{play, Machine};

#[test]
fn row_1_line_malformed() {
    let mut line = roll(&["5 0 0"]);
    line[..6].copy_from_slice(b"    05");
    assert_eq!(play(&line, None, 128), b"     1     1     0\n");
}

#[test]
fn row_2_call_code() {
    let mut machine = after(&["1 0 8"]);
    for text in ["0 0", "11 0", "65535 0", "0 4", "11 9 9 9 9 9 9"] {
        assert_eq!(refusal(&mut machine, text), 2, "{text}");
    }
}

#[test]
fn row_3_lent_length() {
    // The example is "a pool of 255 bytes": no whole frame.
    for mut machine in [
        Machine::fresh(&[], 0),
        Machine::fresh(&[], 129),
        Machine::fresh(&[0; 255], 128),
        Machine::fresh(&image(65), 128),
    ] {
        assert_eq!(refusal(&mut machine, "1 0 1"), 3);
        assert_eq!(refusal(&mut machine, "5 4 0"), 3);
        assert_eq!(refusal(&mut machine, "0 0"), 2);
    }
}

#[test]
fn row_4_sandbox() {
    let mut machine = after(&["1 0 8"]);
    for text in
        ["5 4 0", "1 4 8", "1 65535 8", "9 1", "9 1 1", "2 3 64 1 0 0 3", "8 2", "10 2", "10 4"]
    {
        assert_eq!(refusal(&mut machine, text), 4, "{text}");
    }
}

#[test]
fn row_5_open_of_an_open_sandbox() {
    let mut machine = after(&["1 0 8"]);
    for text in ["1 0 8", "1 0 0", "1 0 8 1", "1 0 128"] {
        assert_eq!(refusal(&mut machine, text), 5, "{text}");
    }
}

#[test]
fn row_6_parameters() {
    let mut machine = Machine::fresh(&image(5), 128);
    accept(&mut machine, &["1 0 64", "2 0 60 4 0 0 3"]);
    let outside = [
        "1 1 0",
        "1 1 129",
        "1 1 65535",
        "1 1 8 1",
        "1 1 8 0 1",
        "1 1 8 0 0 1",
        "1 1 8 0 0 0 1",
        "2 0 63 2 0 0 3",
        "2 0 65 1 0 0 3",
        "2 0 0 65 0 0 3",
        "2 0 1 64 0 0 3",
        "2 0 0 0 0 0 3",
        "2 0 64 0 0 0 3",
        "2 0 64 65 0 0 3",
        "2 0 65535 1 0 0 3",
        "2 0 63 65535 0 0 3",
        "2 0 0 1 2 0 3",
        "2 0 0 1 0 1 3",
        "2 0 0 1 0 0 0",
        "2 0 0 1 0 0 2",
        "2 0 0 1 0 0 4",
        "2 0 0 1 1 5 3",
        "2 0 0 2 1 4 3",
        "2 0 0 6 1 0 3",
        "2 0 0 1 1 65535 3",
        "2 0 64 1 1 5 3",
        "3 0 64 1",
        "3 0 63 2",
        "3 0 63 0",
        "3 0 0 65",
        "3 0 60 1 1",
        "3 0 60 1 0 1",
        "3 0 60 1 0 0 1",
        "4 0 64 1 1",
        "4 0 60 5 1",
        "4 0 60 0 1",
        "4 0 60 1 0",
        "4 0 60 1 2",
        "4 0 60 1 4",
        "4 0 60 1 1 1",
        "4 0 60 1 1 0 1",
        "5 0 16384",
        "5 0 65535",
        "5 0 16383 1",
        "5 0 16383 0 1",
        "5 0 16383 0 0 1",
        "5 0 16383 0 0 0 1",
        "6 0 16384 1",
        "6 0 16383 256",
        "6 0 16383 1 1",
        "6 0 16383 1 0 1",
        "6 0 16383 1 0 0 1",
        "7 0 1",
        "7 0 0 1",
        "7 0 0 0 1",
        "7 0 0 0 0 1",
        "7 0 0 0 0 0 1",
        "8 0 1",
        "8 0 0 1",
        "8 0 0 0 1",
        "8 0 0 0 0 1",
        "8 0 0 0 0 0 1",
        "9 0 1",
        "9 0 0 1",
        "9 0 0 0 1",
        "9 0 0 0 0 1",
        "9 0 0 0 0 0 1",
        "10 0 1",
        "10 0 0 1",
        "10 0 0 0 1",
        "10 0 0 0 0 1",
        "10 0 0 0 0 0 1",
    ];
    for text in outside {
        assert_eq!(refusal(&mut machine, text), 6, "{text}");
    }
    let inside = [
        "2 0 0 5 1 0 3",
        "2 0 64 1 1 4 1",
        "3 0 63 1",
        "4 0 60 3 1",
        "5 0 15360",
        "4 0 60 1 3",
        "6 0 15360 255",
    ];
    accept(&mut machine, &inside);
}

#[test]
fn row_7_snapshot_already_taken() {
    let mut machine = after(&["1 0 8", "7 0"]);
    assert_eq!(refusal(&mut machine, "7 0"), 7);
    accept(&mut machine, &["8 0"]);
    assert_eq!(refusal(&mut machine, "7 0"), 7);
}

#[test]
fn row_8_rewind_or_compare_without_a_snapshot() {
    for text in ["8 0", "10 0"] {
        assert_eq!(refusal(&mut after(&["1 0 8"]), text), 8, "{text}");
        assert_eq!(refusal(&mut after(&["1 0 8", "1 1 8", "7 1"]), text), 8, "{text}");
    }
}

#[test]
fn row_9_meets_an_unmapped_page() {
    let mut machine = after(&["1 0 8"]);
    assert_eq!(refusal(&mut machine, "5 0 16383"), 9);
    accept(&mut machine, &["2 0 2 2 0 0 3", "2 0 5 1 0 0 3"]);
    for text in ["4 0 1 2 1", "4 0 2 4 1", "4 0 7 1 3", "5 0 511", "5 0 1024", "6 0 1024 1"] {
        assert_eq!(refusal(&mut machine, text), 9, "{text}");
    }
    // "Refusal 9 remains for protect, read and write": unmap passes over the same pages.
    accept(&mut machine, &["3 0 7 1", "3 0 1 2", "3 0 3 3"]);
}

#[test]
fn row_10_named_map_meets_a_mapped_page() {
    let mut machine = after(&["1 0 8", "2 0 0 1 0 0 3"]);
    assert_eq!(refusal(&mut machine, "2 0 0 1 0 0 3"), 10);
    accept(&mut machine, &["2 0 5 1 0 0 3"]);
    assert_eq!(refusal(&mut machine, "2 0 3 4 0 0 3"), 10);
    assert_eq!(refusal(&mut machine, "2 0 4 2 0 0 3"), 10);
}

#[test]
fn row_11_no_gap_fits() {
    let mut machine = after(&["1 0 64", "2 0 0 64 0 0 3"]);
    assert_eq!(refusal(&mut machine, "2 0 64 1 0 0 3"), 11);
    accept(&mut machine, &["3 0 20 3"]);
    assert_eq!(refusal(&mut machine, "2 0 64 4 0 0 3"), 11);
    assert_eq!(value(&mut machine, "2 0 64 3 0 0 3"), 20);
}

#[test]
fn row_12_write_without_the_right() {
    let mut machine = after(&["1 0 8", "2 0 0 1 0 0 1"]);
    assert_eq!(refusal(&mut machine, "6 0 0 1"), 12);
    assert_eq!(value(&mut machine, "5 0 0"), 0, "a read needs no right");
}

#[test]
fn row_13_frames_that_cannot_be_promised() {
    let mut machine = after(&["1 0 8"]);
    assert_eq!(refusal(&mut machine, "2 0 64 9 0 0 3"), 13);
    assert_eq!(refusal(&mut machine, "1 1 121"), 13);
    accept(&mut machine, &["1 1 120", "2 0 64 8 0 0 3"]);
    assert_eq!(refusal(&mut machine, "1 2 1"), 13);
    assert_eq!(refusal(&mut machine, "7 0"), 13);
}

#[test]
fn row_13_the_charge_counts_snapshot_pages_that_are_unmapped() {
    let mut machine = after(&["1 0 8", "2 0 0 3 0 0 3", "7 0", "3 0 0 3", "2 0 0 2 0 0 3"]);
    assert_eq!(refusal(&mut machine, "2 0 2 1 0 0 3"), 13);
}

#[test]
fn row_14_more_than_eight_areas() {
    let mut machine = after(&["1 0 16"]);
    for page in (0..=14).step_by(2) {
        accept(&mut machine, &[&format!("2 0 {page} 1 0 0 3")]);
    }
    assert_eq!(refusal(&mut machine, "2 0 16 1 0 0 3"), 14);
    // A page between two areas that agree with it makes one area of three.
    accept(&mut machine, &["2 0 1 1 0 0 3", "2 0 16 1 0 0 3"]);
    // Unmap and protect can split an area.
    assert_eq!(refusal(&mut machine, "3 0 1 1"), 14);
    assert_eq!(refusal(&mut machine, "4 0 1 1 1"), 14);
    assert_eq!(refusal(&mut machine, "4 0 0 1 1"), 14);
    accept(&mut machine, &["3 0 16 1", "4 0 0 1 1", "3 0 14 1", "4 0 0 1 3"]);
}

#[test]
fn row_14_areas_agree_in_mark_and_backing_too() {
    let mut machine = Machine::fresh(&image(64), 128);
    // Image pages running on make one area, whichever way they were mapped.
    accept(&mut machine, &["1 0 128", "2 0 0 30 1 10 3", "2 0 30 20 1 40 3"]);
    assert_eq!(machine.sandbox(0).areas(), 1);
    accept(
        &mut machine,
        &["2 0 50 1 1 61 3", "2 0 51 1 1 61 3", "2 0 52 1 0 0 3", "2 0 53 1 0 0 1"],
    );
    assert_eq!(machine.sandbox(0).areas(), 5);
    // An uncommitted page beside a committed one is an area of its own.
    accept(&mut machine, &["7 0", "3 0 53 1", "2 0 53 1 0 0 3"]);
    assert_eq!(machine.sandbox(0).areas(), 5);
}

#[test]
fn the_lowest_number_is_answered() {
    let mut machine = after(&["1 0 8", "2 0 0 4 0 0 1", "7 0"]);
    for (text, number) in [
        ("1 4 0 1", 4),
        ("7 0 1", 6),
        ("8 1 1", 4),
        ("5 0 16384 1", 6),
        ("6 0 0 256", 6),
        ("6 0 1024 1", 9),
        ("6 0 0 1", 12),
        ("2 0 3 9 0 0 3", 10),
        ("2 0 64 61 0 0 3", 11),
        ("2 0 64 60 0 0 3", 13),
        ("3 0 3 62", 6),
        ("4 0 3 62 3", 6),
        ("4 0 3 2 3", 9),
    ] {
        assert_eq!(refusal(&mut machine, text), number, "{text}");
    }
    // A ninth area that the share has no room for either: 13 before 14.
    let mut machine = after(&["1 0 8"]);
    for page in (0..=14).step_by(2) {
        accept(&mut machine, &[&format!("2 0 {page} 1 0 0 3")]);
    }
    assert_eq!(refusal(&mut machine, "2 0 16 1 0 0 3"), 13);
    // A protect that would make a ninth area, with an unmapped page in its range: 9 before 14.
    accept(&mut machine, &["1 1 16"]);
    for page in (0..=14).step_by(2) {
        accept(&mut machine, &[&format!("2 1 {page} 1 0 0 3")]);
    }
    accept(&mut machine, &["2 1 15 1 0 0 3"]);
    assert_eq!(refusal(&mut machine, "4 1 15 1 1"), 14);
    assert_eq!(refusal(&mut machine, "4 1 15 2 1"), 9);
}

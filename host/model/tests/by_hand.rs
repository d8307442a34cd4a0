//! "Checked by hand". The first starred line is in `document_roll.rs` too.

use crate::common::{after, call, image, refusal, value};
use model::{Answering, Machine};

#[test]
fn two_reads_and_two_reports_of_the_documents_roll() {
    let mut machine = after(&["1 0 8", "2 0 64 2 0 0 3", "6 0 5 7", "7 0", "6 0 5 9", "6 0 300 4"]);
    assert_eq!(call(&mut machine, "9 0"), (0, 3));
    assert_eq!(call(&mut machine, "8 0"), (0, 2));
    assert_eq!(call(&mut machine, "5 0 5"), (0, 7));
    assert_eq!(call(&mut machine, "5 0 300"), (0, 0));
    assert_eq!(call(&mut machine, "9 0"), (0, 3));
}

#[test]
fn share_8_and_4_pages_mapped_snapshot_answers_4() {
    let mut machine = after(&["1 0 8", "2 0 64 4 0 0 3"]);
    assert_eq!(call(&mut machine, "7 0"), (0, 4));
}

#[test]
fn share_8_and_5_pages_mapped_snapshot_is_refused_13() {
    let mut machine = after(&["1 0 8", "2 0 64 5 0 0 3"]);
    assert_eq!(refusal(&mut machine, "7 0"), 13);
}

#[test]
fn that_snapshot_of_4_then_one_more_page_is_refused_13() {
    let mut machine = after(&["1 0 8", "2 0 64 4 0 0 3", "7 0"]);
    assert_eq!(refusal(&mut machine, "2 0 64 1 0 0 3"), 13);
    assert_eq!(refusal(&mut machine, "2 0 20 1 0 0 3"), 13);
}

#[test]
fn a_snapshot_of_no_pages_answers_0_and_rewind_is_accepted() {
    let mut machine = after(&["1 0 8"]);
    assert_eq!(call(&mut machine, "7 0"), (0, 0));
    assert_eq!(call(&mut machine, "8 0"), (0, 0));
    assert_eq!(call(&mut machine, "9 0"), (0, 0));
}

#[test]
fn a_committed_page_unmapped_and_rewound_reads_its_snapshot_byte() {
    let mut machine = after(&["1 0 8", "2 0 3 1 0 0 3", "6 0 770 77", "7 0", "3 0 3 1"]);
    assert_eq!(refusal(&mut machine, "5 0 770"), 9);
    assert_eq!(call(&mut machine, "8 0"), (0, 0));
    assert_eq!(call(&mut machine, "5 0 770"), (0, 77));
}

#[test]
fn a_named_map_of_64_pages_at_0_needs_a_share_of_64() {
    assert_eq!(call(&mut after(&["1 0 128"]), "2 0 0 64 0 0 3"), (0, 0));
    assert_eq!(call(&mut after(&["1 0 64"]), "2 0 0 64 0 0 3"), (0, 0));
    assert_eq!(refusal(&mut after(&["1 0 63"]), "2 0 0 64 0 0 3"), 13);
}

#[test]
fn address_16383_on_a_mapped_page_63_reads_and_16384_is_refused_6() {
    let mut machine = after(&["1 0 8", "2 0 63 1 0 0 3", "6 0 16383 5"]);
    assert_eq!(call(&mut machine, "5 0 16383"), (0, 5));
    assert_eq!(refusal(&mut machine, "5 0 16384"), 6);
    assert_eq!(refusal(&mut machine, "6 0 16384 5"), 6);
}

#[test]
fn the_literal_call_answers_as_the_line_does() {
    let mut machine = Machine::fresh(&image(3), 20);
    assert_eq!(machine.call(1, 0, 20, 0, 0, 0, 0), (0, 0));
    assert_eq!(machine.call(2, 0, 64, 2, 1, 1, 3), (0, 0));
    assert_eq!(machine.call(5, 0, 256, 0, 0, 0, 0), (0, 3));
    assert_eq!(machine.answer(&crate::common::short("5 0 255")), (0, 2));
    assert_eq!(value(&mut machine, "9 0"), 0);
}

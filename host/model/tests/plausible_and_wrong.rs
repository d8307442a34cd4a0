//! "Plausible and wrong": the right behaviour holds. Then "What a contract must
//! hold", item 3, in the same way.

use crate::common::{accept, after, image, refusal, value};
use model::Machine;

#[test]
fn a_new_place_does_not_tell_what_was_mapped_before_the_rewind() {
    let start = after(&["1 0 32", "2 0 0 2 0 0 3", "2 0 9 1 0 0 3", "7 0"]);
    let middles: [&[&str]; 6] = [
        &[],
        &["2 0 64 5 0 0 3"],
        &["2 0 30 2 0 0 3"],
        &["2 0 2 7 0 0 3", "3 0 4 2"],
        &["3 0 0 2"],
        &["3 0 0 2", "2 0 0 1 0 0 3", "2 0 63 1 0 0 3"],
    ];
    for middle in middles {
        let mut machine = start.clone();
        accept(&mut machine, middle);
        accept(&mut machine, &["8 0"]);
        assert_eq!(value(&mut machine, "2 0 64 8 0 0 3"), 10, "{middle:?}");
        assert_eq!(value(&mut machine, "2 0 64 3 0 0 3"), 2, "{middle:?}");
    }
}

#[test]
fn the_snapshot_keeps_its_frame_when_the_number_is_mapped_anew() {
    let mut machine = after(&["1 0 8", "2 0 5 1 0 0 3", "6 0 1281 99", "7 0"]);
    accept(&mut machine, &["3 0 5 1", "2 0 5 1 0 0 3"]);
    assert_eq!(value(&mut machine, "5 0 1281"), 0);
    assert_eq!(value(&mut machine, "9 0"), 1, "the back is still held");
    accept(&mut machine, &["6 0 1281 55"]);
    assert_eq!(value(&mut machine, "9 0"), 2, "a front beside it");
    accept(&mut machine, &["8 0"]);
    assert_eq!(value(&mut machine, "5 0 1281"), 99);
    assert!(!machine.sandbox(0).pages[5].front, "the page mapped anew loses its front");
    assert_eq!(value(&mut machine, "9 0"), 2, "whose frame is kept beside the back");
}

#[test]
fn the_old_content_of_an_image_page_is_the_images() {
    let mut machine = Machine::fresh(&image(4), 128);
    accept(&mut machine, &["1 0 8", "2 0 0 2 1 2 3", "6 0 0 200"]);
    assert_eq!(value(&mut machine, "5 0 1"), 3, "beside the written byte");
    accept(&mut machine, &["7 0", "6 0 256 201", "6 0 1 202"]);
    assert_eq!(value(&mut machine, "5 0 257"), 4);
    accept(&mut machine, &["8 0"]);
    assert_eq!(value(&mut machine, "5 0 0"), 200);
    assert_eq!(value(&mut machine, "5 0 1"), 3);
    assert_eq!(value(&mut machine, "5 0 256"), 4);
}

#[test]
fn a_rewind_restores_rights_too() {
    let mut machine = after(&["1 0 8", "2 0 0 1 0 0 3", "2 0 1 1 0 0 1", "7 0"]);
    accept(&mut machine, &["4 0 0 1 1", "4 0 1 1 3", "6 0 256 9", "8 0"]);
    accept(&mut machine, &["6 0 0 9"]);
    assert_eq!(refusal(&mut machine, "6 0 256 9"), 12);
    assert_eq!(value(&mut machine, "5 0 256"), 0);
}

#[test]
fn every_rewind_restores_and_not_just_the_first() {
    let mut machine = after(&["1 0 8", "2 0 0 1 0 0 3", "6 0 7 1", "7 0"]);
    for byte in 2..=9 {
        accept(&mut machine, &[&format!("6 0 7 {byte}"), "2 0 64 1 0 0 3"]);
        accept(&mut machine, &["8 0"]);
        assert_eq!(value(&mut machine, "5 0 7"), 1);
        assert_eq!(refusal(&mut machine, "5 0 256"), 9);
    }
}

#[test]
fn the_held_count_is_fronts_backs_and_kept_frames() {
    let mut machine = after(&["1 0 16", "2 0 0 4 0 0 3"]);
    assert_eq!(value(&mut machine, "9 0"), 0, "mapping takes no frame");
    accept(&mut machine, &["5 0 0", "6 0 0 1", "6 0 1 0", "6 0 600 1"]);
    assert_eq!(value(&mut machine, "9 0"), 2);
    accept(&mut machine, &["7 0"]);
    assert_eq!(value(&mut machine, "9 0"), 2, "fronts became backs");
    accept(&mut machine, &["6 0 0 1", "6 0 256 1", "2 0 4 1 0 0 3", "6 0 1024 1"]);
    assert_eq!(value(&mut machine, "9 0"), 5);
    accept(&mut machine, &["3 0 0 1"]);
    assert_eq!(value(&mut machine, "9 0"), 4, "a front less, the back stays");
    accept(&mut machine, &["8 0"]);
    assert_eq!(value(&mut machine, "9 0"), 4, "backs 0 and 2, front 1, and page 4's frame is kept");
}

#[test]
fn a_share_that_suffices_is_never_refused_13() {
    let mut machine = after(&["1 0 9", "1 1 119", "2 0 0 9 0 0 3", "3 0 4 5", "7 0"]);
    accept(&mut machine, &["2 0 64 1 0 0 3", "3 0 4 1", "3 0 0 4", "2 0 0 1 0 0 3"]);
    assert_eq!(refusal(&mut machine, "2 0 64 1 0 0 3"), 13);
    accept(&mut machine, &["8 0", "2 0 64 1 0 0 3", "2 1 0 59 0 0 3", "7 1"]);
}

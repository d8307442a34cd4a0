//! What a map at 64 takes, and that nothing is read from it.

use super::requests::{assert_kept, fronts, keeping, opened, request};
use crate::common::{accept, image, refusal, value};
use model::Machine;

#[test]
fn a_map_takes_the_shortest_run_that_suffices() {
    let lengths = [4, 2, 3, 2, 6];
    for (pages, left) in [
        (1, &[4, 1, 3, 2, 6][..]),
        (2, &[4, 3, 2, 6]),
        (3, &[4, 2, 2, 6]),
        (4, &[2, 3, 2, 6]),
        (5, &[4, 2, 3, 2, 1]),
        (6, &[4, 2, 3, 2]),
    ] {
        let mut machine = keeping(&lengths);
        assert_kept(&mut machine, &lengths);
        assert_eq!(value(&mut machine, &format!("2 0 64 {pages} 0 0 3")), 0);
        assert_kept(&mut machine, left);
        assert_eq!(fronts(&machine), (0..pages).collect::<Vec<_>>(), "{pages} pages");
        assert_eq!(value(&mut machine, "9 0"), 17, "no frame is gained or lost");
    }
}

#[test]
fn where_none_suffices_it_takes_the_longest_alone() {
    let mut machine = keeping(&[2, 4, 1, 4]);
    accept(&mut machine, &["2 0 64 5 0 0 3"]);
    // Of the two of four frames the older; the fifth page gets no front.
    assert_kept(&mut machine, &[2, 1, 4]);
    assert_eq!(fronts(&machine), [0, 1, 2, 3]);
    assert_eq!(value(&mut machine, "9 0"), 11);
    accept(&mut machine, &["6 0 768 1"]);
    assert_eq!(value(&mut machine, "9 0"), 11, "page 3 has a front");
    accept(&mut machine, &["6 0 1024 1"]);
    assert_eq!(value(&mut machine, "9 0"), 12, "page 4 takes one");
}

#[test]
fn whatever_the_rights_and_the_place() {
    // Rights 1; and the first new pages are those of the lowest gap.
    let mut machine = keeping(&[2]);
    accept(&mut machine, &["2 0 0 5 0 0 3"]);
    assert_eq!(value(&mut machine, "2 0 64 3 0 0 1"), 5);
    assert_eq!(fronts(&machine), [5, 6]);
    assert_kept(&mut machine, &[]);
    assert_eq!(refusal(&mut machine, "6 0 1280 1"), 12);
}

#[test]
fn no_run_is_taken_by_a_named_map_an_image_map_or_a_refused_one() {
    let mut machine = Machine::fresh(&image(4), 128);
    accept(&mut machine, &["1 0 8", "7 0"]);
    request(&mut machine, &[3]);
    for text in ["2 0 0 2 0 0 3", "2 0 64 2 1 0 3", "2 0 20 2 1 0 3"] {
        accept(&mut machine, &[text]);
        assert_kept(&mut machine, &[3]);
    }
    assert_eq!(fronts(&machine), []);
    // Refused 13: the charge would be 9; 6: past the image, or a wrong parameter; 11: no gap.
    assert_eq!(refusal(&mut machine, "2 0 64 3 0 0 3"), 13);
    assert_eq!(refusal(&mut machine, "2 0 64 1 0 1 3"), 6);
    assert_eq!(refusal(&mut machine, "2 0 64 64 0 0 3"), 11);
    assert_kept(&mut machine, &[3]);
}

#[test]
fn without_a_run_a_map_takes_none() {
    let mut machine = opened(16);
    accept(&mut machine, &["2 0 64 4 0 0 3"]);
    assert_eq!(fronts(&machine), []);
    assert_eq!(value(&mut machine, "9 0"), 0);
}

#[test]
fn a_surplus_stays_kept_with_its_age() {
    let mut machine = keeping(&[3, 2]);
    accept(&mut machine, &["2 0 64 3 0 0 3"]);
    assert_kept(&mut machine, &[2]);
    let mut machine = keeping(&[5, 2]);
    accept(&mut machine, &["2 0 64 3 0 0 3"]);
    assert_kept(&mut machine, &[2, 2]);
    // The older of the two equals is the surplus: the next map of 2 pages takes it.
    accept(&mut machine, &["2 0 64 1 0 0 3"]);
    assert_kept(&mut machine, &[1, 2]);
}

/// "Places, bytes and refusals are those of a machine that keeps nothing."
#[test]
fn nothing_of_the_request_is_read_from_a_run() {
    let mut machine = opened(16);
    accept(&mut machine, &["2 0 64 3 0 0 3"]);
    for address in 0..768 {
        accept(&mut machine, &[&format!("6 0 {address} 99")]);
    }
    accept(&mut machine, &["8 0"]);
    assert_eq!(refusal(&mut machine, "5 0 0"), 9);
    assert_kept(&mut machine, &[3]);
    assert_eq!(value(&mut machine, "2 0 64 4 0 0 3"), 0);
    for address in 0..1024 {
        assert_eq!(value(&mut machine, &format!("5 0 {address}")), 0, "address {address}");
    }
    assert_eq!(value(&mut machine, "10 0"), 0, "page 0 is mapped since");
}

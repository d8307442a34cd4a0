//! "How many pages were put back?": the value of a rewind, by hand. It is read off the request's
//! words: "the number of committed pages still mapped whose bytes differed from the snapshot".

use crate::common::{accept, after, call, image, refusal, value};
use model::{Machine, Sandbox};

/// Pages 5, 6 and 7, of which 5 and 6 were written before the snapshot, and page 63.
const SNAPSHOT: [&str; 6] =
    ["1 0 16", "2 0 5 3 0 0 3", "2 0 63 1 0 0 3", "6 0 1280 7", "6 0 1540 8", "7 0"];

/// The value of a rewind after calls that are accepted; a second one right behind it answers 0.
#[track_caller]
fn put_back(machine: &mut Machine, texts: &[&str]) -> u32 {
    accept(machine, texts);
    let pages = value(machine, "8 0");
    assert_eq!(call(&mut machine.clone(), "8 0"), (0, 0), "a second rewind");
    pages
}

#[track_caller]
fn put_back_after(texts: &[&str]) -> u32 {
    put_back(&mut after(&SNAPSHOT), texts)
}

#[test]
fn pages_that_differ_are_counted() {
    assert_eq!(put_back_after(&[]), 0);
    assert_eq!(put_back_after(&["6 0 1280 9"]), 1);
    assert_eq!(put_back_after(&["6 0 1280 9", "6 0 1536 1", "6 0 1792 1"]), 3);
    // However many bytes of it differ, a page counts once.
    assert_eq!(put_back_after(&["6 0 1280 9", "6 0 1281 9", "6 0 1535 9"]), 1);
}

#[test]
fn all_64_pages_are_counted() {
    for backs in [false, true] {
        let mut machine = after(&["1 0 128", "2 0 0 64 0 0 3"]);
        let write = |machine: &mut Machine, page: u32, byte: u32| {
            accept(machine, &[&format!("6 0 {} {byte}", 257 * page)])
        };
        (0..64).filter(|_| backs).for_each(|page| write(&mut machine, page, 1));
        accept(&mut machine, &["7 0"]);
        for dirty in [1, 2, 7, 63, 64] {
            (64 - dirty..64).for_each(|page| write(&mut machine, page, 2));
            assert_eq!(put_back(&mut machine, &[]), dirty);
        }
    }
}

#[test]
fn every_byte_is_compared() {
    for offset in 0..256 {
        for page in [5, 6, 7, 63] {
            let write = format!("6 0 {} 99", 256 * page + offset);
            assert_eq!(put_back_after(&[&write]), 1, "byte {offset} of page {page}");
        }
    }
}

#[test]
fn a_page_written_and_written_back_is_not() {
    assert_eq!(put_back_after(&["6 0 1280 9", "6 0 1280 7"]), 0);
    assert_eq!(put_back_after(&["6 0 1280 9", "6 0 1281 1", "6 0 1280 7"]), 1);
    assert_eq!(put_back_after(&["6 0 1280 9", "6 0 1281 1", "6 0 1280 7", "6 0 1281 0"]), 0);
    // A byte written as it was takes a front and changes nothing else.
    assert_eq!(put_back_after(&["6 0 1540 8", "6 0 1792 0"]), 0);
}

#[test]
fn a_page_unmapped_is_not_whatever_it_held() {
    assert_eq!(put_back_after(&["3 0 5 3"]), 0);
    assert_eq!(put_back_after(&["6 0 1280 9", "6 0 1536 9", "3 0 5 1"]), 1);
}

#[test]
fn a_page_mapped_anew_is_not_whatever_it_holds() {
    assert_eq!(put_back_after(&["3 0 5 1", "2 0 5 1 0 0 3"]), 0);
    assert_eq!(put_back_after(&["3 0 5 1", "2 0 5 1 0 0 3", "6 0 1280 9"]), 0);
    // A rewind brings it back, committed: from then on it is counted again.
    let mut machine = after(&SNAPSHOT);
    assert_eq!(put_back(&mut machine, &["3 0 5 1", "2 0 5 1 0 0 3", "6 0 1280 9"]), 0);
    assert_eq!(put_back(&mut machine, &["6 0 1280 9"]), 1);
}

#[test]
fn a_page_mapped_since_is_not() {
    assert_eq!(put_back_after(&["2 0 0 2 0 0 3", "6 0 0 1", "6 0 256 1"]), 0);
    // Nor in a sandbox whose snapshot has no page.
    assert_eq!(put_back(&mut after(&["1 0 4", "7 0", "2 0 0 2 0 0 3", "6 0 0 1"]), &[]), 0);
}

#[test]
fn rights_do_not_count() {
    assert_eq!(put_back_after(&["4 0 5 3 1"]), 0);
    // And do not keep a page that differs from being counted.
    assert_eq!(put_back_after(&["6 0 1280 9", "4 0 5 3 1"]), 1);
}

#[test]
fn the_snapshots_bytes_are_the_backs_the_images_or_zeros() {
    // Pages 0 and 1 over image pages 2 and 3, whose bytes are 3 and 4; page 0 is written, so that
    // it has a back. Page 2 is anonymous.
    let start = ["1 0 8", "2 0 0 2 1 2 3", "2 0 2 1 0 0 3", "6 0 9 200", "7 0"];
    let after = |texts: &[&str]| {
        let mut machine = Machine::fresh(&image(4), 128);
        accept(&mut machine, &start);
        put_back(&mut machine, texts)
    };
    assert_eq!(after(&["6 0 9 3"]), 1, "the image's byte, and not the back's");
    assert_eq!(after(&["6 0 9 200", "6 0 10 3"]), 0, "the back's bytes");
    assert_eq!(after(&["6 0 256 0"]), 1, "zero, and not the image's");
    assert_eq!(after(&["6 0 256 4"]), 0, "the image's byte");
    assert_eq!(after(&["6 0 512 4"]), 1, "not zero");
    assert_eq!(after(&["6 0 512 0"]), 0, "zero");
    // A page mapped anew over another image page is not committed.
    assert_eq!(after(&["3 0 1 1", "2 0 1 1 1 0 3"]), 0);
}

#[test]
fn each_rewind_counts_what_came_since_the_one_before() {
    let mut machine = after(&SNAPSHOT);
    assert_eq!(put_back(&mut machine, &["6 0 1280 9", "6 0 1536 9", "6 0 1792 9"]), 3);
    // The three fronts stay, and hold the snapshot's bytes.
    assert_eq!(put_back(&mut machine, &[]), 0);
    assert_eq!(put_back(&mut machine, &["6 0 1792 9"]), 1);
    assert_eq!(put_back(&mut machine, &["6 0 1792 9", "6 0 1280 1"]), 2);
}

#[test]
fn each_sandbox_counts_its_own_pages() {
    let mut machine = after(&["1 0 8", "1 1 8", "2 0 0 2 0 0 3", "2 1 0 2 0 0 3", "7 0", "7 1"]);
    accept(&mut machine, &["6 1 0 1", "6 1 256 1", "6 0 0 1"]);
    assert_eq!(value(&mut machine, "8 0"), 1);
    assert_eq!(value(&mut machine, "8 1"), 2);
}

#[test]
fn a_refused_rewind_answers_0() {
    let mut machine = after(&["1 0 8", "2 0 0 2 0 0 3", "6 0 0 1"]);
    assert_eq!(refusal(&mut machine, "8 0"), 8);
    accept(&mut machine, &["7 0", "6 0 0 2"]);
    for (text, number) in [("8 0 1", 6), ("8 0 0 0 0 0 1", 6), ("8 1", 4), ("8 4", 4)] {
        assert_eq!(refusal(&mut machine, text), number, "{text}");
    }
    assert_eq!(value(&mut machine, "8 0"), 1);
}

/// Told in another way: the pages that are committed before the rewind and read other bytes behind
/// it. Where there is one, a compare before the rewind finds a difference.
#[test]
fn the_pages_counted_are_those_whose_bytes_the_rewind_changes() {
    let committed = |sandbox: &Sandbox| sandbox.pages.map(|page| page.committed);
    let bytes = |sandbox: &Sandbox| sandbox.pages.map(|page| page.bytes);
    let middles: [&[&str]; 6] = [
        &["6 0 1280 9", "6 0 1792 9"],
        &["6 0 1280 9", "6 0 1792 9", "6 0 1280 7"],
        &["6 0 1280 9", "3 0 5 1", "6 0 16383 9"],
        &["3 0 5 2", "2 0 5 2 0 0 3", "6 0 1536 1", "6 0 1792 1"],
        &["4 0 5 3 1", "2 0 0 3 0 0 3", "6 0 256 1"],
        &["6 0 16383 9", "6 0 16383 0"],
    ];
    let mut clean = 0;
    for middle in middles {
        let mut machine = after(&SNAPSHOT);
        accept(&mut machine, middle);
        let (was_committed, were) = (committed(machine.sandbox(0)), bytes(machine.sandbox(0)));
        let compared = value(&mut machine, "10 0");
        let counted = value(&mut machine, "8 0");
        let are = bytes(machine.sandbox(0));
        let changed = (0..64).filter(|&at| was_committed[at] && were[at] != are[at]).count();
        assert_eq!(counted as usize, changed, "{middle:?}");
        assert!(counted == 0 || compared < 64, "{middle:?}");
        clean += usize::from(compared == 64);
    }
    assert_eq!(clean, 1);
}

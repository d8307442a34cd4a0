//! The four cases of a rewind, by hand: "page shared with the snapshot (no front), page with a copy
//! (front and back), zeroed page (front alone, anonymous), then the image page (front alone,
//! image)". Each page is read, and reports tell which frames stay.

use crate::common::{accept, call, image, value};
use model::{Machine, RewindCase};

/// Pages 0 to 2, anonymous, and pages 3 to 5 over image pages 1 to 3, whose bytes are 2, 3 and 4.
/// Pages 0 and 3 are written before the snapshot, so that they have backs.
const SNAPSHOT: [&str; 6] =
    ["1 0 16", "2 0 0 3 0 0 3", "2 0 3 3 1 1 3", "6 0 9 100", "6 0 777 103", "7 0"];

fn taken() -> Machine {
    let mut machine = Machine::fresh(&image(4), 128);
    accept(&mut machine, &SNAPSHOT);
    machine
}

/// The cases of pages 0 to 5 as they are now.
fn cases(machine: &Machine) -> [Option<RewindCase>; 6] {
    std::array::from_fn(|at| RewindCase::of(&machine.sandbox(0).pages[at]))
}

/// Bytes 9 and 10 of each page are the snapshot's.
#[track_caller]
fn assert_reads_as_taken(machine: &mut Machine) {
    let expected = [[100, 0], [0, 0], [0, 0], [103, 2], [3, 3], [4, 4]];
    for (page, bytes) in expected.into_iter().enumerate() {
        let read = [9, 10].map(|offset| value(machine, &format!("5 0 {}", 256 * page + offset)));
        assert_eq!(read, bytes, "page {page}");
    }
    assert_eq!(value(machine, "10 0"), 64);
}

/// A rewind with this value; so many frames are held before it, and as many behind it.
#[track_caller]
fn rewind(machine: &mut Machine, frames: u32, put_back: u32) {
    assert_eq!(value(machine, "9 0"), frames, "before the rewind");
    assert_eq!(value(machine, "8 0"), put_back);
    assert_eq!(value(machine, "9 0"), frames, "after the rewind");
    assert_reads_as_taken(machine);
}

#[test]
fn a_page_without_a_front_is_shared_with_the_snapshot() {
    let mut machine = taken();
    assert_eq!(cases(&machine), [Some(RewindCase::Shared); 6]);
    // Two backs, and nothing is done.
    let before = machine.clone();
    rewind(&mut machine, 2, 0);
    assert!(machine == before);
}

#[test]
fn a_page_with_front_and_back_gets_its_backs_bytes() {
    // Anonymous, and of the image.
    for (page, at) in [(0, 9), (3, 777)] {
        let mut machine = taken();
        accept(&mut machine, &[&format!("6 0 {at} 1"), &format!("6 0 {} 2", at + 1)]);
        assert_eq!(cases(&machine)[page], Some(RewindCase::Copied));
        rewind(&mut machine, 3, 1);
        // It has both frames still: a write takes none, and the back is as it was.
        assert_eq!(cases(&machine)[page], Some(RewindCase::Copied));
        accept(&mut machine, &[&format!("6 0 {at} 3")]);
        rewind(&mut machine, 3, 1);
        rewind(&mut machine, 3, 0);
    }
}

#[test]
fn an_anonymous_page_with_a_front_alone_is_cleared() {
    let mut machine = taken();
    accept(&mut machine, &["6 0 265 1", "6 0 511 2"]);
    assert_eq!(cases(&machine)[1], Some(RewindCase::Zeroed));
    rewind(&mut machine, 3, 1);
    assert_eq!(machine.sandbox(0).pages[1].bytes, [0; 256]);
    assert_eq!(cases(&machine)[1], Some(RewindCase::Zeroed));
    accept(&mut machine, &["6 0 266 3"]);
    rewind(&mut machine, 3, 1);
}

#[test]
fn an_image_page_with_a_front_alone_gets_the_images_bytes() {
    let mut machine = taken();
    accept(&mut machine, &["6 0 1033 1", "6 0 1279 2"]);
    assert_eq!(cases(&machine)[4], Some(RewindCase::ImagePage(2)));
    rewind(&mut machine, 3, 1);
    assert_eq!(machine.sandbox(0).pages[4].bytes, [3; 256]);
    assert_eq!(cases(&machine)[4], Some(RewindCase::ImagePage(2)));
    accept(&mut machine, &["6 0 1034 5"]);
    rewind(&mut machine, 3, 1);
}

#[test]
fn all_four_cases_at_one_rewind() {
    let mut machine = taken();
    let writes = ["6 0 9 1", "6 0 265 1", "6 0 777 1", "6 0 1033 1"];
    let found = [
        RewindCase::Copied,
        RewindCase::Zeroed,
        RewindCase::Shared,
        RewindCase::Copied,
        RewindCase::ImagePage(2),
        RewindCase::Shared,
    ];
    // The first time the writes take four frames, and then none.
    for _ in 0..3 {
        accept(&mut machine, &writes);
        assert_eq!(cases(&machine), found.map(Some));
        rewind(&mut machine, 6, 4);
    }
}

#[test]
fn a_page_unmapped_or_mapped_anew_is_in_no_case() {
    let mut machine = taken();
    accept(&mut machine, &["6 0 9 1", "6 0 1033 1", "6 0 1289 1"]);
    assert_eq!(value(&mut machine, "9 0"), 5, "two backs, three fronts");
    // Page 0 is mapped anew as it was, page 4 over another image page, and page 5 not at all.
    accept(&mut machine, &["3 0 0 1", "3 0 4 2", "2 0 0 1 0 0 3", "2 0 4 1 1 0 3"]);
    accept(&mut machine, &["6 0 9 2", "6 0 1033 2"]);
    let shared = Some(RewindCase::Shared);
    assert_eq!(cases(&machine), [None, shared, shared, shared, None, None]);
    assert_eq!(value(&mut machine, "9 0"), 4, "two backs, two fronts");
    assert_eq!(value(&mut machine, "8 0"), 0);
    // The front of page 0 is a run of 1 now; that of page 4 is not kept.
    assert_eq!(value(&mut machine, "9 0"), 3);
    assert_eq!(machine.sandbox(0).runs.lengths(), [1]);
    assert_reads_as_taken(&mut machine);
    assert_eq!(cases(&machine), [shared; 6]);
    // A page where the snapshot has none is in no case either.
    accept(&mut machine, &["2 0 6 1 0 0 3", "6 0 1536 1"]);
    assert_eq!(RewindCase::of(&machine.sandbox(0).pages[6]), None);
    assert_eq!(call(&mut machine, "8 0"), (0, 0));
    assert_eq!(call(&mut machine, "5 0 1536"), (9, 0));
}

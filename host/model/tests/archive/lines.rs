//! Which lines an archive has: "open with its share; one map a snapshot area in page order, at
//! named pages with rights 3; a write for each byte that differs from its page's zero or image
//! byte, in address order; a protect for each area with rights 1, in page order; snapshot".

use super::{after, archived, expect_lines};
use crate::common::{accept, image};
use model::ARCHIVE_LINES;

#[test]
fn the_documents_roll() {
    let machine = after(&[], &["1 0 8", "2 0 64 2 0 0 3", "6 0 5 7", "7 0", "6 0 5 9", "8 0"]);
    expect_lines(&machine, 0, &["1 0 8", "2 0 0 2 0 0 3", "6 0 5 7", "7 0"]);
    let text = archived(&machine, 0).text();
    let expected = "     1     0     8     0     0     0     0
     2     0     0     2     0     0     3
     6     0     5     7     0     0     0
     7     0     0     0     0     0     0
";
    assert_eq!(String::from_utf8(text).unwrap(), expected);
}

#[test]
fn a_snapshot_of_no_pages_is_an_open_and_a_snapshot() {
    let machine = after(&[], &["1 3 128", "7 3", "2 3 64 5 0 0 3", "6 3 0 1"]);
    expect_lines(&machine, 3, &["1 3 128", "7 3"]);
}

#[test]
fn the_present_pages_are_not_looked_at() {
    let before = ["1 0 16", "2 0 5 2 0 0 3", "6 0 1280 7", "4 0 6 1 1", "7 0"];
    let expected = ["1 0 16", "2 0 5 1 0 0 3", "2 0 6 1 0 0 3", "6 0 1280 7", "4 0 6 1 1", "7 0"];
    let mut machine = after(&[], &before);
    expect_lines(&machine, 0, &expected);
    for since in ["6 0 1280 9", "4 0 5 2 3", "2 0 0 4 0 0 3", "6 0 0 1", "3 0 5 1", "3 0 0 64"] {
        accept(&mut machine, &[since]);
        expect_lines(&machine, 0, &expected);
    }
    // A page mapped anew at the number of a snapshot page, and the rewind.
    for since in ["2 0 5 1 0 0 3", "6 0 1280 8", "8 0", "6 0 1281 1"] {
        accept(&mut machine, &[since]);
        expect_lines(&machine, 0, &expected);
    }
}

#[test]
fn areas_divided_by_rights_alone_have_a_map_each() {
    // Pages 4 to 6 with rights 3, 1, 3: three areas, and a protect for the middle one.
    let machine = after(&[], &["1 0 8", "2 0 4 3 0 0 3", "6 0 1280 9", "4 0 5 1 1", "7 0"]);
    let maps = ["2 0 4 1 0 0 3", "2 0 5 1 0 0 3", "2 0 6 1 0 0 3"];
    let rest = ["6 0 1280 9", "4 0 5 1 1", "7 0"];
    expect_lines(&machine, 0, &[&["1 0 8"], &maps[..], &rest].concat());
}

#[test]
fn neighbouring_areas_with_rights_1_have_a_protect_each() {
    let machine = after(&image(2), &["1 0 8", "2 0 4 2 0 0 1", "2 0 6 1 1 1 1", "7 0"]);
    let maps = ["2 0 4 2 0 0 3", "2 0 6 1 1 1 3"];
    expect_lines(
        &machine,
        0,
        &[&["1 0 8"], &maps[..], &["4 0 4 2 1", "4 0 6 1 1", "7 0"]].concat(),
    );
}

#[test]
fn image_pages_running_on_are_one_area() {
    // Image pages 1 to 3 in three maps, then page 3 again, then page 0 apart.
    let calls = ["2 0 9 1 1 2 3", "2 0 8 1 1 1 3", "2 0 10 1 1 3 3", "2 0 11 1 1 3 3"];
    let mut machine = after(&image(4), &["1 0 20"]);
    accept(&mut machine, &calls);
    accept(&mut machine, &["2 0 20 1 1 0 3", "7 0"]);
    let maps = ["2 0 8 3 1 1 3", "2 0 11 1 1 3 3", "2 0 20 1 1 0 3"];
    expect_lines(&machine, 0, &[&["1 0 20"], &maps[..], &["7 0"]].concat());
}

#[test]
fn a_byte_is_compared_with_its_pages_zero_or_image_byte() {
    // Page 0 is anonymous, page 1 has image page 1, whose bytes are 2.
    let mut machine = after(&image(2), &["1 0 8", "2 0 0 1 0 0 3", "2 0 1 1 1 1 3"]);
    // Written, but as it was: nothing.
    accept(&mut machine, &["6 0 10 0", "6 0 300 2", "6 0 11 5", "6 0 11 0", "6 0 301 5"]);
    accept(&mut machine, &["6 0 301 2"]);
    // Zero over an image byte, the image's byte on a zero page, and the last byte of each.
    accept(&mut machine, &["6 0 302 0", "6 0 12 2", "6 0 255 1", "6 0 511 1", "6 0 256 1", "7 0"]);
    let maps = ["2 0 0 1 0 0 3", "2 0 1 1 1 1 3"];
    let writes = ["6 0 12 2", "6 0 255 1", "6 0 256 1", "6 0 302 0", "6 0 511 1"];
    expect_lines(&machine, 0, &[&["1 0 8"], &maps[..], &writes, &["7 0"]].concat());
}

#[test]
fn every_line_names_the_sandbox_and_the_share_is_its_own() {
    let mut machine = after(&[], &["1 0 8", "1 2 31", "2 0 0 1 0 0 3", "6 0 0 4", "7 0"]);
    accept(&mut machine, &["2 2 3 2 0 0 3", "6 2 800 6", "4 2 4 1 1", "7 2"]);
    let expected = ["2 2 3 1 0 0 3", "2 2 4 1 0 0 3", "6 2 800 6", "4 2 4 1 1", "7 2"];
    expect_lines(&machine, 2, &[&["1 2 31"], &expected[..]].concat());
    expect_lines(&machine, 0, &["1 0 8", "2 0 0 1 0 0 3", "6 0 0 4", "7 0"]);
}

#[test]
fn the_last_address_and_the_greatest_byte() {
    let machine = after(&[], &["1 0 2", "2 0 63 1 0 0 3", "6 0 16383 255", "7 0"]);
    expect_lines(&machine, 0, &["1 0 2", "2 0 63 1 0 0 3", "6 0 16383 255", "7 0"]);
}

/// 64 pages in eight areas with rights 1, anonymous and image in turn, every byte differing.
#[test]
fn the_longest_archive() {
    let mut machine = after(&image(64), &["1 0 128"]);
    for area in 0..8 {
        let first = 8 * area;
        let backing = if area % 2 == 0 { "0 0".to_string() } else { format!("1 {first}") };
        accept(&mut machine, &[&format!("2 0 {first} 8 {backing} 3")]);
    }
    for at in 0..16_384 {
        accept(&mut machine, &[&format!("6 0 {at} {}", 100 + at % 100)]);
    }
    accept(&mut machine, &["4 0 0 64 1", "7 0"]);
    let archive = archived(&machine, 0);
    assert_eq!((archive.maps.len(), archive.writes.len(), archive.protects.len()), (8, 16_384, 8));
    assert_eq!(archive.calls().len(), ARCHIVE_LINES);
    assert_eq!((ARCHIVE_LINES, archive.text().len()), (16_402, 705_286));
}

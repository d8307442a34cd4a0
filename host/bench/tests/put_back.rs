//! The value of a rewind, checked by hand of every machine: "the number of committed pages still
//! mapped whose bytes differed from the snapshot".

use crate::compare::{map, map_image, protect, proved, replies, unmap, write};
use crate::compare::{Fields, Play, OPEN, REWIND, SNAPSHOT};
use bench::{same_steps, unproved};

const MACHINES: [(&str, Play); 6] = [
    ("unproved", unproved::play),
    ("trusting", unproved::play_trusting),
    ("same steps", same_steps::play),
    ("dropping", unproved::play_dropping),
    ("keeping nothing", unproved::play_keeping_nothing),
    ("proved", proved),
];

/// Lines behind a snapshot, and what the rewinds among them answer. The snapshot has pages 0 to 3;
/// page 1 was written, so that it has a back, and page 3 is the image page whose last byte is 5.
fn checked_by_hand() -> Vec<(Vec<Fields>, Vec<u32>)> {
    vec![
        (vec![REWIND], vec![0]),
        // Each kind of page, then all; a second rewind finds nothing.
        (vec![write(0, 1), REWIND, REWIND], vec![1, 0]),
        (vec![write(256, 9), REWIND, write(256, 7), REWIND], vec![1, 0]),
        (vec![write(1023, 0), REWIND, write(1023, 5), REWIND], vec![1, 0]),
        (vec![write(0, 1), write(300, 1), write(600, 1), write(800, 1), REWIND], vec![4]),
        // The first and the last byte.
        (vec![write(512, 1), REWIND, write(767, 1), REWIND], vec![1, 1]),
        // Written and written back, one of two pages.
        (vec![write(0, 1), write(512, 1), write(0, 0), REWIND], vec![1]),
        // Unmapped; mapped anew with other bytes; and again once a rewind brought it back.
        (vec![write(256, 9), unmap(1), REWIND], vec![0]),
        (vec![unmap(1), map(1, 1), write(256, 9), REWIND, write(256, 9), REWIND], vec![0, 1]),
        // Mapped since; rights alone; written and then protected.
        (vec![map(9, 1), write(9 * 256, 1), REWIND], vec![0]),
        (vec![protect(1, 1), REWIND], vec![0]),
        (vec![write(256, 9), protect(1, 1), REWIND], vec![1]),
    ]
}

#[test]
fn every_machine_counts_the_pages_that_differ() {
    let taken = [OPEN, map(0, 3), map_image(3, 1), write(256, 7), SNAPSHOT];
    for (lines, expected) in checked_by_hand() {
        let lines = [&taken[..], &lines].concat();
        for (name, play) in MACHINES {
            let told = lines.iter().zip(replies(play, &lines)).filter(|(line, _)| **line == REWIND);
            let told: Vec<(u32, u32)> = told.map(|(_, told)| told).collect();
            let expected: Vec<(u32, u32)> = expected.iter().map(|&value| (0, value)).collect();
            assert_eq!(told, expected, "{name}: {lines:?}");
        }
    }
}

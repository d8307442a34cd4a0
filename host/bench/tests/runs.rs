//! Runs of kept frames, checked by hand: how many frames a report counts, and which frames pages
//! get, where runs compete, are taken by maps and give up frames.

use bench::{same_steps, unproved};
use model::{call_line, Call};

type Play = fn(&[u8], &[u8], &mut [u8], &mut [u16], &mut [u8]) -> usize;

fn proved(r: &[u8], i: &[u8], pool: &mut [u8], table: &mut [u16], out: &mut [u8]) -> usize {
    gazhuppin::play(r, i, pool, table, out).expect("out has room")
}

const MACHINES: [(&str, Play); 4] = [
    ("unproved", unproved::play),
    ("trusting", unproved::play_trusting),
    ("same steps", same_steps::play),
    ("proved", proved),
];
/// "64 for the lowest gap that fits".
const ANYWHERE: u16 = 64;
const IMAGE: [u8; 1024] = [7; 1024];

fn call(code: u16, parameters: [u16; 5]) -> Call {
    Call { code, sandbox: 0, parameters }
}

fn map(first: u16, pages: u16) -> Call {
    call(2, [first, pages, 0, 0, 3])
}

fn write(page: u16) -> Call {
    call(6, [256 * page + 9, 5, 0, 0, 0])
}

fn rewind() -> Call {
    call(8, [0; 5])
}

/// A share, and a snapshot of no page.
fn opened(share: u16) -> Vec<Call> {
    vec![call(1, [share, 0, 0, 0, 0]), call(7, [0; 5])]
}

/// Named maps whose pages are all written, in page order, and a rewind.
fn request(areas: &[(u16, u16)]) -> Vec<Call> {
    let mut calls = Vec::new();
    for &(first, pages) in areas {
        calls.push(map(first, pages));
        calls.extend((first..first + pages).map(write));
    }
    calls.push(rewind());
    calls
}

/// Asserts, of each machine over 128 frames, that all calls are accepted, what a report after
/// them is told, and the frames of pages: no others have fronts.
fn leaves(calls: &[Call], reported: u32, fronts: &[(usize, u16)]) {
    let roll: Vec<u8> = calls.iter().chain([&call(9, [0; 5])]).flat_map(call_line).collect();
    let mut entries = [0; 64];
    fronts.iter().for_each(|&(page, frame)| entries[page] = frame + 1);
    for (name, play) in MACHINES {
        let mut out = vec![0; 19 * (calls.len() + 1)];
        let (mut pool, mut table) = (vec![1; 128 * 256], [1; 512]);
        play(&roll, &IMAGE, &mut pool, &mut table, &mut out);
        let text = String::from_utf8(out).expect("replies are text");
        let field = |line: &str, at: usize| line[at..at + 6].trim().parse::<u32>();
        assert!(text.lines().all(|line| field(line, 6) == Ok(0)), "{name}:\n{text}");
        let last = text.lines().last().expect("there is a report");
        assert_eq!(field(last, 12), Ok(reported), "{name}");
        assert_eq!(table[..64], entries, "{name}");
    }
}

/// Eight areas of so many pages, every second page of eight.
fn eight_areas(pages: u16) -> Vec<(u16, u16)> {
    (0..8).map(|area| (8 * area, pages)).collect()
}

#[test]
fn each_area_with_a_front_makes_one_run_and_image_areas_none() {
    // Frames 127 and 126; nothing is written at page 4; the image page's front is freed.
    let mut calls = opened(16);
    calls.extend([map(0, 3), write(0), write(2), map(4, 2)]);
    calls.extend([call(2, [8, 1, 1, 0, 3]), write(8), rewind()]);
    leaves(&calls, 2, &[]);
    // The run has two frames for two of three pages, the smallest first.
    calls.push(map(ANYWHERE, 3));
    leaves(&calls, 2, &[(0, 126), (1, 127)]);
}

#[test]
fn unmapped_fronts_and_those_of_committed_pages_are_not_kept() {
    let mut calls = vec![call(1, [16, 0, 0, 0, 0]), map(0, 1), write(0), call(7, [0; 5])];
    // Frame 127 is page 0's back, 126 its front, 125 and 124 those of pages 4 and 5.
    calls.extend([write(0), map(4, 2), write(4), write(5), call(3, [5, 1, 0, 0, 0]), rewind()]);
    leaves(&calls, 3, &[(0, 126)]);
    calls.push(map(ANYWHERE, 2));
    leaves(&calls, 3, &[(0, 126), (1, 125)]);
}

#[test]
fn the_longest_eight_are_kept_and_of_equals_the_older() {
    let mut calls = opened(128);
    // 127 and 126, 125 and 124, down to 113 and 112.
    calls.extend(request(&eight_areas(2)));
    leaves(&calls, 16, &[]);
    // No longer than the shortest, so that its frames are freed: 111, or 111 and 110.
    calls.extend(request(&[(0, 1)]));
    calls.extend(request(&[(0, 2)]));
    leaves(&calls, 16, &[]);
    // 111, 110 and 109 for the newest of the shortest, 113 and 112.
    calls.extend(request(&[(0, 3)]));
    leaves(&calls, 17, &[]);
    // The oldest of two frames; the one of three; and the greatest that nothing holds.
    calls.extend([map(ANYWHERE, 1), map(ANYWHERE, 3), map(20, 1), write(20)]);
    leaves(&calls, 18, &[(0, 126), (1, 109), (2, 110), (3, 111), (20, 113)]);
}

#[test]
fn of_one_rewind_the_lower_page_is_older_and_the_highest_of_equals_goes() {
    let mut calls = opened(128);
    // Seven runs of one frame, 127 to 121; then 120, and 119 with 118, of one request.
    let seven: Vec<(u16, u16)> = eight_areas(1).into_iter().skip(1).collect();
    calls.extend(request(&seven));
    calls.extend(request(&[(0, 1), (2, 2)]));
    // The eighth place was 120's, and the pair then took it.
    leaves(&calls, 9, &[]);
    calls.extend([map(ANYWHERE, 2), map(20, 1), write(20)]);
    leaves(&calls, 10, &[(0, 118), (1, 119), (20, 120)]);
}

#[test]
fn a_map_takes_the_shortest_run_that_is_long_enough_else_the_longest() {
    // 127; 126 to 124; 123 and 122; 121 and 120.
    let kept = [opened(128), request(&[(0, 1), (8, 3), (16, 2), (24, 2)])].concat();
    let with = |maps: &[(u16, u16)]| {
        let maps = maps.iter().map(|&(first, pages)| map(first, pages));
        [kept.clone(), maps.collect()].concat()
    };
    leaves(&with(&[(ANYWHERE, 1)]), 8, &[(0, 127)]);
    leaves(&with(&[(ANYWHERE, 2)]), 8, &[(0, 122), (1, 123)]);
    leaves(&with(&[(ANYWHERE, 3)]), 8, &[(0, 124), (1, 125), (2, 126)]);
    leaves(&with(&[(ANYWHERE, 5)]), 8, &[(0, 124), (1, 125), (2, 126)]);
    // A named map takes none.
    leaves(&with(&[(0, 2)]), 8, &[]);
    // An image map takes none; a map whose pages are only read takes one.
    let image = [kept.clone(), vec![call(2, [ANYWHERE, 1, 1, 0, 3])]].concat();
    leaves(&image, 8, &[]);
    let read_only = [kept, vec![call(2, [ANYWHERE, 1, 0, 0, 1])]].concat();
    leaves(&read_only, 8, &[(0, 127)]);
}

#[test]
fn a_surplus_stays_kept_with_its_age() {
    let two_maps = |areas: &[(u16, u16)]| {
        [opened(128), request(areas), vec![map(ANYWHERE, 2), map(ANYWHERE, 1)]].concat()
    };
    // 127 to 125, and 124: what is left of the older run is taken before the newer.
    leaves(&two_maps(&[(0, 3), (8, 1)]), 4, &[(0, 125), (1, 126), (2, 127)]);
    // 127, and 126 to 124: what is left of the newer is not.
    leaves(&two_maps(&[(0, 1), (8, 3)]), 4, &[(0, 124), (1, 125), (2, 127)]);
}

#[test]
fn a_write_above_the_share_has_the_longest_run_give_up_its_smallest_frame() {
    // 127; 126 and 125; 124 and 123.
    let mut calls = opened(6);
    calls.extend(request(&[(0, 1), (2, 2), (5, 2)]));
    calls.extend([map(10, 3), write(10)]);
    leaves(&calls, 6, &[(10, 122)]);
    // Of two runs of two frames the older gives up its smaller frame, which is then taken.
    calls.push(write(11));
    leaves(&calls, 6, &[(10, 122), (11, 125)]);
    calls.push(write(12));
    leaves(&calls, 6, &[(10, 122), (11, 125), (12, 123)]);
    // A page with a front takes none, and none is given up.
    calls.push(write(12));
    leaves(&calls, 6, &[(10, 122), (11, 125), (12, 123)]);
}

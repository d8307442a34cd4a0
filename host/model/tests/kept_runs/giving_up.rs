//! What a write above the share gives up, and what kept frames count in.

use super::requests::{assert_kept, opened, request, written_area};
use crate::common::{accept, after, refusal, value};

#[test]
fn a_write_above_the_share_gives_up_one_frame_of_the_longest_run() {
    // Share 6, all of it kept.
    let mut machine = opened(6);
    request(&mut machine, &[2, 3, 1]);
    assert_kept(&mut machine, &[2, 3, 1]);
    accept(&mut machine, &["2 0 0 6 0 0 3"]);
    for (page, left) in
        [&[2, 2, 1][..], &[1, 2, 1], &[1, 1, 1], &[1, 1], &[1], &[]].into_iter().enumerate()
    {
        let write = format!("6 0 {} 1", 256 * page + 7);
        accept(&mut machine, &[&write]);
        assert_kept(&mut machine, left);
        assert_eq!(value(&mut machine, "9 0"), 6, "the share");
        // The page has a front now: writing it again takes and gives up nothing.
        accept(&mut machine, &[&write]);
        assert_kept(&mut machine, left);
    }
}

#[test]
fn a_write_within_the_share_gives_up_none() {
    let mut machine = opened(6);
    request(&mut machine, &[4]);
    accept(&mut machine, &["2 0 0 6 0 0 3", "6 0 0 1", "6 0 256 1"]);
    assert_kept(&mut machine, &[4]);
    assert_eq!(value(&mut machine, "9 0"), 6, "the share is just filled");
    accept(&mut machine, &["6 0 512 1"]);
    assert_kept(&mut machine, &[3]);
    // Backs count too: two pages of the snapshot, both written.
    let mut machine = after(&["1 0 6", "2 0 0 2 0 0 3", "6 0 0 1", "6 0 256 1", "7 0"]);
    written_area(&mut machine, 10, 2);
    accept(&mut machine, &["8 0"]);
    assert_kept(&mut machine, &[2]);
    accept(&mut machine, &["6 0 0 2"]);
    assert_kept(&mut machine, &[2]);
    accept(&mut machine, &["6 0 256 2"]);
    assert_kept(&mut machine, &[2]);
    assert_eq!(value(&mut machine, "9 0"), 6);
    accept(&mut machine, &["2 0 10 2 0 0 3", "6 0 2560 2"]);
    assert_kept(&mut machine, &[1]);
    assert_eq!(value(&mut machine, "9 0"), 6);
}

#[test]
fn kept_frames_count_in_call_9_but_not_in_the_charge() {
    let mut machine = opened(6);
    request(&mut machine, &[6]);
    assert_eq!(value(&mut machine, "9 0"), 6);
    assert_eq!(machine.sandbox(0).charge(), 0);
    // The whole share can be mapped, at named pages or at 64, and no more of it.
    accept(&mut machine, &["2 0 10 6 0 0 3"]);
    assert_eq!(refusal(&mut machine, "2 0 64 1 0 0 3"), 13);
    assert_kept(&mut machine, &[6]);
}

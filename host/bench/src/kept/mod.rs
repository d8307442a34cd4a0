//! (h) Kept frames: what a map gains by them, what the test of soundness pays for them, and how
//! many frames requests take anew.

pub mod maps;
pub mod requests;
pub mod soundness;

use crate::roll::{map, open, protect, report, rewind, snapshot, text, unmap, write};
use crate::roll::{ANYWHERE, READ, WRITE};
use crate::work::Player;
use model::Call;

/// What became of the frames of a finished request.
#[derive(Clone, Copy, PartialEq, Eq, Debug)]
enum Frames {
    /// The rewind kept them.
    Kept,
    /// The request unmapped its pages before the rewind, so that nothing was there to keep.
    Unheld,
}

/// One sandbox with a share of all 128 frames and a snapshot of no page, after a request that
/// wrote so many pages in so many areas, of which every second was protected.
fn after_request(pages: u16, areas: u16, frames: Frames) -> Vec<Call> {
    let mut calls = vec![open(0, 128), snapshot(0)];
    if pages > 0 {
        calls.push(map(0, ANYWHERE, pages, WRITE));
        calls.extend((0..pages).map(|page| write(0, page)));
        let length = pages / areas;
        let protected = (0..areas).filter(|area| area % 2 == 1);
        calls.extend(protected.map(|area| protect(0, area * length, length, READ)));
    }
    if pages > 0 && frames == Frames::Unheld {
        calls.push(unmap(0, 0, pages));
    }
    calls.push(rewind(0));
    calls
}

/// Asserts that a machine keeps as many frames as the state's name says, and holds no others.
fn expect_kept(player: Player, pages: u16, areas: u16, frames: Frames) {
    let mut calls = after_request(pages, areas, frames);
    calls.push(report(0));
    let kept = if frames == Frames::Kept { u32::from(pages) } else { 0 };
    let played = player.played(&text(&calls));
    assert_eq!(played.reply(calls.len() - 1), (0, kept));
    assert_eq!(played.named(), 0);
}

//! The states in which calls are measured, each as the calls that lead to it.

use crate::roll::{call, change, map, map_image, open, snapshot, write, READ, WRITE};
use model::Call;

#[derive(Clone, Copy, PartialEq, Eq, Debug)]
pub enum State {
    /// All sandboxes closed, nothing held, behind a line that is refused.
    Closed,
    /// Three sandboxes in use, the fourth closed; 23 frames held.
    Busy,
    /// All four sandboxes with 8 areas in present and snapshot, each page with a front
    /// and a back that hold the same; all 128 frames held.
    Full,
    /// No line was read yet: what comes pays for what a roll's first line pays for.
    First,
    /// As the full state, but each front differs from its back in a byte.
    Changed,
}

impl State {
    pub const ALL: [State; 5] =
        [State::Closed, State::Busy, State::Full, State::First, State::Changed];
    /// Those that differ in what they hold.
    pub const TESTED: [State; 3] = [State::Closed, State::Busy, State::Full];

    pub fn name(self) -> &'static str {
        match self {
            State::Closed => "closed",
            State::Busy => "busy",
            State::Full => "full",
            State::First => "first line",
            State::Changed => "changed",
        }
    }

    /// The number that a line before the measured ones is to have, which was told this: they are
    /// accepted, but for a first line whose code is no call's.
    pub fn before(line: usize, told: u32) -> u32 {
        if line == 0 && told == 2 {
            2
        } else {
            0
        }
    }

    pub fn calls(self) -> Vec<Call> {
        match self {
            State::Closed => vec![call(0, 0, [0; 5])],
            State::Busy => busy(),
            State::Full => full(write),
            State::First => Vec::new(),
            State::Changed => full(change),
        }
    }
}

/// - 0: share 48; 14 snapshot pages in 3 areas, 2 pages mapped since; 4 backs, 6 fronts;
/// - 1: share 32; 12 snapshot pages in 2 areas; 4 backs, 4 fronts;
/// - 2: share 32; no snapshot; 12 pages in 3 areas; 5 fronts.
fn busy() -> Vec<Call> {
    let mut calls = vec![
        open(0, 48),
        map(0, 0, 8, WRITE),
        map_image(0, 8, 4, 0, WRITE),
        map(0, 20, 2, READ),
        open(1, 32),
        map(1, 0, 8, WRITE),
        map_image(1, 32, 4, 4, WRITE),
        open(2, 32),
        map(2, 0, 6, WRITE),
        map_image(2, 6, 4, 8, READ),
        map(2, 16, 2, WRITE),
    ];
    calls.extend([0, 1, 2, 8].map(|page| write(0, page)));
    calls.extend([0, 1, 2, 32].map(|page| write(1, page)));
    calls.extend([0, 1, 2, 3, 16].map(|page| write(2, page)));
    calls.extend([snapshot(0), snapshot(1), map(0, 24, 2, WRITE)]);
    calls.extend([0, 1, 3, 8, 9, 24].map(|page| write(0, page)));
    calls.extend([0, 4, 32, 33].map(|page| write(1, page)));
    calls
}

/// Shares of 32, used up: 16 snapshot pages in 8 areas, each written again so.
fn full(again: fn(u16, u16) -> Call) -> Vec<Call> {
    let mut calls = Vec::new();
    for sandbox in 0..4 {
        calls.push(open(sandbox, 32));
        calls.extend((0..8).map(|area| map(sandbox, 8 * area, 2, WRITE)));
        calls.extend(full_pages().map(|page| write(sandbox, page)));
        calls.push(snapshot(sandbox));
        calls.extend(full_pages().map(|page| again(sandbox, page)));
    }
    calls
}

pub fn full_pages() -> impl Iterator<Item = u16> {
    (0..8).flat_map(|area| [8 * area, 8 * area + 1])
}

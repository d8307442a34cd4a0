//! (h) The test of soundness over kept frames, beside as many that are not held.

use super::{after_request, expect_kept, Frames};
use crate::soundness::{cost, tested_and_not};
use crate::table::{markdown, thousands, Costs, Purpose, Table};
use crate::work::{Player, Work};

pub const TABLE: Table = Table { name: "kept-test", works, markdown: written, rounds: 41 };

const PLAYERS: [Player; 3] = [Player::Proved, Player::Unproved, Player::SameSteps];
/// How many frames are kept, and in how many runs.
const CASES: [(u16, u16); 4] = [(0, 0), (8, 1), (64, 1), (64, 8)];
const FRAMES: [Frames; 2] = [Frames::Kept, Frames::Unheld];
/// For each case and machine a call that is tested and one that is not, with kept frames and
/// unheld ones.
const STRIDE: usize = 2 * FRAMES.len() * PLAYERS.len();

fn works(purpose: Purpose) -> Vec<Work> {
    let mut works = Vec::new();
    for (pages, areas) in CASES {
        for player in PLAYERS {
            for frames in FRAMES {
                expect_kept(player, pages, areas, frames);
                let state = after_request(pages, areas, frames);
                works.extend(tested_and_not(player, &state, purpose));
            }
        }
    }
    works
}

fn written(costs: &Costs) -> String {
    let row = |(index, &(frames, runs)): (usize, &(u16, u16))| {
        let cost = |player: usize, frames: usize| {
            cost(costs, STRIDE * index + 2 * (FRAMES.len() * player + frames))
        };
        let mut row = vec![match runs {
            0 | 1 => frames.to_string(),
            _ => format!("{frames} in {runs} runs"),
        }];
        for player in 0..PLAYERS.len() {
            let [kept, unheld] = [0, 1].map(|frames| cost(player, frames).count);
            row.extend([kept, unheld, kept - unheld].map(thousands));
        }
        let timed = [(0, 0), (0, 1), (1, 0), (2, 0)];
        row.extend(timed.map(|(player, frames)| cost(player, frames).nanoseconds()));
        row
    };
    let rows: Vec<Vec<String>> = CASES.iter().enumerate().map(row).collect();
    let head = [
        "kept frames",
        "proved",
        "proved, unheld",
        "more",
        "unproved",
        "unproved, unheld",
        "more",
        "same steps",
        "same steps, unheld",
        "more",
        "proved, ns",
        "proved, unheld, ns",
        "unproved, ns",
        "same steps, ns",
    ];
    markdown(&head, &rows)
}

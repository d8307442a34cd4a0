//! (h) A map that takes a run, beside one that finds none.

use super::{after_request, expect_kept, Frames};
use crate::roll::{map, open, rewind, text, ANYWHERE, WRITE};
use crate::table::{markdown, thousands, Costs, Purpose, Table};
use crate::work::{Player, Work};
use model::Call;

pub const TABLE: Table = Table { name: "kept-maps", works, markdown: written, rounds: 41 };

const PLAYERS: [Player; 2] = [Player::Proved, Player::Trusting];
const PAGES: [u16; 3] = [1, 8, 16];
const FRAMES: [Frames; 2] = [Frames::Kept, Frames::Unheld];
/// The works of a state: its calls alone, with a map, and with a refused call.
const KINDS: usize = 3;
/// For each number of pages and machine those of a state with a run and of one without.
const STRIDE: usize = KINDS * FRAMES.len() * PLAYERS.len();
const REPEATS: usize = 64;

fn measured(pages: u16) -> Call {
    map(0, ANYWHERE, pages, WRITE)
}

/// The map, to be timed together with a rewind, which returns to the state; and a call that is
/// refused as soon as the state is known.
fn works(purpose: Purpose) -> Vec<Work> {
    let mut works = Vec::new();
    for pages in PAGES {
        let map = match purpose {
            Purpose::Count => vec![measured(pages)],
            Purpose::Time => [measured(pages), rewind(0)].repeat(REPEATS),
        };
        for player in PLAYERS {
            for frames in FRAMES {
                expect_kept(player, pages, 1, frames);
                let state = after_request(pages, 1, frames);
                works.push(Work::play(player, text(&state)));
                for (calls, number) in [(map.clone(), 0), (vec![open(0, 1)], 5)] {
                    let roll = text(&[&state[..], &calls].concat());
                    player.played(&roll).expect_last(calls.len(), number);
                    works.push(Work::play(player, roll));
                }
            }
        }
    }
    works
}

/// What the proved machine's map does to the lent memory: how many fronts it sets, and how many
/// bytes of the pool it changes.
fn done(pages: u16, frames: Frames) -> (usize, usize) {
    let mut calls = after_request(pages, 1, frames);
    let before = Player::Proved.played(&text(&calls));
    calls.push(measured(pages));
    let after = Player::Proved.played(&text(&calls));
    let changed = before.pool.iter().zip(&after.pool).filter(|(old, new)| old != new).count();
    (after.fronts() - before.fronts(), changed)
}

fn written(costs: &Costs) -> String {
    let at = |index: usize, player: usize, frames: usize| {
        STRIDE * index + KINDS * (FRAMES.len() * player + frames)
    };
    let row = |(index, &pages): (usize, &u16)| {
        let [(taken, changed), (none, unchanged)] = FRAMES.map(|frames| done(pages, frames));
        let [proved, trusting] = [0, 1].map(|player| {
            [0, 1].map(|frames| {
                let state = at(index, player, frames);
                costs.counts.difference(state + 1, state + 2)
            })
        });
        let mut row = vec![
            pages.to_string(),
            format!("{taken} beside {none}"),
            format!("{changed} beside {unchanged}"),
            thousands(proved[0]),
            thousands(proved[1]),
            format!("{:.1}", (proved[0] - proved[1]) as f64 / f64::from(pages)),
            thousands(trusting[0]),
            thousands(trusting[1]),
        ];
        row.extend([(0, 0), (0, 1), (1, 0), (1, 1)].map(|(player, frames)| {
            let state = at(index, player, frames);
            costs.time_of_call(state + 1, state, REPEATS)
        }));
        row
    };
    let rows: Vec<Vec<String>> = PAGES.iter().enumerate().map(row).collect();
    let head = [
        "pages",
        "fronts set",
        "bytes of the pool changed",
        "proved, takes a run",
        "proved, no run",
        "more, a frame",
        "trusting, takes a run",
        "trusting, no run",
        "proved, a run, with rewind, ns",
        "proved, no run, with rewind, ns",
        "trusting, a run, with rewind, ns",
        "trusting, no run, with rewind, ns",
    ];
    markdown(&head, &rows)
}

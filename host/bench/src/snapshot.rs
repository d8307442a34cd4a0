//! (c) Snapshot against mapped and written pages, beside the full copy.

use crate::roll::{map, open, snapshot, text, write, WRITE};
use crate::table::{markdown, Cost, Costs, Purpose, Table};
use crate::work::{Player, Work};
use model::Call;

pub const TABLE: Table = Table { name: "snapshot", works, markdown: written, rounds: 201 };

/// Pages mapped, and pages written among them.
const CASES: [(u16, u16); 8] =
    [(1, 0), (8, 0), (8, 8), (16, 16), (32, 0), (32, 32), (64, 0), (64, 64)];
const PLAYERS: [Player; 2] = [Player::Proved, Player::Trusting];
/// The works of a machine: the state's calls alone, with a snapshot, and with a refused call.
const KINDS: usize = 3;
const STRIDE: usize = KINDS * PLAYERS.len();

fn state((mapped, written): (u16, u16)) -> Vec<Call> {
    let mut calls = vec![open(0, 128), map(0, 0, mapped, WRITE)];
    calls.extend((0..written).map(|page| write(0, page)));
    calls
}

/// The works of each case; then the full copy. A snapshot is accepted once, so that nothing can
/// be repeated.
fn works(_: Purpose) -> Vec<Work> {
    let mut works = Vec::new();
    for case in CASES {
        for player in PLAYERS {
            works.push(Work::play(player, text(&state(case))));
            for (call, number) in [(snapshot(0), 0), (open(0, 1), 5)] {
                let mut calls = state(case);
                calls.push(call);
                player.played(&text(&calls)).expect_last(1, number);
                works.push(Work::play(player, text(&calls)));
            }
        }
    }
    works.push(Work::CopyingSnapshot);
    works
}

fn written(costs: &Costs) -> String {
    let row = |(index, (mapped, written)): (usize, &(u16, u16))| {
        let at = [0, 1].map(|player| STRIDE * index + KINDS * player);
        let lines = at.map(|at| costs.of_call(at + 1, at, 1));
        let own_works = at.map(|at| costs.of_call(at + 1, at + 2, 1));
        let mut row = vec![format!("{mapped} mapped, {written} written"), "0".to_string()];
        row.extend([lines[0], own_works[0], lines[1], own_works[1]].iter().map(Cost::instructions));
        row.extend(own_works.iter().map(Cost::nanoseconds));
        row
    };
    let rows: Vec<Vec<String>> = CASES.iter().enumerate().map(row).collect();
    let head = [
        "pages",
        "page bytes copied",
        "proved, a line",
        "proved, own work",
        "trusting, a line",
        "trusting, own work",
        "proved, own work, ns",
        "trusting, own work, ns",
    ];
    let copy = costs.of(STRIDE * CASES.len());
    format!(
        "{}\nThe copying machine's snapshot: 16,384 bytes, {} instructions, {} ns.\n",
        markdown(&head, &rows),
        copy.instructions(),
        copy.nanoseconds()
    )
}

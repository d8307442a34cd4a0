//! (a) Each call, beside the machines without a proof.

use crate::reach;
use crate::roll::text;
use crate::rows::{rows, Row};
use crate::states::State;
use crate::table::{markdown, ratio, Cost, Costs, Purpose, Ratio, Table};
use crate::work::{Player, Work};

pub const TABLE: Table = Table { name: "calls", works, markdown: written, rounds: 41 };

/// The machines of this table and of the mixed roll's.
pub const PLAYERS: [Player; 4] =
    [Player::Proved, Player::Trusting, Player::Unproved, Player::SameSteps];

/// For each machine: the calls of each state alone, then each row's roll.
fn works(purpose: Purpose) -> Vec<Work> {
    let rows = rows();
    let mut works = Vec::new();
    for player in PLAYERS {
        works.extend(State::ALL.map(|state| Work::play(player, text(&state.calls()))));
        works.extend(rows.iter().map(|row| {
            let measured = row.calls(purpose);
            let roll = text(&[row.state.calls(), measured.clone()].concat());
            player.played(&roll).expect_last(measured.len(), row.number);
            Work::play(player, roll)
        }));
    }
    works
}

/// Where a row's work stands, and that of its state's calls alone.
pub fn pair(rows: &[Row], row: usize, player: usize) -> (usize, usize) {
    let base = player * (State::ALL.len() + rows.len());
    (base + State::ALL.len() + row, base + rows[row].state as usize)
}

/// What a row's call costs each of the machines.
fn costs_of(costs: &Costs, rows: &[Row], row: usize) -> [Cost; PLAYERS.len()] {
    std::array::from_fn(|player| {
        let (with, without) = pair(rows, row, player);
        rows[row].cost(costs, with, without)
    })
}

fn written(costs: &Costs) -> String {
    let rows = rows();
    let line = |(index, row): (usize, &Row)| {
        line(row.title(), row.timed(), &costs_of(costs, &rows, index), &reach::CALL)
    };
    let lines: Vec<Vec<String>> = rows.iter().enumerate().map(line).collect();
    markdown(&head("state: call"), &lines)
}

/// The columns of this table and of the mixed roll's, but for the first, which is named.
pub fn head(first: &'static str) -> [&'static str; 14] {
    [
        first,
        "proved",
        "trusting",
        "ratio",
        "unproved",
        "ratio",
        "same steps",
        "ratio",
        "timed",
        "proved, ns",
        "trusting, ns",
        "ratio",
        "unproved, ns",
        "same steps, ns",
    ]
}

/// A line of this table or of the mixed roll's. A ratio to the trusting machine stands in bold
/// where it misses the aim.
pub fn line(title: String, timed: &str, costs: &[Cost; 4], aim: &Ratio) -> Vec<String> {
    let [proved, trusting, unproved, same] = costs;
    let [counted, in_time] = proved.beside(trusting).judged(aim);
    vec![
        title,
        proved.instructions(),
        trusting.instructions(),
        counted,
        unproved.instructions(),
        ratio(proved.count, unproved.count),
        same.instructions(),
        ratio(proved.count, same.count),
        timed.to_string(),
        proved.nanoseconds(),
        trusting.nanoseconds(),
        in_time,
        unproved.nanoseconds(),
        same.nanoseconds(),
    ]
}

/// Which rows are looked at: those of the ten calls, accepted or refused, or the lines
/// whose code is no call's.
#[derive(Clone, Copy, PartialEq, Eq, Debug)]
pub enum Lines {
    OfCalls,
    OfNoCall,
}

/// The name of each such row, and how often it takes what it takes the trusting machine.
pub fn beside_trusting(costs: &Costs, lines: Lines) -> Vec<(String, Ratio)> {
    let rows = rows();
    let looked_at =
        (0..rows.len()).filter(|&row| (rows[row].number == 2) == (lines == Lines::OfNoCall));
    let ratio = |row: usize| {
        let [proved, trusting, ..] = costs_of(costs, &rows, row);
        (rows[row].title(), proved.beside(&trusting))
    };
    looked_at.map(ratio).collect()
}

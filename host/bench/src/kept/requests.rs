//! (h) Ten requests that map, write and are rewound, beside a machine that keeps nothing.

use crate::roll::{map, open, rewind, snapshot, text, write, ANYWHERE, WRITE};
use crate::table::{markdown, thousands, Costs, Purpose, Table};
use crate::work::{Player, Work};
use model::Call;

pub const TABLE: Table = Table { name: "kept-requests", works, markdown: written, rounds: 21 };

const PLAYERS: [Player; 3] = [Player::Proved, Player::Trusting, Player::KeepingNothing];
const REQUESTS: usize = 10;
/// The pages of the snapshot; a request's pages come behind them.
const SNAPSHOT_PAGES: u16 = 16;

/// A request: its maps, and how many of the pages it maps are written, the last ones.
struct Kind {
    title: &'static str,
    maps: &'static [u16],
    written: u16,
    /// Whether the maps name their pages, and so take no run.
    named: bool,
}

const KINDS: [Kind; 6] = [
    Kind { title: "1 page", maps: &[1], written: 1, named: false },
    Kind { title: "8 pages", maps: &[8], written: 8, named: false },
    Kind { title: "32 pages", maps: &[32], written: 32, named: false },
    Kind { title: "1, 4 and 8 pages", maps: &[1, 4, 8], written: 13, named: false },
    Kind { title: "8 pages, the last 4 written", maps: &[8], written: 4, named: false },
    Kind { title: "8 pages, named", maps: &[8], written: 8, named: true },
];

impl Kind {
    fn calls(&self) -> Vec<Call> {
        let (mut calls, mut end) = (Vec::new(), SNAPSHOT_PAGES);
        for &pages in self.maps {
            calls.push(map(0, if self.named { end } else { ANYWHERE }, pages, WRITE));
            end += pages;
        }
        calls.extend((end - self.written..end).map(|page| write(0, page)));
        calls.push(rewind(0));
        calls
    }
}

/// One sandbox with a share of all 128 frames and a snapshot of written pages.
fn state() -> Vec<Call> {
    let mut calls = vec![open(0, 128), map(0, 0, SNAPSHOT_PAGES, WRITE)];
    calls.extend((0..SNAPSHOT_PAGES).map(|page| write(0, page)));
    calls.push(snapshot(0));
    calls
}

/// For each machine: the state's calls alone, then ten requests of each kind.
fn works(_: Purpose) -> Vec<Work> {
    let mut works = Vec::new();
    for player in PLAYERS {
        works.push(Work::play(player, text(&state())));
        for kind in &KINDS {
            let roll = text(&[state(), kind.calls().repeat(REQUESTS)].concat());
            player.played(&roll).expect_last(1, 0);
            works.push(Work::play(player, roll));
        }
    }
    works
}

/// How many frames the writes of each request took anew.
fn taken(player: Player, kind: &Kind) -> Vec<usize> {
    let (before, request) = (state().len(), kind.calls());
    let calls = [state(), request.repeat(REQUESTS)].concat();
    let mut taken = vec![0; REQUESTS];
    for line in (before..calls.len()).filter(|&line| calls[line].code == 6) {
        taken[(line - before) / request.len()] += player.fronts_set(&calls, line);
    }
    taken
}

/// Numbers of which the last ones are the same: "4, 4, then 0".
fn listed(numbers: &[usize]) -> String {
    let last = numbers[numbers.len() - 1];
    let before = numbers.iter().rposition(|&number| number != last).map_or(0, |at| at + 1);
    let mut parts: Vec<String> = numbers[..before].iter().map(usize::to_string).collect();
    parts.push(if before == 0 { format!("{last} each") } else { format!("then {last}") });
    parts.join(", ")
}

fn written(costs: &Costs) -> String {
    let row = |(index, kind): (usize, &Kind)| {
        let pair = |player: usize| {
            let base = player * (1 + KINDS.len());
            (base + 1 + index, base)
        };
        let mut row = vec![
            kind.title.to_string(),
            (usize::from(kind.written) * REQUESTS).to_string(),
            listed(&taken(Player::Proved, kind)),
            listed(&taken(Player::KeepingNothing, kind)),
        ];
        let players = 0..PLAYERS.len();
        row.extend(players.clone().map(|player| {
            let (with, without) = pair(player);
            thousands(costs.counts.difference(with, without))
        }));
        row.extend(players.map(|player| costs.time_of_call(pair(player).0, pair(player).1, 1)));
        row
    };
    let rows: Vec<Vec<String>> = KINDS.iter().enumerate().map(row).collect();
    let head = [
        "a request maps",
        "writes",
        "taken anew in a request",
        "taken anew, keeping nothing",
        "proved",
        "trusting",
        "keeping nothing",
        "proved, ns",
        "trusting, ns",
        "keeping nothing, ns",
    ];
    markdown(&head, &rows)
}

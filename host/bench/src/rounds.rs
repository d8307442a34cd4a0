//! (e) Ten rounds of writes and a rewind, beside a machine whose rewind frees its fronts;
//! and the adverse case, one large request.

use crate::roll::{change, open, rewind, text};
use crate::table::{markdown, thousands, Costs, Purpose, Table};
use crate::work::{Player, Work};
use model::Call;

pub const TABLE: Table = Table { name: "rounds", works, markdown: written, rounds: 21 };
pub const ADVERSE: Table =
    Table { name: "adverse", works: adverse_works, markdown: adverse_written, rounds: 41 };

const PLAYERS: [Player; 3] = [Player::Proved, Player::Trusting, Player::Dropping];
const PAGES: [u16; 5] = [1, 4, 7, 16, 32];
const ROUNDS: usize = 10;
const REPEATS: usize = 64;

/// 64 pages mapped, all written before the snapshot.
fn state() -> Vec<Call> {
    crate::rewind::state(0, true)
}

fn rounds(pages: u16) -> Vec<Call> {
    let mut round: Vec<Call> = (0..pages).map(|page| change(0, page)).collect();
    round.push(rewind(0));
    round.repeat(ROUNDS)
}

/// For each machine: the state's calls alone, then the rounds of each number of pages.
fn works(_: Purpose) -> Vec<Work> {
    let mut works = Vec::new();
    for player in PLAYERS {
        works.push(Work::play(player, text(&state())));
        for pages in PAGES {
            let roll = text(&[state(), rounds(pages)].concat());
            player.played(&roll).expect_last(1, 0);
            works.push(Work::play(player, roll));
        }
    }
    works
}

/// How many writes of the rounds took a frame.
fn taking_writes(player: Player, pages: u16) -> usize {
    let calls = [state(), rounds(pages)].concat();
    let writes = (state().len()..calls.len()).filter(|&line| calls[line].code == 6);
    writes.map(|line| player.fronts_set(&calls, line)).sum()
}

fn written(costs: &Costs) -> String {
    let mut rows = Vec::new();
    for (index, pages) in PAGES.into_iter().enumerate() {
        let pair = |player: usize| {
            let base = player * (1 + PAGES.len());
            (base + 1 + index, base)
        };
        let count = |player| thousands(costs.counts.difference(pair(player).0, pair(player).1));
        let time = |player| costs.time_of_call(pair(player).0, pair(player).1, 1);
        rows.push(vec![
            pages.to_string(),
            (usize::from(pages) * ROUNDS).to_string(),
            taking_writes(Player::Proved, pages).to_string(),
            taking_writes(Player::Dropping, pages).to_string(),
            count(0),
            count(1),
            count(2),
            time(0),
            time(1),
            time(2),
        ]);
    }
    let head = [
        "pages a round",
        "writes",
        "taking a frame",
        "taking a frame, dropping",
        "proved",
        "trusting",
        "dropping",
        "proved, ns",
        "trusting, ns",
        "dropping, ns",
    ];
    markdown(&head, &rows)
}

/// What came before the measured rewind: how many pages the first request wrote.
const FIRST_REQUESTS: [u16; 2] = [1, 64];

/// A first request and its rewind, then a request that writes one page.
fn after_request(pages: u16) -> Vec<Call> {
    let mut calls = crate::rewind::state(pages, true);
    calls.extend([rewind(0), change(0, 0)]);
    calls
}

/// For each machine and first request: the rewind of a request of one page, and a call
/// that is refused as soon as the state is known.
fn adverse_works(purpose: Purpose) -> Vec<Work> {
    let repeats = if purpose == Purpose::Time { REPEATS } else { 1 };
    let mut works = Vec::new();
    for player in PLAYERS {
        for pages in FIRST_REQUESTS {
            // So that each rewind has a request before it.
            for (last, number) in [([change(0, 0), rewind(0)], 0), ([change(0, 0), open(0, 1)], 5)]
            {
                let mut calls = after_request(pages);
                calls.extend(last.repeat(repeats));
                let played = player.played(&text(&calls));
                assert_eq!(played.reply(calls.len() - 1).0, number);
                works.push(Work::play(player, text(&calls)));
            }
        }
    }
    works
}

fn adverse_written(costs: &Costs) -> String {
    let mut rows = Vec::new();
    for (index, pages) in FIRST_REQUESTS.into_iter().enumerate() {
        let fronts = |player: Player| player.played(&text(&after_request(pages))).fronts();
        let at = |player: usize| (player * FIRST_REQUESTS.len() + index) * 2;
        let count = |player| thousands(costs.counts.difference(at(player), at(player) + 1));
        let time = |player| costs.time_of_call(at(player), at(player) + 1, REPEATS);
        rows.push(vec![
            pages.to_string(),
            fronts(Player::Proved).to_string(),
            fronts(Player::Dropping).to_string(),
            count(0),
            count(1),
            count(2),
            time(0),
            time(1),
            time(2),
        ]);
    }
    let head = [
        "pages of the first request",
        "pages restored later",
        "freed later, dropping",
        "proved, own work",
        "trusting",
        "dropping",
        "proved, ns",
        "trusting, ns",
        "dropping, ns",
    ];
    markdown(&head, &rows)
}

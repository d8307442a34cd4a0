//! Calls and rewinds a second, over rolls of the greatest length.

use crate::mixed;
use crate::rewind;
use crate::roll::{self, change, text};
use crate::table::{markdown, thousands, Costs, Purpose, Table, NOT_MEASURED};
use crate::work::{Player, Work};
use model::{Call, LINES};

/// Times alone: counting so many instructions would take minutes.
pub const TABLE: Table = Table { name: "throughput", works, markdown: written, rounds: 21 };

const PLAYERS: [Player; 3] = [Player::Proved, Player::Trusting, Player::Unproved];
const DIRTY: u16 = 7;

/// A roll, and how many of what is counted a second it has.
struct Load {
    title: String,
    roll: Vec<u8>,
    units: usize,
}

fn loads() -> [Load; 3] {
    let mixed = mixed::roll(LINES);
    let accepted = thousands(mixed::accepted(&mixed) as i64);
    let rewinds = repeated(&[roll::rewind(0)]);
    let mut request: Vec<Call> = (0..DIRTY).map(|page| change(0, page)).collect();
    request.push(roll::rewind(0));
    let requests = repeated(&request);
    [
        Load {
            title: format!("calls, mixed roll, {accepted} accepted"),
            roll: mixed,
            units: LINES,
        },
        // One right behind the other: of all but the first, nothing differs.
        Load { title: format!("rewinds, {DIRTY} of 64 pages with a front"), ..rewinds },
        Load { title: format!("requests of {DIRTY} writes and a rewind of them"), ..requests },
    ]
}

/// The state of (b) with dirty pages, then some calls as often as the roll has room for them.
fn repeated(calls: &[Call]) -> Load {
    let state = rewind::state(DIRTY, true);
    let units = (LINES - state.len()) / calls.len();
    let roll = text(&[state, calls.repeat(units)].concat());
    Player::Proved.played(&roll).expect_last(1, 0);
    Load { title: String::new(), roll, units }
}

/// Each roll, by each machine.
fn works(purpose: Purpose) -> Vec<Work> {
    if purpose == Purpose::Count {
        return Vec::new();
    }
    let works = |load: Load| PLAYERS.map(|player| Work::play(player, load.roll.clone()));
    loads().into_iter().flat_map(works).collect()
}

fn written(costs: &Costs) -> String {
    let row = |(index, load): (usize, &Load)| {
        let rate = |player: usize| {
            let time = costs.times.as_ref()?.get(PLAYERS.len() * index + player);
            Some(load.units as f64 * 1e9 / time)
        };
        let rates = [0, 1, 2].map(rate);
        let a_second = |rate: Option<f64>| {
            rate.map_or(NOT_MEASURED.to_string(), |rate| thousands(rate.round() as i64))
        };
        let ratio = rates[0].zip(rates[1]);
        let mut row = vec![load.title.clone()];
        row.extend(rates.map(a_second));
        row.push(
            ratio.map_or(NOT_MEASURED.to_string(), |(one, other)| format!("{:.2}", one / other)),
        );
        row
    };
    let rows: Vec<Vec<String>> = loads().iter().enumerate().map(row).collect();
    markdown(&["a second", "proved", "trusting", "unproved", "proved ÷ trusting"], &rows)
}

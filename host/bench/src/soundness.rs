//! (j) The test of soundness alone.

use crate::roll::{call, report, text};
use crate::states::State;
use crate::stepwise;
use crate::table::{markdown, Cost, Costs, Purpose, Table};
use crate::work::{Player, Work};
use model::Call;

pub const TABLE: Table = Table { name: "test", works, markdown: written, rounds: 41 };

const PLAYERS: [Player; 3] = [Player::Proved, Player::Unproved, Player::SameSteps];
const REPEATS: usize = 64;

/// A call that is refused as soon as the state is found sound, since there is no sandbox 4; and
/// one that is refused before the test, since its code is no call's. The proved machine's calls
/// are made one at a time over a state in bytes, where each is tested; the others' are lines of
/// a roll.
pub fn tested_and_not(player: Player, state: &[Call], purpose: Purpose) -> [Work; 2] {
    let repeats = if purpose == Purpose::Time { REPEATS } else { 1 };
    [(report(4), 4), (call(0, 0, [0; 5]), 2)].map(|(last, number)| {
        let calls = [state, &vec![last; repeats]].concat();
        if player == Player::Proved {
            stepwise::expect_last(&calls, repeats, number);
            return Work::calls(&calls);
        }
        player.played(&text(&calls)).expect_last(repeats, number);
        Work::play(player, text(&calls))
    })
}

/// What the test costs, by the two works.
pub fn cost(costs: &Costs, tested: usize) -> Cost {
    costs.of_call(tested, tested + 1, REPEATS)
}

fn works(purpose: Purpose) -> Vec<Work> {
    let of = |state: State| {
        PLAYERS.into_iter().flat_map(move |player| tested_and_not(player, &state.calls(), purpose))
    };
    State::TESTED.into_iter().flat_map(of).collect()
}

/// What the test of a state costs each of the machines.
fn costs_of(costs: &Costs, state: State) -> [Cost; PLAYERS.len()] {
    let first = 2 * PLAYERS.len() * state as usize;
    std::array::from_fn(|player| cost(costs, first + 2 * player))
}

fn written(costs: &Costs) -> String {
    let row = |state: State| {
        let machines = costs_of(costs, state);
        let mut row = vec![state.name().to_string()];
        row.extend(machines.iter().map(Cost::instructions));
        row.extend(machines.iter().map(Cost::nanoseconds));
        row
    };
    let head = [
        "state",
        "proved",
        "unproved",
        "same steps",
        "proved, ns",
        "unproved, ns",
        "same steps, ns",
    ];
    markdown(&head, &State::TESTED.map(row))
}

/// What the proved machine's test of the busy state costs.
pub fn of_busy(costs: &Costs) -> Cost {
    costs_of(costs, State::Busy)[0]
}

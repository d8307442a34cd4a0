//! (a) A mixed roll: random calls chosen with the machine's state in view.

use crate::calls::{head, line, PLAYERS};
use crate::reach;
use crate::roll::{image, text};
use crate::table::{markdown, thousands, Cost, Costs, Purpose, Ratio, Table};
use crate::work::{Player, Work};
use model::{Answering, Machine};
use rolls::{Prng, Steering, PLAYER_FRAMES};

pub const TABLE: Table = Table { name: "mixed", works, markdown: written, rounds: 21 };

const LINES: usize = 1_000;
const SEED: u64 = 1;

/// The first lines of a random roll; the choice of the next call looks at the machine's state.
pub fn roll(lines: usize) -> Vec<u8> {
    let mut machine = Machine::fresh(&image(), PLAYER_FRAMES);
    let mut steering = Steering::new(Prng::new(SEED));
    let mut calls = Vec::new();
    for _ in 0..lines {
        let call = steering.next_call(&machine);
        machine.answer(&call);
        calls.push(call);
    }
    text(&calls)
}

/// How many lines of a roll are accepted.
pub fn accepted(roll: &[u8]) -> usize {
    let played = Player::Proved.played(roll);
    (0..roll.len() / model::LINE_BYTES).filter(|&line| played.reply(line).0 == 0).count()
}

/// For each machine: an empty roll, which is the start alone, and the mixed roll.
fn works(_: Purpose) -> Vec<Work> {
    let roll = roll(LINES);
    let both = |player| [Work::play(player, Vec::new()), Work::play(player, roll.clone())];
    PLAYERS.into_iter().flat_map(both).collect()
}

/// What a line costs each of the machines.
fn costs_of(costs: &Costs) -> [Cost; PLAYERS.len()] {
    std::array::from_fn(|player| {
        let Cost { count, time } = costs.of_call(2 * player + 1, 2 * player, LINES);
        Cost { count: count / LINES as i64, time }
    })
}

fn written(costs: &Costs) -> String {
    let lines = thousands(LINES as i64);
    let title = format!("{lines} lines, {} accepted; for each line", accepted(&roll(LINES)));
    let row = line(title, "a line", &costs_of(costs), &reach::MIXED);
    markdown(&head("mixed roll"), &[row])
}

/// How often a line takes what it takes the trusting machine.
pub fn beside_trusting(costs: &Costs) -> Ratio {
    let [proved, trusting, ..] = costs_of(costs);
    proved.beside(&trusting)
}

//! (f) The calls of (a) made one at a time, beside the same calls as lines of a roll.

use crate::calls::pair;
use crate::roll::text;
use crate::rows::{rows, Row};
use crate::states::State;
use crate::table::{markdown, ratio, thousands, Costs, Purpose, Table};
use crate::work::{Player, Work};
use gazhuppin::{Call, Machine};

pub const TABLE: Table = Table { name: "stepwise", works, markdown: written, rounds: 41 };

/// How the calls are made.
#[derive(Clone, Copy, PartialEq, Eq, Debug)]
enum Way {
    OneAtATime,
    Roll,
}

const WAYS: [Way; 2] = [Way::OneAtATime, Way::Roll];

impl Way {
    fn work(self, calls: &[model::Call]) -> Work {
        match self {
            Way::OneAtATime => Work::calls(calls),
            Way::Roll => Work::play(Player::Proved, text(calls)),
        }
    }
}

/// For each way: the calls of each state alone, then with each row's call.
fn works(purpose: Purpose) -> Vec<Work> {
    let rows = rows();
    let mut works = Vec::new();
    for way in WAYS {
        works.extend(State::ALL.map(|state| way.work(&state.calls())));
        works.extend(rows.iter().map(|row| {
            let measured = row.calls(purpose);
            let calls = [row.state.calls(), measured.clone()].concat();
            expect_last(&calls, measured.len(), row.number);
            way.work(&calls)
        }));
    }
    works
}

/// Asserts that the last calls are answered with this number, and all before them accepted.
pub fn expect_last(calls: &[model::Call], last: usize, number: u32) {
    let mut machine = Machine::start(crate::roll::image(), 128).expect("right lengths");
    for (index, &model::Call { code, sandbox, parameters }) in calls.iter().enumerate() {
        let told = machine.answer(&Call { code, sandbox, parameters });
        let told = told.err().map_or(0, |why| why.number());
        let measured = calls.len() - last;
        let expected = if index < measured { State::before(index, told) } else { number };
        assert_eq!(told, expected, "measured call {index}");
    }
}

fn written(costs: &Costs) -> String {
    let rows = rows();
    let line = |(index, row): (usize, &Row)| {
        let [call, line] = [0, 1].map(|way| {
            let (with, without) = pair(&rows, index, way);
            row.cost(costs, with, without)
        });
        vec![
            row.title(),
            call.instructions(),
            line.instructions(),
            thousands(call.count - line.count),
            ratio(call.count, line.count),
            row.timed().to_string(),
            call.nanoseconds(),
            line.nanoseconds(),
        ]
    };
    let lines: Vec<Vec<String>> = rows.iter().enumerate().map(line).collect();
    let head =
        ["state: call", "a call", "a line", "more", "ratio", "timed", "a call, ns", "a line, ns"];
    markdown(&head, &lines)
}

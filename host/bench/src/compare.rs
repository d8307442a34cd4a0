//! (g) "Still clean?" against fronts, beside a bare comparison of pages.

use crate::rewind;
use crate::roll::{compare, open, store, text};
use crate::table::{markdown, thousands, Costs, Purpose, Table};
use crate::work::{Player, Work};
use model::{Call, PAGES, PAGE_BYTES};

pub const TABLE: Table = Table { name: "compare", works, markdown: written, rounds: 41 };

const PLAYERS: [Player; 3] = [Player::Proved, Player::Unproved, Player::SameSteps];
const REPEATS: usize = 256;

/// 64 committed pages, the lowest of them with fronts that hold the snapshot's bytes.
#[derive(Clone, Copy)]
struct Case {
    fronts: u16,
    /// The one page whose front holds another byte.
    differs: Option<u16>,
}

const CASES: [Case; 6] = [clean(0), clean(1), clean(7), clean(64), dirty(0), dirty(63)];
/// For each case compare and a refused call of each machine, with backs and without.
const STRIDE: usize = 2 * 2 * PLAYERS.len();

const fn clean(fronts: u16) -> Case {
    Case { fronts, differs: None }
}

/// With all fronts.
const fn dirty(page: u16) -> Case {
    Case { fronts: 64, differs: Some(page) }
}

impl Case {
    /// The state of (b) without dirty pages; then each front gets a byte of its own, and the
    /// snapshot's byte again.
    fn calls(self, backs: bool) -> Vec<Call> {
        let mut calls = rewind::state(0, backs);
        for page in 0..self.fronts {
            let old = if backs { 1 + page } else { 0 };
            calls.extend([store(0, page, 200), store(0, page, old)]);
        }
        calls.extend(self.differs.map(|page| store(0, page, 200)));
        calls
    }

    fn answer(self) -> u16 {
        self.differs.unwrap_or(PAGES as u16)
    }

    /// How many pages have to be compared: those with a front, up to the answer.
    fn compared(self) -> usize {
        usize::from(self.fronts.min(self.answer() + 1))
    }

    /// The bytes of frames that are read for it: of each compared page's front, and of its
    /// back if it has one.
    fn frame_bytes(self, backs: bool) -> usize {
        let table = Player::Proved.played(&text(&self.calls(backs))).table;
        let fronts = table[..self.compared()].iter().filter(|&&entry| entry != 0).count();
        let backs = table[PAGES..][..self.compared()].iter().filter(|&&entry| entry != 0).count();
        (fronts + backs) * PAGE_BYTES
    }

    fn title(self) -> String {
        match self.differs {
            None => self.fronts.to_string(),
            Some(page) => format!("{}, page {page} differs", self.fronts),
        }
    }
}

/// For each case and machine compare, and a call that is refused as soon as the state is known;
/// then a bare comparison of as many pages as each case compares.
fn works(purpose: Purpose) -> Vec<Work> {
    let repeats = if purpose == Purpose::Time { REPEATS } else { 1 };
    let mut works = Vec::new();
    for case in CASES {
        for backs in [true, false] {
            for player in PLAYERS {
                for (call, number) in [(compare(0), 0), (open(0, 1), 5)] {
                    let mut calls = case.calls(backs);
                    calls.extend(vec![call; repeats]);
                    let played = player.played(&text(&calls));
                    played.expect_last(repeats, number);
                    let value = if number == 0 { u32::from(case.answer()) } else { 0 };
                    assert_eq!(played.reply(calls.len() - 1).1, value);
                    works.push(Work::play(player, text(&calls)));
                }
            }
        }
    }
    works.extend(CASES.map(|case| Work::BareComparison { pages: case.compared() }));
    works
}

/// Where a machine's compare stands; its refused call is the next.
fn place(case: usize, backs: bool, player: usize) -> usize {
    STRIDE * case + if backs { 0 } else { STRIDE / 2 } + 2 * player
}

/// Where the bare comparison of a case's pages stands.
fn bare(case: usize) -> usize {
    STRIDE * CASES.len() + case
}

fn written(costs: &Costs) -> String {
    let mut text = String::new();
    for backs in [true, false] {
        let rows: Vec<Vec<String>> =
            (0..CASES.len()).map(|index| row(costs, index, backs)).collect();
        let kind = match backs {
            true => "Pages with a back (a front is compared with it)",
            false => "Pages without a back (a front is compared with zero bytes)",
        };
        text.push_str(&format!("{kind}:\n\n"));
        text.push_str(&markdown(
            &[
                "fronts",
                "answer",
                "bytes of frames read",
                "proved, own work",
                "unproved, own work",
                "same steps, own work",
                "bare comparison",
                "proved, own work, ns",
                "unproved, own work, ns",
                "same steps, own work, ns",
                "bare comparison, ns",
            ],
            &rows,
        ));
        text.push('\n');
    }
    let all = CASES.iter().position(|case| case.compared() == PAGES);
    let all = bare(all.expect("a case compares all pages"));
    text.push_str(&format!(
        "All 64 pages compared, whatever was written: 32,768 bytes, {} instructions, {} ns.\n",
        thousands(costs.counts.get(all)),
        costs.time(all)
    ));
    text
}

fn row(costs: &Costs, index: usize, backs: bool) -> Vec<String> {
    let case = CASES[index];
    let count = |player: usize| {
        let at = place(index, backs, player);
        thousands(costs.counts.difference(at, at + 1))
    };
    let time = |player: usize| {
        let at = place(index, backs, player);
        costs.time_of_call(at, at + 1, REPEATS)
    };
    vec![
        case.title(),
        case.answer().to_string(),
        thousands(case.frame_bytes(backs) as i64),
        count(0),
        count(1),
        count(2),
        thousands(costs.counts.get(bare(index))),
        time(0),
        time(1),
        time(2),
        costs.time(bare(index)),
    ]
}

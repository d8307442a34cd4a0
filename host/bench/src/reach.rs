//! What is reached and what is not, judged by what was measured.

use crate::calls::{self, Lines};
use crate::table::{markdown, reaches, Cost, Costs, Measure, Ratio, NOT_MEASURED};
use crate::{mixed, rewind, soundness};

/// The most that a line of a roll is to cost beside the trusting machine's.
pub const CALL: Ratio = Ratio { count: 1.0, time: Some(1.1) };
/// The same of a line of the mixed roll.
pub const MIXED: Ratio = Ratio { count: 0.8, time: Some(1.1) };
/// The most that a rewind's own work is to cost beside a bare copy of the dirty pages, and at how
/// many dirty pages. It compares as it copies: 2.0 was the most of one that did not.
pub const REWIND: Ratio = Ratio { count: 2.5, time: Some(2.0) };
pub const REWIND_AT: [u16; 2] = [7, 64];
/// The most instructions of the test of soundness in the busy state.
const MOST_OF_TEST: i64 = 6_000;

/// What was measured, and whether that reaches the aim where there is one.
type Judgement = (String, Option<bool>);
/// Of what was counted, and of what was timed.
type Judged = [Option<Judgement>; 2];

/// The tables that are judged.
pub struct Measured<'a> {
    pub calls: &'a Costs,
    pub mixed: &'a Costs,
    pub rewind: &'a Costs,
    pub test: &'a Costs,
}

/// The part of the report that says so: the aims, then what stands beside them.
pub fn written(measured: &Measured) -> String {
    let Measured { calls, mixed, rewind, test } = measured;
    let dearest = |lines| dearest(&calls::beside_trusting(calls, lines));
    let [few, all] = REWIND_AT;
    let own_work = |dirty| own_work(&rewind::beside_bare_copy(rewind, dirty));
    let rows = [
        row(
            "(a) dearest call, at most 1.0 × the trusting machine; in time 1.1 ×",
            dearest(Lines::OfCalls),
        ),
        row("(a) line whose code is no call's, the same", dearest(Lines::OfNoCall)),
        row(
            "(a) mixed roll, at most 0.8 × the trusting machine; in time 1.1 ×",
            within(&mixed::beside_trusting(mixed), &MIXED),
        ),
        row(
            "(b) a rewind's own work at 7 dirty pages, at most 2.5 × the bare copy; in time 2.0 ×",
            own_work(few),
        ),
        row(
            "(b) a rewind's own work at 64 dirty pages, at most 2.5 × the bare copy; in time 2.0 ×",
            own_work(all),
        ),
        row(
            "(j) the test of soundness, busy state, at most 6,000 instructions",
            test_within(&soundness::of_busy(test)),
        ),
        row(
            "beside (b): a rewind's whole line at 7 dirty pages, at most a full copy",
            at_most(rewind::line_and_full_copy(rewind, few)),
        ),
        row(
            "beside (b): the same at 64 dirty pages",
            at_most(rewind::line_and_full_copy(rewind, all)),
        ),
        row(
            "beside (b): each further dirty page, at most 2.5 × the bare copy's; in time 2.0 ×",
            within(&rewind::further_page(rewind), &REWIND),
        ),
    ];
    markdown(&["aim", "instructions", "reached", "time", "reached"], &rows)
}

fn row(name: &str, [counted, timed]: Judged) -> Vec<String> {
    let mut row = vec![name.to_string()];
    for judged in [counted, timed] {
        let (text, reached) = judged.unwrap_or((NOT_MEASURED.to_string(), None));
        let word = reached.map_or(NOT_MEASURED, |reached| if reached { "yes" } else { "**no**" });
        row.extend([text, word.to_string()]);
    }
    row
}

/// Judges what was counted and what was timed.
fn both(judge: impl Fn(Measure) -> Option<Judgement>) -> Judged {
    Measure::BOTH.map(judge)
}

fn within(ratio: &Ratio, most: &Ratio) -> Judged {
    both(|by| {
        let (ratio, most) = (ratio.by(by)?, most.by(by)?);
        Some((format!("{ratio:.2} ×"), Some(reaches(ratio, most))))
    })
}

/// The dearest of some rows, and how many miss the aim.
fn dearest(rows: &[(String, Ratio)]) -> Judged {
    both(|by| {
        let most = CALL.by(by)?;
        let measured = || rows.iter().filter_map(|(name, ratio)| Some((ratio.by(by)?, name)));
        let (ratio, name) = measured().max_by(|a, b| a.0.total_cmp(&b.0))?;
        let missed = measured().filter(|row| !reaches(row.0, most)).count();
        let text = format!("{ratio:.2} × ({name}); {missed} of {} miss", measured().count());
        Some((text, Some(missed == 0)))
    })
}

/// A rewind's own work, of pages with backs and of pages without.
fn own_work([with, without]: &[Ratio; 2]) -> Judged {
    both(|by| {
        let (with, without, most) = (with.by(by)?, without.by(by)?, REWIND.by(by)?);
        let text = format!("{with:.2} × with backs, {without:.2} × without");
        Some((text, Some(reaches(with, most) && reaches(without, most))))
    })
}

/// The aim is one of instructions; the time stands beside it.
fn test_within(cost: &Cost) -> Judged {
    let timed = cost.time.map(|_| (format!("{} ns", cost.nanoseconds()), None));
    [Some((cost.instructions(), Some(cost.count <= MOST_OF_TEST))), timed]
}

fn at_most((line, copy): (Cost, Cost)) -> Judged {
    let ratio = line.beside(&copy);
    both(|by| {
        let text = format!("{} beside {}", line.by(by), copy.by(by));
        Some((text, Some(reaches(ratio.by(by)?, 1.0))))
    })
}

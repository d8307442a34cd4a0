//! The calls that (a) and (f) measure, each with its state and with what returns to it.

use crate::roll::{
    call, change, compare, map, open, protect, read, report, rewind, snapshot, unmap, write,
    ANYWHERE, READ, WRITE,
};
use crate::states::{full_pages, State};
use crate::table::{Cost, Costs, Purpose, NOT_MEASURED};
use model::Call;

/// How often a timed call, with what returns to its state, stands in its roll.
const REPEATS: usize = 64;

/// A call measured in a state: what the state's calls cost is taken off.
pub struct Row {
    name: &'static str,
    pub state: State,
    pub call: Call,
    /// The refusal's number, 0 where the call is accepted.
    pub number: u32,
    back: Back,
}

/// How a call can be made again with the same work.
enum Back {
    /// At once.
    AtOnce,
    /// After these calls, which return to the state; and their names.
    After(&'static str, Vec<Call>),
    /// Not at all: no call closes a sandbox or drops a snapshot.
    Never,
}

impl Row {
    fn new(state: State, name: &'static str, call: Call, back: Back) -> Row {
        Row { name, state, call, number: 0, back }
    }

    fn refused(state: State, name: &'static str, call: Call, number: u32) -> Row {
        Row { name, state, call, number, back: Back::AtOnce }
    }

    pub fn title(&self) -> String {
        format!("{}: {}", self.state.name(), self.name)
    }

    /// The call and what returns to its state; `None` where nothing does.
    pub fn group(&self) -> Option<Vec<Call>> {
        match &self.back {
            Back::AtOnce => Some(vec![self.call]),
            Back::After(_, calls) => Some([&[self.call], &calls[..]].concat()),
            Back::Never => None,
        }
    }

    /// What of the row is timed.
    pub fn timed(&self) -> &'static str {
        match self.back {
            Back::AtOnce => "the call",
            Back::After(names, _) => names,
            Back::Never => NOT_MEASURED,
        }
    }

    /// What follows the state's calls in the row's roll: the call once to be counted, 64 times
    /// with what returns to its state to be timed.
    pub fn calls(&self, purpose: Purpose) -> Vec<Call> {
        match (purpose, self.group()) {
            (Purpose::Time, Some(group)) => group.repeat(REPEATS),
            _ => vec![self.call],
        }
    }

    /// The call's instructions, and the time of it with what returns to its state.
    pub fn cost(&self, costs: &Costs, with: usize, without: usize) -> Cost {
        let Cost { count, time } = costs.of_call(with, without, REPEATS);
        Cost { count, time: time.filter(|_| self.group().is_some()) }
    }
}

pub fn rows() -> Vec<Row> {
    let unknown = call(0, 0, [0; 5]);
    // Only the first line of a roll is a first line: it cannot be made again.
    let first = Row {
        number: 2,
        ..Row::new(State::First, "unknown code, refused 2", unknown, Back::Never)
    };
    let mut rows = vec![
        first,
        Row::new(State::Closed, "open", open(0, 16), Back::Never),
        Row::refused(State::Closed, "report, refused 4", report(0), 4),
        Row::refused(State::Closed, "unknown code, refused 2", unknown, 2),
    ];
    rows.extend(busy());
    rows.extend([
        Row::refused(State::Busy, "compare, refused 8", compare(2), 8),
        Row::refused(State::Busy, "open again, refused 5", open(0, 1), 5),
        Row::refused(State::Busy, "unknown code, refused 2", unknown, 2),
    ]);
    rows.extend(full());
    rows.push(Row::refused(State::Full, "open again, refused 5", open(0, 1), 5));
    rows.push(Row::new(
        State::Changed,
        "rewind, 16 fronts, all differ",
        rewind(0),
        Back::After("with 16 writes", full_pages().map(|page| change(0, page)).collect()),
    ));
    rows
}

/// The calls that the busy state accepts.
fn busy() -> Vec<Row> {
    let row = |name, call, back| Row::new(State::Busy, name, call, back);
    // The uncommitted pages of sandbox 0 again, and their front.
    let mapped_again = [map(0, 24, 2, WRITE), write(0, 24)];
    // A front on a committed page goes by an unmap of the page, which a rewind maps again.
    let taken = |page| Back::After("with unmap, rewind", vec![unmap(1, page, 1), rewind(1)]);
    vec![
        row("open", open(3, 16), Back::Never),
        row(
            "map, 4 pages, named",
            map(0, 30, 4, WRITE),
            Back::After("with unmap", vec![unmap(0, 30, 4)]),
        ),
        row(
            "map, 4 pages, lowest gap",
            map(0, ANYWHERE, 4, WRITE),
            Back::After("with unmap", vec![unmap(0, 12, 4)]),
        ),
        row(
            "unmap, 2 pages, 1 front",
            unmap(0, 24, 2),
            Back::After("with map, write", mapped_again.to_vec()),
        ),
        row(
            "unmap, 16 pages, 2 gaps, 1 front",
            unmap(0, 10, 16),
            Back::After("with rewind, map, write", [&[rewind(0)], &mapped_again[..]].concat()),
        ),
        row("unmap, 4 pages, none mapped", unmap(0, 30, 4), Back::AtOnce),
        row(
            "protect, 4 pages",
            protect(0, 8, 4, READ),
            Back::After("with protect back", vec![protect(0, 8, 4, WRITE)]),
        ),
        row("read, front", read(0, 0), Back::AtOnce),
        row("read, back", read(0, 2), Back::AtOnce),
        row("read, image", read(0, 10), Back::AtOnce),
        row("write, front there", write(0, 0), Back::AtOnce),
        row("write, takes a frame over a back", write(1, 1), taken(1)),
        row("write, takes a zero frame", write(1, 5), taken(5)),
        row("write, takes a frame over the image", write(1, 34), taken(34)),
        row("snapshot, 12 pages", snapshot(2), Back::Never),
        row(
            "rewind, 6 fronts, 2 differ",
            rewind(0),
            // The map takes the frame that the rewind kept; pages 3 and 9 have no back.
            Back::After(
                "with map, 2 writes",
                vec![map(0, ANYWHERE, 2, WRITE), write(0, 3), write(0, 9)],
            ),
        ),
        row("report", report(0), Back::AtOnce),
        row("compare, page 3 differs", compare(0), Back::AtOnce),
    ]
}

/// The calls that the full state accepts.
fn full() -> Vec<Row> {
    let row = |name, call, back| Row::new(State::Full, name, call, back);
    let written_again = |pages: &mut dyn Iterator<Item = u16>| {
        let mut calls = vec![rewind(0)];
        calls.extend(pages.map(|page| write(0, page)));
        calls
    };
    vec![
        row(
            "unmap, 2 pages, 2 fronts",
            unmap(0, 56, 2),
            Back::After("with rewind, 2 writes", written_again(&mut [56, 57].into_iter())),
        ),
        row(
            "unmap, 64 pages, 8 gaps, 16 fronts",
            unmap(0, 0, 64),
            Back::After("with rewind, 16 writes", written_again(&mut full_pages())),
        ),
        row(
            "protect, 2 pages",
            protect(0, 56, 2, READ),
            Back::After("with protect back", vec![protect(0, 56, 2, WRITE)]),
        ),
        row("read, front", read(0, 57), Back::AtOnce),
        row("write, front there", write(0, 57), Back::AtOnce),
        row("rewind, 16 fronts, none differs", rewind(0), Back::AtOnce),
        row("report", report(0), Back::AtOnce),
        row("compare, 16 fronts, clean", compare(0), Back::AtOnce),
    ]
}

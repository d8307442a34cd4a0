//! (b) Rewind against dirty pages, beside the copying machine and a bare copy.

use crate::reach;
use crate::roll::{change, change_at, map, open, rewind, snapshot, store, text, write, WRITE};
use crate::svg::{plot, Curve, Panel};
use crate::table::{markdown, thousands, Cost, Costs, Purpose, Ratio, Table, NOT_MEASURED};
use crate::work::{Player, Work};
use model::{Call, PAGE_BYTES};

pub const TABLE: Table = Table { name: "rewind", works, markdown: written, rounds: 41 };

pub const DIRTY: [u16; 9] = [0, 1, 2, 4, 7, 8, 16, 32, 64];
const PLAYERS: [Player; 3] = [Player::Proved, Player::Trusting, Player::Unproved];
const REPEATS: usize = 64;
/// The works of a machine: requests alone, each with a rewind, and each with a refused call.
const KINDS: usize = 3;
/// The works of one number of dirty pages: those of each machine, with backs and without, and
/// the bare copy.
const STRIDE: usize = 2 * KINDS * PLAYERS.len() + 1;
/// Where the only byte of each dirty page lies that differs from the snapshot's.
const PLACES: [(&str, Option<u16>); 5] = [
    ("first byte", Some(0)),
    ("byte 100", Some(100)),
    ("byte 191", Some(191)),
    ("last byte", Some(255)),
    ("nowhere", None),
];
/// The machines for which it is told apart where that byte lies.
const PLAYERS_OF_PLACES: usize = 2;

/// One sandbox with all 64 pages mapped and a share of all 128 frames, and its snapshot. With
/// `backs` every page was written before it, else none was.
fn taken(backs: bool) -> Vec<Call> {
    let mut calls = vec![open(0, 128), map(0, 0, 64, WRITE)];
    if backs {
        calls.extend((0..64).map(|page| write(0, page)));
    }
    calls.push(snapshot(0));
    calls
}

/// The same; since then `dirty` pages were written, and differ from the snapshot's.
pub fn state(dirty: u16, backs: bool) -> Vec<Call> {
    let mut calls = taken(backs);
    calls.extend((0..dirty).map(|page| change(0, page)));
    calls
}

/// A request that writes one byte of each of so many pages: at this place, or, without a place, as
/// it was in the snapshot.
#[derive(Clone, Copy)]
struct Request {
    dirty: u16,
    backs: bool,
    place: Option<u16>,
}

impl Request {
    fn writes(self) -> impl Iterator<Item = Call> {
        (0..self.dirty).map(move |page| match (self.place, self.backs) {
            (Some(offset), _) => change_at(0, page, offset),
            (None, true) => write(0, page),
            (None, false) => store(0, page, 0),
        })
    }

    /// What a rewind answers to it.
    fn put_back(self) -> u32 {
        self.place.map_or(0, |_| u32::from(self.dirty))
    }

    /// A machine's works: so many requests alone, each with a rewind, and each with a call that is
    /// refused as soon as the state is known. A rewind leaves no page that differs, so that each
    /// has a request before it.
    fn works(self, player: Player, repeats: usize) -> [Work; KINDS] {
        [None, Some(rewind(0)), Some(open(0, 1))].map(|last| {
            let round: Vec<Call> = self.writes().chain(last).collect();
            let calls = [taken(self.backs), round.repeat(repeats)].concat();
            self.check(player, &calls);
            Work::play(player, text(&calls))
        })
    }

    /// Asserts that the calls are answered as the tables suppose; the first is the only open that
    /// is accepted.
    fn check(self, player: Player, calls: &[Call]) {
        let played = player.played(&text(calls));
        for (line, call) in calls.iter().enumerate() {
            let (number, value) = played.reply(line);
            let refused = call.code == 1 && line > 0;
            assert_eq!(number, if refused { 5 } else { 0 }, "line {line} of a measured roll");
            assert!(call.code != 8 || value == self.put_back(), "a rewind answers {value}");
        }
    }
}

/// The works of each number of dirty pages; the copying machine's rewind, and a full copy; then
/// the works of each place of the byte that differs.
fn works(purpose: Purpose) -> Vec<Work> {
    let repeats = if purpose == Purpose::Time { REPEATS } else { 1 };
    let mut works = Vec::new();
    for dirty in DIRTY {
        for backs in [true, false] {
            let request = Request { dirty, backs, place: Some(100) };
            works.extend(PLAYERS.iter().flat_map(|&player| request.works(player, repeats)));
        }
        works.push(Work::BareCopy { pages: usize::from(dirty) });
    }
    works.extend([Work::CopyingRewind, Work::CopyingSnapshot]);
    for (_, request) in placed() {
        let players = &PLAYERS[..PLAYERS_OF_PLACES];
        works.extend(players.iter().flat_map(|&player| request.works(player, repeats)));
    }
    works
}

/// The requests of the table of places, each with its name.
fn placed() -> Vec<(String, Request)> {
    let mut requests = Vec::new();
    for dirty in reach::REWIND_AT {
        for backs in [true, false] {
            let kind = if backs { "with backs" } else { "without" };
            requests.extend(PLACES.map(|(title, place)| {
                (format!("{dirty} {kind}, {title}"), Request { dirty, backs, place })
            }));
        }
    }
    requests
}

/// What a machine's rewind costs.
#[derive(Clone, Copy)]
struct Rewind {
    /// As a line of a roll: its text, its work and its reply.
    line: Cost,
    /// Less what a call costs that is refused as soon as the state is known.
    own_work: Cost,
}

impl Rewind {
    /// By the works of a request that begin here.
    fn of(costs: &Costs, at: usize) -> Rewind {
        Rewind {
            line: costs.of_call(at + 1, at, REPEATS),
            own_work: costs.of_call(at + 1, at + 2, REPEATS),
        }
    }
}

fn rewind_of(costs: &Costs, index: usize, backs: bool, player: usize) -> Rewind {
    let kind = if backs { 0 } else { KINDS * PLAYERS.len() };
    Rewind::of(costs, STRIDE * index + kind + KINDS * player)
}

fn bare_copy(costs: &Costs, index: usize) -> Cost {
    costs.of(STRIDE * index + STRIDE - 1)
}

/// The copying machine's rewind, which compares too.
fn copying_rewind(costs: &Costs) -> Cost {
    costs.of(STRIDE * DIRTY.len())
}

/// A full copy alone, which is the copying machine's snapshot, as it was counted: callgrind counts
/// each byte of one long copy as an instruction.
fn full_copy(costs: &Costs) -> Cost {
    costs.of(STRIDE * DIRTY.len() + 1)
}

/// The same with the instructions of a copy page by page.
fn full_copy_by_pages(costs: &Costs) -> Cost {
    Cost { count: bare_copy(costs, DIRTY.len() - 1).count, ..full_copy(costs) }
}

fn index_of(dirty: u16) -> usize {
    DIRTY.iter().position(|&measured| measured == dirty).expect("it is measured")
}

fn written(costs: &Costs) -> String {
    let mut text = String::new();
    for backs in [true, false] {
        let rows: Vec<Vec<String>> =
            (0..DIRTY.len()).map(|index| row(costs, index, backs)).collect();
        let kind = match backs {
            true => "Dirty pages with a back (their bytes are compared with it and copied)",
            false => "Dirty pages without a back (they are compared with zero and become so)",
        };
        text.push_str(&format!("{kind}:\n\n{}\n", markdown(&HEAD, &rows)));
    }
    text.push_str(&format!(
        "A rewind's own work, by where the only byte of each dirty page lies that differs from the \
         snapshot's:\n\n{}\n",
        markdown(&HEAD_OF_PLACES, &place_rows(costs))
    ));
    let [few, all] = reach::REWIND_AT.map(|dirty| rewind_of(costs, index_of(dirty), true, 0).line);
    let (rewind, copy) = (copying_rewind(costs), full_copy(costs));
    text.push_str(&format!(
        "Timed are {REPEATS} requests, each with its rewind, less as many with a call that is \
         refused (for a line: less the requests alone), so that every rewind finds what the \
         request wrote. The copying machine's rewind, which compares and copies all pages whatever \
         was written: {} instructions, {} ns; a full copy alone, 16,384 bytes: {} instructions, {} \
         ns. A whole line of the proved machine's roll, with backs: {} ns at {} dirty pages, {} ns \
         at {}.\n",
        rewind.instructions(),
        rewind.nanoseconds(),
        copy.instructions(),
        copy.nanoseconds(),
        few.nanoseconds(),
        reach::REWIND_AT[0],
        all.nanoseconds(),
        reach::REWIND_AT[1],
    ));
    text
}

const HEAD_OF_PLACES: [&str; 5] =
    ["dirty pages, the byte", "proved", "trusting", "proved, ns", "trusting, ns"];

fn place_rows(costs: &Costs) -> Vec<Vec<String>> {
    let first = STRIDE * DIRTY.len() + 2;
    let row = |(index, (title, _)): (usize, (String, Request))| {
        let own_work = |player: usize| {
            Rewind::of(costs, first + KINDS * (PLAYERS_OF_PLACES * index + player)).own_work
        };
        let own_works: [Cost; PLAYERS_OF_PLACES] = std::array::from_fn(own_work);
        let mut row = vec![title];
        row.extend(own_works.iter().map(Cost::instructions));
        row.extend(own_works.iter().map(Cost::nanoseconds));
        row
    };
    placed().into_iter().enumerate().map(row).collect()
}

const HEAD: [&str; 16] = [
    "dirty pages",
    "bytes restored",
    "proved, a line",
    "proved, own work",
    "bare copy",
    "own work ÷ bare copy",
    "trusting, a line",
    "trusting, own work",
    "unproved, a line",
    "proved, a line, ns",
    "proved, own work, ns",
    "bare copy, ns",
    "own work ÷ bare copy, ns",
    "trusting, a line, ns",
    "trusting, own work, ns",
    "unproved, a line, ns",
];

fn row(costs: &Costs, index: usize, backs: bool) -> Vec<String> {
    let dirty = DIRTY[index];
    let mut calls = state(dirty, backs);
    calls.push(rewind(0));
    let restored = Player::Proved.played(&text(&calls)).fronts() * PAGE_BYTES;
    let [proved, trusting, unproved] =
        [0, 1, 2].map(|player| rewind_of(costs, index, backs, player));
    let bare = bare_copy(costs, index);
    let [counted, timed] = match dirty {
        0 => [NOT_MEASURED.to_string(), NOT_MEASURED.to_string()],
        _ => proved.own_work.beside(&bare).judged(&aim_at(dirty)),
    };
    vec![
        dirty.to_string(),
        thousands(restored as i64),
        proved.line.instructions(),
        proved.own_work.instructions(),
        bare.instructions(),
        counted,
        trusting.line.instructions(),
        trusting.own_work.instructions(),
        unproved.line.instructions(),
        proved.line.nanoseconds(),
        proved.own_work.nanoseconds(),
        bare.nanoseconds(),
        timed,
        trusting.line.nanoseconds(),
        trusting.own_work.nanoseconds(),
        unproved.line.nanoseconds(),
    ]
}

/// What is aimed at: elsewhere nothing is.
fn aim_at(dirty: u16) -> Ratio {
    match reach::REWIND_AT.contains(&dirty) {
        true => reach::REWIND,
        false => Ratio { count: f64::INFINITY, time: None },
    }
}

/// A rewind against dirty pages with a back, as a drawing.
pub fn drawing(costs: &Costs) -> String {
    let curves = |of: &dyn Fn(Cost) -> f64| {
        let points = |cost: &dyn Fn(usize) -> Cost| {
            let points = (0..DIRTY.len()).map(|index| (f64::from(DIRTY[index]), of(cost(index))));
            points.collect::<Vec<_>>()
        };
        [
            Curve::line(points(&|index| rewind_of(costs, index, true, 0).line)),
            Curve::own_work(points(&|index| rewind_of(costs, index, true, 0).own_work)),
            Curve::bare(points(&|index| bare_copy(costs, index))),
            Curve::copying(points(&|_| full_copy_by_pages(costs))),
        ]
    };
    let counted = Panel { title: "instructions", curves: curves(&|cost| cost.count as f64) };
    let timed = costs.times.as_ref().map(|_| Panel {
        title: "nanoseconds",
        curves: curves(&|cost| cost.time.expect("it was timed")),
    });
    plot(&[Some(counted), timed].into_iter().flatten().collect::<Vec<_>>())
}

/// How often a rewind's own work is the bare copy of so many dirty pages, with backs and without.
pub fn beside_bare_copy(costs: &Costs, dirty: u16) -> [Ratio; 2] {
    let index = index_of(dirty);
    [true, false]
        .map(|backs| rewind_of(costs, index, backs, 0).own_work.beside(&bare_copy(costs, index)))
}

/// A whole line's cost at so many dirty pages with a back, and that of a full copy.
pub fn line_and_full_copy(costs: &Costs, dirty: u16) -> (Cost, Cost) {
    (rewind_of(costs, index_of(dirty), true, 0).line, full_copy_by_pages(costs))
}

/// What each further dirty page with a back adds to a rewind, beside what it adds to a bare copy.
pub fn further_page(costs: &Costs) -> Ratio {
    let last = DIRTY.len() - 1;
    let [none, all] = [0, last].map(|index| rewind_of(costs, index, true, 0).own_work);
    let [no_copy, copy] = [0, last].map(|index| bare_copy(costs, index));
    all.less(&none).beside(&copy.less(&no_copy))
}

//! The state in bytes, a layout written apart from the proved one:
//!
//! | bytes | what |
//! |---|---|
//! | area, 6 | first page, pages, rights, mark (0, 1), kind of backing (0 anonymous, 1 image), first image page (0 when anonymous) |
//! | areas, 49 | count, then 8 areas |
//! | marks, 16 | two words with one bit a frame, 8 bytes each, lowest first |
//! | sandbox, 229 | open (0, 1), share, snapshot taken (0, 1), areas, snapshot's areas, the marks of 8 kept runs, the oldest first |
//! | state, 932 | 4 sandboxes, then the held marks: those of the frames that entries name |
//!
//! A place without an area or a run is zero, and so are the bytes of a fresh state.

use crate::row::Row;
use model::{Backing, AREAS, RUNS, SANDBOXES};

pub const AREA_BYTES: usize = 6;
pub const AREAS_BYTES: usize = 1 + AREAS * AREA_BYTES;
pub const MARKS_BYTES: usize = 16;
const RUNS_BYTES: usize = RUNS * MARKS_BYTES;
pub const SANDBOX_BYTES: usize = 3 + 2 * AREAS_BYTES + RUNS_BYTES;
pub const HELD_AT: usize = SANDBOXES * SANDBOX_BYTES;
pub const STATE_BYTES: usize = HELD_AT + MARKS_BYTES;

/// A place for an area; a place without one has no pages.
#[derive(Clone, Copy, PartialEq, Eq, Debug)]
pub struct Area {
    pub first: u8,
    pub pages: u8,
    pub rights: u8,
    pub committed: bool,
    pub backing: Backing,
}

#[derive(Clone, Copy, PartialEq, Eq, Debug)]
pub struct Areas {
    pub count: u8,
    pub places: [Area; AREAS],
}

#[derive(Clone, Copy, PartialEq, Eq, Debug)]
pub struct Record {
    pub open: bool,
    pub share: u8,
    pub taken: bool,
    pub present: Areas,
    pub snapshot: Areas,
    /// One bit a frame, frame 0 the lowest.
    pub runs: Row,
}

#[derive(Clone, Copy, PartialEq, Eq, Debug)]
pub struct State {
    pub sandboxes: [Record; SANDBOXES],
    /// One bit a frame, frame 0 the lowest.
    pub held: u128,
}

impl Area {
    pub const NONE: Area =
        Area { first: 0, pages: 0, rights: 0, committed: false, backing: Backing::Anonymous };

    /// The page behind its last one.
    pub fn end(&self) -> usize {
        usize::from(self.first) + usize::from(self.pages)
    }

    pub fn covers(&self, page: usize) -> bool {
        (usize::from(self.first)..self.end()).contains(&page)
    }

    /// The backing of one of its pages: "image pages running on".
    pub fn backing_of(&self, page: usize) -> Backing {
        self.backing.further(page - usize::from(self.first))
    }

    fn bytes(&self) -> [u8; AREA_BYTES] {
        let (kind, image_page) = match self.backing {
            Backing::Anonymous => (0, 0),
            Backing::Image(page) => (1, page as u8),
        };
        [self.first, self.pages, self.rights, u8::from(self.committed), kind, image_page]
    }

    fn of(bytes: &[u8]) -> Option<Area> {
        let &[first, pages, rights, committed, kind, image_page] = bytes else { return None };
        let backing = match (kind, image_page) {
            (0, 0) => Backing::Anonymous,
            (1, page) => Backing::Image(usize::from(page)),
            _ => return None,
        };
        Some(Area { first, pages, rights, committed: flag(committed)?, backing })
    }
}

impl Areas {
    /// The areas, without the places behind them.
    pub fn list(&self) -> &[Area] {
        &self.places[..usize::from(self.count).min(AREAS)]
    }

    /// The area that a page lies in.
    pub fn at(&self, page: usize) -> Option<&Area> {
        self.list().iter().find(|area| area.covers(page))
    }

    fn write(&self, bytes: &mut Vec<u8>) {
        bytes.push(self.count);
        self.places.iter().for_each(|area| bytes.extend(area.bytes()));
    }

    fn of(bytes: &[u8]) -> Option<Areas> {
        let mut places = [Area::NONE; AREAS];
        for (place, bytes) in places.iter_mut().zip(bytes[1..].chunks_exact(AREA_BYTES)) {
            *place = Area::of(bytes)?;
        }
        Some(Areas { count: bytes[0], places })
    }
}

impl Record {
    fn of(bytes: &[u8]) -> Option<Record> {
        let (head, rest) = bytes.split_at(3);
        let (present, rest) = rest.split_at(AREAS_BYTES);
        let (snapshot, runs) = rest.split_at(AREAS_BYTES);
        Some(Record {
            open: flag(head[0])?,
            share: head[1],
            taken: flag(head[2])?,
            present: Areas::of(present)?,
            snapshot: Areas::of(snapshot)?,
            runs: row_of(runs),
        })
    }
}

impl State {
    pub fn bytes(&self) -> Vec<u8> {
        let mut bytes = Vec::with_capacity(STATE_BYTES);
        for record in &self.sandboxes {
            bytes.extend([u8::from(record.open), record.share, u8::from(record.taken)]);
            record.present.write(&mut bytes);
            record.snapshot.write(&mut bytes);
            // Two words, each lowest first, are one number of 16 bytes, lowest first.
            record.runs.iter().for_each(|run| bytes.extend(run.to_le_bytes()));
        }
        bytes.extend(self.held.to_le_bytes());
        bytes
    }

    /// The state that has these bytes; `None` where they are no state's.
    pub fn of(bytes: &[u8]) -> Option<State> {
        if bytes.len() != STATE_BYTES {
            return None;
        }
        let (records, held) = bytes.split_at(HELD_AT);
        let records = records.chunks_exact(SANDBOX_BYTES).map(Record::of);
        let records: Vec<Record> = records.collect::<Option<_>>()?;
        let held = u128::from_le_bytes(held.try_into().ok()?);
        Some(State { sandboxes: records.try_into().ok()?, held })
    }
}

fn row_of(bytes: &[u8]) -> Row {
    std::array::from_fn(|place| {
        let marks = &bytes[place * MARKS_BYTES..][..MARKS_BYTES];
        u128::from_le_bytes(marks.try_into().expect("16 bytes"))
    })
}

/// The kept runs alone, in bytes of a state's length.
pub fn rows(state: &[u8]) -> [Row; SANDBOXES] {
    std::array::from_fn(|sandbox| row_of(&state[run_at(sandbox, 0)..][..RUNS_BYTES]))
}

fn flag(byte: u8) -> Option<bool> {
    match byte {
        0 => Some(false),
        1 => Some(true),
        _ => None,
    }
}

/// Where something of a state stands among its bytes.
#[derive(Clone, Copy, PartialEq, Eq, Debug)]
pub enum Which {
    Present,
    Snapshot,
}

pub fn open_at(sandbox: usize) -> usize {
    sandbox * SANDBOX_BYTES
}

pub fn share_at(sandbox: usize) -> usize {
    sandbox * SANDBOX_BYTES + 1
}

pub fn taken_at(sandbox: usize) -> usize {
    sandbox * SANDBOX_BYTES + 2
}

pub fn count_at(sandbox: usize, which: Which) -> usize {
    let areas = match which {
        Which::Present => 0,
        Which::Snapshot => AREAS_BYTES,
    };
    sandbox * SANDBOX_BYTES + 3 + areas
}

pub fn area_at(sandbox: usize, which: Which, area: usize) -> usize {
    count_at(sandbox, which) + 1 + area * AREA_BYTES
}

pub fn run_at(sandbox: usize, place: usize) -> usize {
    sandbox * SANDBOX_BYTES + 3 + 2 * AREAS_BYTES + place * MARKS_BYTES
}

/// What the byte says, in words.
pub fn name(at: usize) -> String {
    if at >= HELD_AT {
        return format!("the held marks' byte {}", at - HELD_AT);
    }
    let (sandbox, within) = (at / SANDBOX_BYTES, at % SANDBOX_BYTES);
    let part = match within {
        0 => "open".to_string(),
        1 => "share".to_string(),
        2 => "snapshot taken".to_string(),
        _ if at >= run_at(sandbox, 0) => {
            let within = at - run_at(sandbox, 0);
            format!("run {}'s byte {}", within / MARKS_BYTES, within % MARKS_BYTES)
        }
        _ => {
            let within = within - 3;
            let which = if within < AREAS_BYTES { "area" } else { "snapshot area" };
            match within % AREAS_BYTES {
                0 => format!("{which}s' count"),
                place => {
                    let fields = ["first page", "pages", "rights", "mark", "backing", "image page"];
                    let (number, field) = ((place - 1) / AREA_BYTES, (place - 1) % AREA_BYTES);
                    format!("{which} {number}'s {}", fields[field])
                }
            }
        }
    };
    format!("sandbox {sandbox}, {part}")
}

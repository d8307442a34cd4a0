//! What can differ between a program and the plain machine.

use crate::layout;
use std::fmt;

/// "64 front entries, then 64 back entries".
#[derive(Clone, Copy, PartialEq, Eq, Debug)]
pub enum Side {
    Front,
    Back,
}

/// An entry of the page table.
#[derive(Clone, Copy, PartialEq, Eq, Debug)]
pub struct Place {
    pub sandbox: usize,
    pub page: usize,
    pub side: Side,
}

#[derive(Clone, PartialEq, Eq, Debug)]
pub enum Difference {
    /// Not as many replies as lines, or not whole ones.
    ReplyBytes { program: usize, model: usize },
    /// The first line, counted from 1, that is answered otherwise.
    Reply { line: usize, program: String, model: String },
    /// A byte of the pool changed though a lent length is wrong.
    PoolTouched { at: usize },
    /// An entry of the table changed though a lent length is wrong.
    TableTouched { at: usize },
    /// A sandbox has more or fewer entries than the plain machine has marks.
    Held { sandbox: usize, program: usize, model: usize },
    /// An entry where the plain machine has no mark, or none where it has one.
    Entry { place: Place, entry: u16 },
    /// An entry that names no frame of the pool.
    OutsidePool { place: Place, entry: u16, frames: usize },
    /// An entry that names a frame which an earlier entry names.
    NamedTwice { place: Place, frame: usize },
    /// An entry other than the one that the calls so far leave.
    Table { at: usize, program: u16, expected: u16 },
    /// A run other than the one that the calls so far leave: one bit a frame.
    Run { sandbox: usize, place: usize, program: u128, expected: u128 },
    /// A write that takes a frame which an entry names, a run keeps or the pool does not have.
    Taken { place: Place, entry: u16 },
    /// A write above the share that does not give up just one frame of the longest run.
    GivenUp { sandbox: usize, place: usize, frames: usize },
    /// A frame that does not hold its page's bytes.
    Bytes { place: Place, offset: usize, program: u8, model: u8 },
    /// A frame that no entry names and that is not zero.
    NotCleared { frame: usize, offset: usize, byte: u8 },
    /// A call, or the start, is answered otherwise: number and value.
    Answer { program: (u32, u32), model: (u16, u32) },
    /// A byte of the state that differs; `None` where one of the two has none.
    State { at: usize, program: Option<u8>, model: Option<u8> },
    /// A call that was refused, reads, reports or compares changed state, pool or table.
    Changed,
    /// A difference that shows at a line, counted from 1; line 0 is the start.
    AtLine { line: usize, difference: Box<Difference> },
    /// A difference of a sandbox's archive, in output of so many bytes.
    Archive { sandbox: u16, room: usize, difference: Box<Difference> },
    /// A line of an archive, counted from 1, that is another.
    ArchiveLine { line: usize, program: String, model: String },
    /// A byte of the output behind the lines, or of a refused archive.
    Output { at: usize, program: u8, model: u8 },
    /// An archive changed state, pool or table.
    ArchiveChanged,
    /// A difference that shows where a sandbox's archive is played.
    Replay { sandbox: u16, difference: Box<Difference> },
    /// A line of the archive, counted from 1, that is refused.
    ReplayRefused { line: usize },
    /// The pages, the snapshot or the share that the archive rebuilds are not those written.
    NotRebuilt,
}

impl Difference {
    pub fn at_line(self, line: usize) -> Difference {
        Difference::AtLine { line, difference: Box::new(self) }
    }
}

impl fmt::Display for Place {
    fn fmt(&self, formatter: &mut fmt::Formatter) -> fmt::Result {
        let side = match self.side {
            Side::Front => "front",
            Side::Back => "back",
        };
        write!(formatter, "the {side} of page {} of sandbox {}", self.page, self.sandbox)
    }
}

impl fmt::Display for Difference {
    fn fmt(&self, to: &mut fmt::Formatter) -> fmt::Result {
        match self {
            Difference::ReplyBytes { program, model } => {
                write!(to, "the program wrote {program} bytes of replies, the model {model}")
            }
            Difference::Reply { line, program, model } => {
                write!(to, "line {line}: the program answers {program}, the model {model}")
            }
            Difference::PoolTouched { at } => {
                write!(to, "byte {at} of the pool was changed though a lent length is wrong")
            }
            Difference::TableTouched { at } => {
                write!(to, "entry {at} of the table was changed though a lent length is wrong")
            }
            Difference::Held { sandbox, program, model } => {
                write!(to, "sandbox {sandbox} has {program} entries, the model {model} marks")
            }
            Difference::Entry { place, entry: 0 } => {
                write!(to, "{place} has no entry, but the model marks it")
            }
            Difference::Entry { place, entry } => {
                write!(to, "{place} has the entry {entry}, but the model does not mark it")
            }
            Difference::OutsidePool { place, entry, frames } => {
                write!(to, "{place} has the entry {entry}, but the pool has {frames} frames")
            }
            Difference::NamedTwice { place, frame } => {
                write!(to, "{place} names frame {frame}, which another entry names too")
            }
            Difference::Table { at, program, expected } => {
                write!(to, "entry {at} of the table is {program}, expected is {expected}")
            }
            Difference::Run { sandbox, place, program, expected } => {
                let [program, expected] = [program, expected].map(|run| frames_of(*run));
                write!(
                    to,
                    "run {place} of sandbox {sandbox} keeps {program}, expected is {expected}"
                )
            }
            Difference::Taken { place, entry } => {
                write!(to, "{place} takes the entry {entry}, whose frame is not unheld")
            }
            Difference::GivenUp { sandbox, place, frames } => {
                write!(
                    to,
                    "run {place} of sandbox {sandbox}, the longest, gives up {frames} frames"
                )
            }
            Difference::Bytes { place, offset, program, model } => {
                write!(to, "{place} holds {program} at offset {offset}, the model {model}")
            }
            Difference::NotCleared { frame, offset, byte } => {
                write!(to, "frame {frame}, which no entry names, holds {byte} at offset {offset}")
            }
            Difference::Answer { program, model } => {
                write!(to, "the program answers {program:?}, the model {model:?}")
            }
            Difference::State { at, program, model } => {
                let byte = |byte: &Option<u8>| byte.map_or("none".to_string(), |b| b.to_string());
                let (name, program, model) = (layout::name(*at), byte(program), byte(model));
                write!(to, "byte {at} of the state ({name}) is {program}, the model's {model}")
            }
            Difference::Changed => {
                write!(to, "a call that was refused, reads, reports or compares changed memory")
            }
            Difference::AtLine { line, difference } => {
                write!(to, "line {line}, a call at a time: {difference}")
            }
            Difference::Archive { sandbox, room, difference } => {
                write!(to, "the archive of sandbox {sandbox}, in {room} bytes: {difference}")
            }
            Difference::ArchiveLine { line, program, model } => {
                write!(to, "line {line} is {program}, the model's {model}")
            }
            Difference::Output { at, program, model } => {
                write!(to, "byte {at} of the output is {program}, the model's {model}")
            }
            Difference::ArchiveChanged => write!(to, "an archive changed memory"),
            Difference::Replay { sandbox, difference } => {
                write!(to, "the archive of sandbox {sandbox}, played: {difference}")
            }
            Difference::ReplayRefused { line } => write!(to, "line {line} is refused"),
            Difference::NotRebuilt => {
                write!(to, "the pages, the snapshot or the share are not those that were written")
            }
        }
    }
}

/// The frames of a run, in words.
fn frames_of(run: u128) -> String {
    let frames = (0..128).filter(|frame| run >> frame & 1 == 1).map(|frame| frame.to_string());
    let frames: Vec<String> = frames.collect();
    match frames.len() {
        0 => "no frame".to_string(),
        1 => format!("frame {}", frames[0]),
        _ => format!("frames {}", frames.join(" ")),
    }
}

impl std::error::Error for Difference {}

//! Which calls and archives were accepted, which refusals were met, and how many pages rewinds
//! put back.

use crate::archives::Archives;
use gazhuppin::REPLY_BYTES;
use model::{parse_line, CODES, LINE_BYTES};
use rolls::Case;
use std::collections::BTreeSet;
use std::fmt;

const NAMES: [&str; 12] = [
    "malformed",
    "unknown",
    "1 open",
    "2 map",
    "3 unmap",
    "4 protect",
    "5 read",
    "6 write",
    "7 snapshot",
    "8 rewind",
    "9 report",
    "10 compare",
];
const MALFORMED: usize = 0;
const UNKNOWN: usize = 1;
/// Number 0, accepted, and refusals 1 to 14: no call answers 15.
const NUMBERS: usize = 15;
const REWIND: u16 = 8;
/// Rewinds that put back 0, 1, 2 pages, or more.
const REWINDS: usize = 4;

#[derive(Clone, Default, Debug)]
pub struct Coverage {
    pub rolls: u64,
    pub lines: u64,
    answers: [[u64; NUMBERS]; NAMES.len()],
    /// Accepted rewinds that put back 0, 1, 2 pages, or more.
    pub rewinds: [u64; REWINDS],
    /// Frames of the pools, and bytes of the images.
    pub pools: BTreeSet<usize>,
    pub images: BTreeSet<usize>,
    pub archives: Archives,
}

impl Coverage {
    /// Count the replies to a case's roll, and the archives that it leaves.
    pub fn add(&mut self, case: &Case, replies: &[u8], archives: &Archives) {
        self.archives.join(archives);
        self.rolls += 1;
        self.pools.insert(case.frames);
        self.images.insert(case.image.len());
        for (line, reply) in case.roll.chunks(LINE_BYTES).zip(replies.chunks(REPLY_BYTES)) {
            let row = match parse_line(line) {
                None => MALFORMED,
                Some(call) if !CODES.contains(&call.code) => UNKNOWN,
                Some(call) => UNKNOWN + usize::from(call.code),
            };
            self.lines += 1;
            self.answers[row][usize::from(number(reply))] += 1;
            if row == UNKNOWN + usize::from(REWIND) && number(reply) == 0 {
                self.rewinds[(value(reply) as usize).min(REWINDS - 1)] += 1;
            }
        }
    }

    pub fn join(&mut self, other: &Coverage) {
        self.rolls += other.rolls;
        self.lines += other.lines;
        self.archives.join(&other.archives);
        self.pools.extend(&other.pools);
        self.images.extend(&other.images);
        self.rewinds.iter_mut().zip(&other.rewinds).for_each(|(count, more)| *count += more);
        for (row, others) in self.answers.iter_mut().zip(&other.answers) {
            row.iter_mut().zip(others).for_each(|(count, more)| *count += more);
        }
    }

    /// How often a call of this code was answered with this number.
    pub fn answered(&self, code: u16, number: u16) -> u64 {
        self.answers[UNKNOWN + usize::from(code)][usize::from(number)]
    }

    /// How often the number was answered to any line.
    pub fn of_number(&self, number: u16) -> u64 {
        self.answers.iter().map(|row| row[usize::from(number)]).sum()
    }
}

/// The refusal number of a printed reply, 0 where the call was accepted.
pub fn number(reply: &[u8]) -> u16 {
    field(&reply[6..12]) as u16
}

/// The value of a printed reply.
pub fn value(reply: &[u8]) -> u32 {
    field(&reply[12..18])
}

fn field(columns: &[u8]) -> u32 {
    let text = std::str::from_utf8(columns).expect("a reply is text");
    text.trim_start().parse().expect("a reply has three numbers")
}

impl fmt::Display for Coverage {
    fn fmt(&self, to: &mut fmt::Formatter) -> fmt::Result {
        write!(to, "{:<10} {:>9}", "call", "accepted")?;
        (1..NUMBERS).try_for_each(|number| write!(to, " {number:>7}"))?;
        for (name, row) in NAMES.iter().zip(&self.answers) {
            write!(to, "\n{name:<10} {:>9}", row[0])?;
            row[1..].iter().try_for_each(|count| write!(to, " {count:>7}"))?;
        }
        write!(to, "\n{:<10} {:>9}", "all", self.of_number(0))?;
        (1..NUMBERS).try_for_each(|number| write!(to, " {:>7}", self.of_number(number as u16)))?;
        let [written, unsound, closed, none, short] =
            [0, 3, 4, 8, 15].map(|number| self.archives.answered(number));
        write!(
            to,
            "\narchives: {written} written, {unsound} refused 3, {closed} refused 4, {none} refused 8, \
             {short} refused 15; {} lines played",
            self.archives.lines
        )?;
        let [none, one, two, more] = self.rewinds;
        write!(to, "\nrewinds: {none} put back no page, {one} one, {two} two, {more} more")
    }
}

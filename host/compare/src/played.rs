//! A case played by the proved machine, in memory that was not clean.

use gazhuppin::{Played, FRAME_BYTES, REPLY_BYTES, TABLE_ENTRIES};
use rolls::Case;

/// The lengths of the lent pool, in bytes, and of the lent table, in entries.
#[derive(Clone, Copy, PartialEq, Eq, Debug)]
pub struct Lengths {
    pub pool: usize,
    pub table: usize,
}

impl Lengths {
    /// The right ones.
    pub fn of(case: &Case) -> Lengths {
        Lengths { pool: case.frames * FRAME_BYTES, table: TABLE_ENTRIES }
    }

    /// The number of frames to feed the plain machine with; 0, which is a wrong one,
    /// where pool or table cannot be right.
    pub fn frames(self) -> usize {
        let whole = self.pool.is_multiple_of(FRAME_BYTES) && self.table == TABLE_ENTRIES;
        if whole {
            self.pool / FRAME_BYTES
        } else {
            0
        }
    }
}

/// Bytes without a zero, so that a start that does not clear them shows.
pub fn filled_pool(bytes: usize) -> Vec<u8> {
    let mut pool = std::array::from_fn::<u8, 255, _>(|at| at as u8 + 1).repeat(bytes / 255 + 1);
    pool.truncate(bytes);
    pool
}

/// Entries without a zero; some of them would name frames.
pub fn filled_table(entries: usize) -> Vec<u16> {
    (0..entries).map(|at| at as u16 + 1).collect()
}

pub fn play(case: &Case, lengths: Lengths) -> Played {
    let mut pool = filled_pool(lengths.pool);
    let mut table = filled_table(lengths.table);
    let mut replies = vec![b'x'; REPLY_BYTES * gazhuppin::lines(case.roll.len())];
    let lines = gazhuppin::play(&case.roll, &case.image, &mut pool, &mut table, &mut replies)
        .expect("room was made for the replies");
    // A wrong count of lines is to show as replies too few or too many.
    replies.resize(REPLY_BYTES * lines, b'x');
    Played { replies, pool, table }
}

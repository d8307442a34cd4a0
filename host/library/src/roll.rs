//! A roll played from a start.

use crate::{FRAME_BYTES, REPLY_BYTES, TABLE_ENTRIES, c};
use std::fmt;

/// `out` has no room for all replies. Nothing was played, and nothing touched.
///
/// ```
/// let (mut pool, mut table) = ([0; 256], [0; 512]);
/// let short = gazhuppin::play(&[b'x'; 43], &[], &mut pool, &mut table, &mut []);
/// assert_eq!(short, Err(gazhuppin::OutTooShort { needed: 19 }));
/// ```
#[derive(Clone, Copy, PartialEq, Eq, Debug)]
pub struct OutTooShort {
    /// The bytes that the replies of this roll need.
    pub needed: usize,
}

impl fmt::Display for OutTooShort {
    fn fmt(&self, formatter: &mut fmt::Formatter) -> fmt::Result {
        write!(formatter, "the replies need {} bytes", self.needed)
    }
}

impl std::error::Error for OutTooShort {}

/// How many lines a roll of so many bytes has: whole lines of 43 bytes, one more for
/// a short rest, at most 65,535.
///
/// ```
/// assert_eq!(gazhuppin::lines(2 * gazhuppin::LINE_BYTES + 1), 3);
/// ```
pub fn lines(roll_bytes: usize) -> usize {
    // SAFETY: the function takes a number and gives a number; it uses no memory.
    unsafe { c::gazhuppin_lines(roll_bytes) }
}

/// Start a machine in the lent memory, play the roll on it, and write a reply of 19
/// bytes for each line to the start of `out`. Gives the number of lines.
///
/// The pool is 1 to 128 frames of 256 bytes, the table 512 entries, the image 0 to 64
/// pages of 256 bytes. Where one of these lengths is wrong, pool and table stay as
/// they are and every line is refused (3; 1 if malformed, 2 if its code is unknown).
///
/// Afterwards pool and table are those of the machine after the last line: for
/// sandbox s and page i the front entry is `table[128 * s + i]` and the back entry
/// `table[128 * s + 64 + i]`; an entry is 0 or a frame number plus one.
///
/// ```
/// let roll = b"     1     0     8     0     0     0     0\n";
/// let (mut pool, mut table, mut out) = ([0; 8 * 256], [0; 512], [0; 19]);
/// assert_eq!(gazhuppin::play(roll, &[], &mut pool, &mut table, &mut out), Ok(1));
/// assert_eq!(&out, b"     1     0     0\n");
/// ```
pub fn play(
    roll: &[u8],
    image: &[u8],
    pool: &mut [u8],
    table: &mut [u16],
    out: &mut [u8],
) -> Result<usize, OutTooShort> {
    let needed = REPLY_BYTES * lines(roll.len());
    if out.len() < needed {
        return Err(OutTooShort { needed });
    }
    // SAFETY: every pointer comes from a slice, so it is aligned, not null even for
    // length 0, and good for the length beside it; the three slices that are written
    // are borrowed as `&mut`, so they overlap nothing. The function keeps no pointer.
    let played = unsafe {
        c::gazhuppin_play(
            roll.as_ptr(),
            roll.len(),
            image.as_ptr(),
            image.len(),
            pool.as_mut_ptr(),
            pool.len(),
            table.as_mut_ptr(),
            table.len(),
            out.as_mut_ptr(),
            out.len(),
        )
    };
    Ok(played)
}

/// What a roll leaves: its replies, and pool and table after its last line.
///
/// ```
/// let left = gazhuppin::play_fresh(b"", &[], 1);
/// assert_eq!((left.replies.len(), left.pool, left.table), (0, vec![0; 256], vec![0; 512]));
/// ```
#[derive(Clone, PartialEq, Eq, Debug)]
pub struct Played {
    pub replies: Vec<u8>,
    pub pool: Vec<u8>,
    pub table: Vec<u16>,
}

/// Play a roll in memory made for it, with a pool of this many frames.
///
/// ```
/// let left = gazhuppin::play_fresh(b"     9     0     0     0     0     0     0\n", &[], 128);
/// assert_eq!(left.replies, b"     1     4     0\n");
/// ```
pub fn play_fresh(roll: &[u8], image: &[u8], frames: usize) -> Played {
    let mut pool = vec![0; FRAME_BYTES * frames];
    let mut table = vec![0; TABLE_ENTRIES];
    let mut replies = vec![0; REPLY_BYTES * lines(roll.len())];
    play(roll, image, &mut pool, &mut table, &mut replies).expect("room was made for the replies");
    Played { replies, pool, table }
}

#[cfg(test)]
mod tests {
    use super::*;
    use crate::LINE_BYTES;

    /// `play` never calls the function with too little room; a C program may.
    #[test]
    fn the_function_itself_refuses_an_out_too_short() {
        let roll = [b'x'; LINE_BYTES + 1];
        let (mut pool, mut table) = ([7u8; FRAME_BYTES], [7u16; TABLE_ENTRIES]);
        for room in 0..2 * REPLY_BYTES {
            let mut out = vec![7u8; room];
            // SAFETY: as in `play`; the function is to look at the length itself.
            let played = unsafe {
                c::gazhuppin_play(
                    roll.as_ptr(),
                    roll.len(),
                    roll.as_ptr(),
                    0,
                    pool.as_mut_ptr(),
                    pool.len(),
                    table.as_mut_ptr(),
                    table.len(),
                    out.as_mut_ptr(),
                    room,
                )
            };
            assert_eq!(played, 0, "{room} bytes");
            assert_eq!((pool, table), ([7; FRAME_BYTES], [7; TABLE_ENTRIES]), "{room} bytes");
            assert!(out.iter().all(|&byte| byte == 7), "{room} bytes");
        }
    }
}

//! A roll played over lent bytes, as the library's `gazhuppin_play` does.

use super::machine::Machine;
use super::memory::Memory;
use super::request::Refusal;
use super::text::{lines_of, parse, print_reply, LINE_BYTES, MOST_LINES, REPLY_BYTES};

/// Starts a machine, plays the roll and prints the replies to the start of `out`; the
/// number of lines. Where `out` is too short nothing is touched, and 0 is returned.
pub fn play(
    roll: &[u8],
    image: &[u8],
    pool: &mut [u8],
    table: &mut [u16],
    out: &mut [u8],
) -> usize {
    play_with::<true, true, true>(roll, Memory { pool, table, image }, out)
}

/// The same with a machine that trusts its state: there is no test of soundness.
pub fn play_trusting(
    roll: &[u8],
    image: &[u8],
    pool: &mut [u8],
    table: &mut [u16],
    out: &mut [u8],
) -> usize {
    play_with::<true, true, false>(roll, Memory { pool, table, image }, out)
}

/// The trusting machine with a rewind that frees every front.
pub fn play_dropping(
    roll: &[u8],
    image: &[u8],
    pool: &mut [u8],
    table: &mut [u16],
    out: &mut [u8],
) -> usize {
    play_with::<false, true, false>(roll, Memory { pool, table, image }, out)
}

/// The trusting machine without kept frames of finished requests.
pub fn play_keeping_nothing(
    roll: &[u8],
    image: &[u8],
    pool: &mut [u8],
    table: &mut [u16],
    out: &mut [u8],
) -> usize {
    play_with::<true, false, false>(roll, Memory { pool, table, image }, out)
}

fn play_with<const KEEPS_FRONTS: bool, const KEEPS_RUNS: bool, const TESTS: bool>(
    roll: &[u8],
    mut memory: Memory,
    out: &mut [u8],
) -> usize {
    let lines = lines_of(roll.len());
    if out.len() / REPLY_BYTES < lines {
        return 0;
    }
    let mut machine = Machine::<KEEPS_FRONTS, KEEPS_RUNS, TESTS>::start(&mut memory);
    let replies = out.chunks_exact_mut(REPLY_BYTES);
    for ((line, reply), number) in roll.chunks(LINE_BYTES).take(MOST_LINES).zip(replies).zip(1..) {
        let answer = match parse(line) {
            Some(request) => machine.call(&mut memory, &request),
            None => Err(Refusal::Malformed),
        };
        match answer {
            Ok(value) => print_reply(reply, number, 0, value),
            Err(refusal) => print_reply(reply, number, refusal as u32, 0),
        }
    }
    lines
}

//! Calls at and past the limits, and malformed lines.

use crate::prng::Prng;
use model::{call_line, parse_line, Call, LINE_BYTES};

/// Numbers beside a limit of some field.
const EDGES: [u16; 27] = [
    0, 1, 2, 3, 4, 5, 8, 9, 10, 11, 61, 62, 63, 64, 65, 66, 127, 128, 129, 255, 256, 257, 16_383,
    16_384, 32_768, 65_534, 65_535,
];

fn fields(call: &mut Call) -> [&mut u16; 7] {
    let [p1, p2, p3, p4, p5] = &mut call.parameters;
    [&mut call.code, &mut call.sandbox, p1, p2, p3, p4, p5]
}

/// The call with one field, rarely two, moved beside a limit.
pub fn boundary_call(prng: &mut Prng, call: &Call) -> Call {
    let mut call = *call;
    for _ in 0..prng.weighted(&[(5, 1), (1, 2)]) {
        // The parameters are more often moved than code and sandbox.
        let at = prng.weighted(&[(1, 0), (1, 1), (4, 2), (4, 3), (3, 4), (3, 5), (3, 6)]);
        let edge = prng.pick(&EDGES);
        let field = &mut *fields(&mut call)[at];
        let anywhere = prng.number() as u16;
        *field = prng.weighted(&[
            (5, edge),
            (2, field.wrapping_add(1)),
            (2, field.wrapping_sub(1)),
            // With a count of the same size, the sum wraps round 65,536.
            (1, 0u16.wrapping_sub(*field)),
            (1, anywhere),
        ]);
    }
    call
}

/// A call of edges and of any numbers.
pub fn wild_call(prng: &mut Prng) -> Call {
    let mut call = Call { code: prng.within(0..=11) as u16, sandbox: 0, parameters: [0; 5] };
    for field in &mut fields(&mut call)[1..] {
        let (edge, anywhere) = (prng.pick(&EDGES), prng.number() as u16);
        **field = prng.weighted(&[(6, 0), (3, edge), (1, anywhere)]);
    }
    call
}

/// 43 bytes that are no well-formed line, mostly one slip away from a call's line.
pub fn malformed_line(prng: &mut Prng, call: &Call) -> Vec<u8> {
    loop {
        let mut line = call_line(call);
        slip(prng, &mut line);
        if parse_line(&line).is_none() {
            return line;
        }
    }
}

fn slip(prng: &mut Prng, line: &mut [u8]) {
    let field = 6 * prng.below(7);
    let columns = &mut line[field..field + 6];
    match prng.below(10) {
        // A leading zero before the number.
        0 => {
            if let Some(blank) = columns.iter().rposition(|&byte| byte == b' ') {
                columns[blank] = b'0';
            }
        }
        1 => columns.copy_from_slice(b"      "),
        2 => columns.copy_from_slice(b" 65536"),
        3 => columns.copy_from_slice(b"100000"),
        // Justified to the left, or one column off.
        4 => columns.rotate_left(1),
        // A sign or a wrong kind of blank.
        5 => columns[0] = prng.pick(b"+-\t\0"),
        6 => line[LINE_BYTES - 1] = prng.pick(b"\r 0"),
        7 => line[prng.below(LINE_BYTES)] = prng.byte(),
        8 => line[prng.below(LINE_BYTES)] = b'\n',
        _ => line.iter_mut().for_each(|byte| *byte = prng.byte()),
    }
}

//! The roll's text: the call on a line, and a reply's line.

use super::request::Request;

pub const LINE_BYTES: usize = 43;
pub const REPLY_BYTES: usize = 19;
/// "Lines after the 65,535th are not read."
pub const MOST_LINES: usize = 65_535;
pub const COLUMNS: usize = 6;

/// How many lines a roll of so many bytes has, a short rest among them.
pub fn lines_of(bytes: usize) -> usize {
    bytes.div_ceil(LINE_BYTES).min(MOST_LINES)
}

/// The request on a line; `None` where the line is malformed.
pub fn parse(line: &[u8]) -> Option<Request> {
    let line: &[u8; LINE_BYTES] = line.try_into().ok()?;
    if line[LINE_BYTES - 1] != b'\n' {
        return None;
    }
    let mut fields = [0; 7];
    for (field, columns) in fields.iter_mut().zip(line.chunks_exact(COLUMNS)) {
        *field = parse_field(columns)?;
    }
    let [code, sandbox, p1, p2, p3, p4, p5] = fields;
    Some(Request { code, sandbox, p1, p2, p3, p4, p5 })
}

/// "A field is a number 0 to 65,535, right-justified over blanks, no leading zeros."
fn parse_field(columns: &[u8]) -> Option<u16> {
    let (&last, before) = columns.split_last()?;
    let mut number = 0;
    for &byte in before {
        match byte {
            b' ' if number == 0 => {}
            b'0' if number == 0 => return None,
            _ => number = with_digit(number, byte)?,
        }
    }
    u16::try_from(with_digit(number, last)?).ok()
}

fn with_digit(number: u32, byte: u8) -> Option<u32> {
    byte.is_ascii_digit().then(|| 10 * number + u32::from(byte - b'0'))
}

/// "3 fields a line, same columns: line number from 1, refusal number or 0, value."
pub fn print_reply(out: &mut [u8], line: u32, number: u32, value: u32) {
    print_field(&mut out[..COLUMNS], line);
    print_field(&mut out[COLUMNS..2 * COLUMNS], number);
    print_field(&mut out[2 * COLUMNS..3 * COLUMNS], value);
    out[3 * COLUMNS] = b'\n';
}

/// A number right-justified over blanks.
pub fn print_field(out: &mut [u8], number: u32) {
    out.fill(b' ');
    let mut rest = number;
    for byte in out.iter_mut().rev() {
        *byte = b'0' + (rest % 10) as u8;
        rest /= 10;
        if rest == 0 {
            break;
        }
    }
}

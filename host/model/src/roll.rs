//! The roll's text: lines of calls, lines of replies, and the player.

use crate::machine::{Answering, Machine, Refusal};

/// MACHINE 12.1: "A line is 7 fields of 6 columns and a line feed, 43 bytes".
pub const LINE_BYTES: usize = 7 * COLUMNS + 1;
/// MACHINE 12.5: "Lines after the 65,535th are not read."
pub const LINES: usize = 65_535;
/// MACHINE 12.1: the columns of a field.
const COLUMNS: usize = 6;

/// MACHINE 4.1 and 12.1: A line's fields: "call, sandbox, p1 to p5".
#[derive(Clone, Copy, PartialEq, Eq, Debug)]
pub struct Call {
    pub code: u16,
    pub sandbox: u16,
    pub parameters: [u16; 5],
}

/// MACHINE 12.1 and 12.3: The call on a line; `None` where the line is malformed.
pub fn parse_line(line: &[u8]) -> Option<Call> {
    if line.len() != LINE_BYTES || line[LINE_BYTES - 1] != b'\n' {
        return None;
    }
    let mut fields = [0; 7];
    for (field, columns) in fields.iter_mut().zip(line.chunks_exact(COLUMNS)) {
        *field = parse_field(columns)?;
    }
    let [code, sandbox, p1, p2, p3, p4, p5] = fields;
    Some(Call { code, sandbox, parameters: [p1, p2, p3, p4, p5] })
}

/// MACHINE 12.2: "A field is a number 0 to 65,535, right-justified over blanks, no
/// leading zeros."
fn parse_field(columns: &[u8]) -> Option<u16> {
    let blanks = columns.iter().take_while(|&&byte| byte == b' ').count();
    let digits = &columns[blanks..];
    let leading_zero = digits.len() > 1 && digits[0] == b'0';
    if digits.is_empty() || leading_zero || !digits.iter().all(u8::is_ascii_digit) {
        return None;
    }
    let number = digits.iter().fold(0u32, |sum, &digit| 10 * sum + u32::from(digit - b'0'));
    u16::try_from(number).ok()
}

/// MACHINE 12.1: The line of a call.
pub fn call_line(call: &Call) -> Vec<u8> {
    let [p1, p2, p3, p4, p5] = call.parameters;
    let fields = [call.code, call.sandbox, p1, p2, p3, p4, p5];
    print_fields(&fields.map(u32::from))
}

/// MACHINE 12.6: "It prints 3 fields a line, same columns: line number from 1, refusal
/// number or 0, value."
pub fn reply_line(line_number: usize, number: u16, value: u32) -> Vec<u8> {
    print_fields(&[line_number as u32, u32::from(number), value])
}

/// MACHINE 12.2: fields in their columns, and a line feed.
fn print_fields(fields: &[u32]) -> Vec<u8> {
    let mut line = vec![b' '; fields.len() * COLUMNS + 1];
    for (&field, columns) in fields.iter().zip(line.chunks_exact_mut(COLUMNS)) {
        print_field(field, columns);
    }
    *line.last_mut().expect("a line feed") = b'\n';
    line
}

/// MACHINE 12.2: A number "right-justified over blanks": its last digit in the last column.
fn print_field(number: u32, columns: &mut [u8]) {
    let mut left = number;
    for column in columns.iter_mut().rev() {
        *column = b'0' + (left % 10) as u8;
        left /= 10;
        if left == 0 {
            return;
        }
    }
    panic!("{number} has more digits than a field has columns");
}

/// MACHINE 13.1 and 13.2: What the player prints for a roll. The image is that of
/// `image.bin` ("missing: empty; not whole pages or above 64: a wrong length, refusal 3
/// on each line not refused 1 or 2"); the document's player has 128 frames.
pub fn play(roll: &[u8], image: Option<&[u8]>, frames: usize) -> Vec<u8> {
    play_on(roll, &mut Machine::fresh(image.unwrap_or(&[]), frames))
}

/// MACHINE 12.4 to 12.6: "a malformed line is refused and the next 43 bytes follow. A
/// short last line is malformed."
pub fn play_on(roll: &[u8], machine: &mut dyn Answering) -> Vec<u8> {
    let mut printed = Vec::new();
    reply_lines(roll, machine).for_each(|line| printed.extend(line));
    printed
}

/// MACHINE 12.4 to 12.6: What is printed, line by line; a call is made when its line is asked for.
pub fn reply_lines<'a>(
    roll: &'a [u8],
    machine: &'a mut dyn Answering,
) -> impl Iterator<Item = Vec<u8>> + 'a {
    roll.chunks(LINE_BYTES).take(LINES).enumerate().map(|(index, line)| {
        let (number, value) = match parse_line(line) {
            Some(call) => machine.answer(&call),
            None => (Refusal::Malformed as u16, 0),
        };
        reply_line(index + 1, number, value)
    })
}

//! Archives of the proved machine against the plain machine's, byte by byte, and played again by
//! both machines: "Played from a fresh state with the same image and pool, the roll gives a
//! sandbox whose snapshot and present pages both equal the written snapshot in mappings, rights
//! and bytes."

use crate::check::{check, require};
use crate::difference::Difference;
use crate::layout::State;
use crate::played::{play, Lengths};
use crate::state::machine_of;
use crate::stepwise::{check_told, in_step, Kept};
use gazhuppin::{Told, LINE_BYTES, REPLY_BYTES};
use model::{snapshots_agree, wrong_archive, ArchiveFault, Machine, Reply, PAGE_BYTES, SANDBOXES};
use rolls::Case;

/// Room beyond the lines, to see that it is left as it was.
const BEYOND: usize = 2 * LINE_BYTES + 1;
/// What the output holds before; no line has it.
const FILLED: u8 = b'x';

/// How archives were answered.
#[derive(Clone, Copy, Default, Debug)]
pub struct Archives {
    /// By number: 0, accepted, and refusals 1 to 15.
    answers: [u64; 16],
    /// The lines of those played again.
    pub lines: u64,
}

impl Archives {
    pub fn answered(&self, number: usize) -> u64 {
        self.answers[number]
    }

    pub fn join(&mut self, other: &Archives) {
        self.lines += other.lines;
        let counts = self.answers.iter_mut().zip(other.answers);
        counts.for_each(|(count, more)| *count += more);
    }
}

/// The archive of each sandbox, 0 to 3, and of the one that is not there, after the calls that
/// led to both machines: number, value and every byte of the output, with room beyond,
/// just enough and a byte short. Each one that is written is played.
pub fn check_archives(
    kept: &Kept,
    machine: &Machine,
    image: &[u8],
) -> Result<Archives, Difference> {
    let mut archives = Archives::default();
    for sandbox in 0..=SANDBOXES as u16 {
        let rolls = check_writer(kept, machine, image, sandbox, ArchiveFault::None)?;
        for (told, roll) in rolls {
            archives.answers[told.number as usize] += 1;
            if told.number == 0 && roll.len() == told.value as usize * LINE_BYTES {
                archives.lines += u64::from(told.value);
                let case =
                    Case { roll, image: image.to_vec(), frames: kept.pool.len() / PAGE_BYTES };
                check_replay(kept, &case, sandbox).map_err(|difference| Difference::Replay {
                    sandbox,
                    difference: Box::new(difference),
                })?;
            }
        }
    }
    Ok(archives)
}

/// A sandbox's archive by the proved machine, and by a writer with a fault: in output of three
/// lengths, each with what was answered and left.
pub fn check_writer(
    kept: &Kept,
    machine: &Machine,
    image: &[u8],
    sandbox: u16,
    fault: ArchiveFault,
) -> Result<[(Told, Vec<u8>); 3], Difference> {
    let before = kept.clone();
    let roll = machine.archived(sandbox).map_or(1, |archive| archive.text().len());
    // With room beyond first: there another line shows as one, and not as a roll too long.
    let rooms = [roll + BEYOND, roll, roll - 1];
    let mut left = rooms.map(|room| (Told { number: 0, value: 0 }, vec![FILLED; room]));
    for (told, out) in &mut left {
        *told = kept.archive(image, sandbox, out);
        let mut expected = vec![FILLED; out.len()];
        let reply = match fault {
            ArchiveFault::None => machine.archive(sandbox, &mut expected),
            _ => wrong_archive(fault, machine, sandbox, &mut expected),
        };
        check_output(*told, out, reply, &expected).map_err(|difference| Difference::Archive {
            sandbox,
            room: out.len(),
            difference: Box::new(difference),
        })?;
    }
    require(*kept == before, || Difference::ArchiveChanged)?;
    Ok(left)
}

/// Number and value, then the lines, then the bytes behind them.
fn check_output(told: Told, out: &[u8], reply: Reply, expected: &[u8]) -> Result<(), Difference> {
    // Lines say more than a number of lines does.
    let both = told.number == 0 && reply.0 == 0;
    let lines = if both { told.value.min(reply.1) as usize } else { 0 };
    let pairs = out.chunks(LINE_BYTES).zip(expected.chunks(LINE_BYTES)).take(lines);
    if let Some((line, (program, model))) = pairs.enumerate().find(|(_, (a, b))| a != b) {
        let text = |line: &[u8]| format!("`{}`", String::from_utf8_lossy(line).trim_end());
        let (program, model) = (text(program), text(model));
        return Err(Difference::ArchiveLine { line: line + 1, program, model });
    }
    check_told(told, reply)?;
    match (0..out.len()).find(|&at| out[at] != expected[at]) {
        Some(at) => Err(Difference::Output { at, program: out[at], model: expected[at] }),
        None => Ok(()),
    }
}

/// The archive played from a start, by both machines in step and as a whole: every line is
/// accepted, what is rebuilt is what was written, and its archive is the same.
fn check_replay(written: &Kept, case: &Case, sandbox: u16) -> Result<(), Difference> {
    let lengths = Lengths::of(case);
    let replayed = in_step(case, lengths)?;
    check(&play(case, lengths), &replayed.expected)?;
    let mut replies = replayed.expected.replies.chunks(REPLY_BYTES);
    if let Some(line) = replies.position(|reply| reply[6..12] != *b"     0") {
        return Err(Difference::ReplayRefused { line: line + 1 });
    }
    // What the proved machine's own memory holds, before and after.
    let number = usize::from(sandbox);
    let [was, is] = [written, &replayed.kept].map(|kept| {
        let state = State::of(&kept.state).expect("a state that both machines keep");
        machine_of(&state, &kept.pool, &kept.table, &case.image).sandbox(number).clone()
    });
    let copy = was.copy.as_ref().expect("archived");
    let rebuilt = is.copy.as_ref().expect("its last line");
    let same = snapshots_agree(rebuilt, copy) && snapshots_agree(&is.pages, copy);
    require(same && is.share == was.share, || Difference::NotRebuilt)?;
    let mut again = vec![FILLED; case.roll.len()];
    let told = replayed.kept.archive(&case.image, sandbox, &mut again);
    let lines = (case.roll.len() / LINE_BYTES) as u32;
    check_output(told, &again, (0, lines), &case.roll)
}

#[cfg(test)]
mod tests {
    use super::*;
    use model::{call_line, Call};

    /// Short lines of sandbox 0, as text.
    fn text(lines: &[&[u16]]) -> Vec<u8> {
        let line = |numbers: &&[u16]| {
            let mut fields = [0; 7];
            fields[..numbers.len()].copy_from_slice(numbers);
            let [code, sandbox, p1, p2, p3, p4, p5] = fields;
            call_line(&Call { code, sandbox, parameters: [p1, p2, p3, p4, p5] })
        };
        lines.iter().flat_map(line).collect()
    }

    /// What is said of a roll that is taken for the archive of two written pages, share 8.
    fn replayed(lines: &[&[u16]]) -> Result<(), Difference> {
        let roll = text(&[&[1, 0, 8], &[2, 0, 3, 2, 0, 0, 3], &[6, 0, 768, 5], &[7, 0]]);
        let written = Case { roll, image: Vec::new(), frames: 16 };
        let written = in_step(&written, Lengths::of(&written)).expect("no difference").kept;
        let case = Case { roll: text(lines), image: Vec::new(), frames: 16 };
        check_replay(&written, &case, 0)
    }

    const OPEN: &[u16] = &[1, 0, 8];
    const MAP: &[u16] = &[2, 0, 3, 2, 0, 0, 3];
    const WRITE: &[u16] = &[6, 0, 768, 5];
    const SNAPSHOT: &[u16] = &[7, 0];

    #[test]
    fn a_replay_is_told_from_a_wrong_one() {
        assert_eq!(replayed(&[OPEN, MAP, WRITE, SNAPSHOT]), Ok(()));
        let refused = replayed(&[OPEN, WRITE, MAP, SNAPSHOT]);
        assert_eq!(refused, Err(Difference::ReplayRefused { line: 2 }));
        // Another byte, other rights, a page less, another share, and pages changed since.
        let others: [&[&[u16]]; 6] = [
            &[OPEN, MAP, SNAPSHOT],
            &[OPEN, MAP, &[6, 0, 768, 6], SNAPSHOT],
            &[OPEN, MAP, WRITE, &[4, 0, 4, 1, 1], SNAPSHOT],
            &[OPEN, &[2, 0, 3, 1, 0, 0, 3], WRITE, SNAPSHOT],
            &[&[1, 0, 9], MAP, WRITE, SNAPSHOT],
            &[OPEN, MAP, WRITE, SNAPSHOT, &[6, 0, 769, 1]],
        ];
        for other in others {
            assert_eq!(replayed(other), Err(Difference::NotRebuilt), "{other:?}");
        }
    }

    /// It rebuilds the same, but its archive is another roll.
    #[test]
    fn a_roll_that_is_not_its_own_archive_is_told() {
        let halves: [&[u16]; 2] = [&[2, 0, 3, 1, 0, 0, 3], &[2, 0, 4, 1, 0, 0, 3]];
        let told = replayed(&[OPEN, halves[0], halves[1], WRITE, SNAPSHOT]);
        assert!(matches!(told, Err(Difference::ArchiveLine { line: 2, .. })), "{told:?}");
    }
}

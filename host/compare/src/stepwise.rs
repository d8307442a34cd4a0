//! A case played a call at a time, in step with the plain machine: answers, state, pool
//! and table are held to it after the start and after every line.

use crate::check::{check_memory, check_untouched, require, Expected};
use crate::difference::Difference;
use crate::frames::{check_rows, check_table, Frames};
use crate::layout;
use crate::played::{filled_pool, filled_table, Lengths};
use crate::state::state_of;
use gazhuppin::{Call, Played, Told};
use model::{parse_line, reply_line, Answering, Machine, LINES, LINE_BYTES, SANDBOXES};
use rolls::Case;

/// The memory that a host keeps between calls.
#[derive(PartialEq, Eq, Debug)]
pub struct Kept {
    pub state: Vec<u8>,
    pub pool: Vec<u8>,
    pub table: Vec<u16>,
}

impl Clone for Kept {
    fn clone(&self) -> Kept {
        Kept { state: self.state.clone(), pool: self.pool.clone(), table: self.table.clone() }
    }

    fn clone_from(&mut self, other: &Kept) {
        self.state.clone_from(&other.state);
        self.pool.clone_from(&other.pool);
        self.table.clone_from(&other.table);
    }
}

impl Kept {
    /// Memory of these lengths, without a zero.
    pub fn filled(lengths: Lengths) -> Kept {
        Kept {
            state: vec![0xa5; gazhuppin::state_bytes()],
            pool: filled_pool(lengths.pool),
            table: filled_table(lengths.table),
        }
    }

    pub fn start(&mut self, image: &[u8]) -> Told {
        let started = gazhuppin::start(&mut self.state, &mut self.pool, &mut self.table, image);
        let number = started.err().map_or(0, |refusal| refusal.number());
        Told { number, value: 0 }
    }

    /// The archive of a sandbox's snapshot, written to this output.
    pub fn archive(&self, image: &[u8], sandbox: u16, out: &mut [u8]) -> Told {
        gazhuppin::archive(&self.state, &self.pool, &self.table, image, sandbox, out)
    }

    pub fn call(&mut self, image: &[u8], call: &model::Call) -> Told {
        let model::Call { code, sandbox, parameters } = *call;
        let call = Call { code, sandbox, parameters };
        gazhuppin::call(&mut self.state, &mut self.pool, &mut self.table, image, &call)
    }
}

/// A case played a call at a time by both machines.
pub struct Stepped {
    /// What the plain machine answers and keeps.
    pub expected: Expected,
    /// What the proved machine keeps after the last line.
    pub kept: Kept,
}

/// What both machines keep, if the proved machine answers and keeps the same as the plain one at
/// every line.
pub fn in_step(case: &Case, lengths: Lengths) -> Result<Stepped, Difference> {
    let mut step = Step::start(case, lengths).map_err(|difference| difference.at_line(0))?;
    let mut replies = Vec::new();
    for (index, line) in case.roll.chunks(LINE_BYTES).take(LINES).enumerate() {
        let (number, value) = match parse_line(line) {
            Some(call) => {
                let reply = step.make(&case.image, &call);
                reply.map_err(|difference| difference.at_line(index + 1))?
            }
            None => (1, 0),
        };
        replies.extend(reply_line(index + 1, number, value));
    }
    Ok(Stepped { expected: Expected { replies, machine: step.machine }, kept: step.kept })
}

/// The program's memory, what the plain machine keeps, and the frames in step with both.
struct Step {
    kept: Kept,
    /// The program's memory as it was before the call: copied after a call that changes it.
    before: Kept,
    machine: Machine,
    frames: Frames,
}

impl Step {
    fn start(case: &Case, lengths: Lengths) -> Result<Step, Difference> {
        let machine = Machine::fresh(&case.image, lengths.frames());
        let mut kept = Kept::filled(lengths);
        let started = kept.start(&case.image);
        let number = if machine.lengths_are_right() { 0 } else { 3 };
        // A start clears the table, and no run is kept.
        let cleared = vec![0; kept.table.len()];
        let frames = Frames::of(&[0; layout::STATE_BYTES], &cleared);
        check_told(started, (number, 0))?;
        check_kept(&kept, &machine, &frames)?;
        Ok(Step { before: kept.clone(), kept, machine, frames })
    }

    fn make(&mut self, image: &[u8], call: &model::Call) -> Result<model::Reply, Difference> {
        let Step { kept, before, machine, frames } = self;
        let told = kept.call(image, call);
        let named = usize::from(call.sandbox);
        let sandbox = (named < SANDBOXES).then(|| machine.sandbox(named).clone());
        let reply = machine.answer(call);
        check_told(told, reply)?;
        match sandbox {
            Some(sandbox) if reply.0 == 0 && ![5, 9, 10].contains(&call.code) => {
                let program = Frames::of(&kept.state, &kept.table);
                frames.follow(call, reply.1, &sandbox, &program)?;
                check_kept(kept, machine, frames)?;
                // Into the same memory again and again: a new copy takes its time.
                before.clone_from(kept);
            }
            // A call that is refused, reads, reports or compares leaves every byte.
            _ => require(kept == before, || Difference::Changed)?,
        }
        Ok(reply)
    }
}

pub(crate) fn check_told(told: Told, (number, value): model::Reply) -> Result<(), Difference> {
    let same = told == Told { number: u32::from(number), value };
    require(same, || Difference::Answer {
        program: (told.number, told.value),
        model: (number, value),
    })
}

/// State, pool and table are those of the plain machine with these frames.
fn check_kept(kept: &Kept, machine: &Machine, frames: &Frames) -> Result<(), Difference> {
    if machine.lengths_are_right() {
        check_memory(&kept.pool, &kept.table, machine)?;
        check_table(&kept.table, &frames.table)?;
        if kept.state.len() == layout::STATE_BYTES {
            check_rows(&layout::rows(&kept.state), &frames.rows)?;
        }
        check_state(&kept.state, &state_of(machine, frames).bytes())
    } else {
        let untouched =
            Played { replies: Vec::new(), pool: kept.pool.clone(), table: kept.table.clone() };
        check_untouched(&untouched)?;
        // "though the state it gives is fresh"
        check_state(&kept.state, &[0; layout::STATE_BYTES])
    }
}

/// The first byte of the state that differs.
pub fn check_state(program: &[u8], model: &[u8]) -> Result<(), Difference> {
    if program == model {
        return Ok(());
    }
    let differs = |&at: &usize| program.get(at) != model.get(at);
    let at = (0..program.len().max(model.len())).find(differs).expect("they differ");
    let byte = |bytes: &[u8]| bytes.get(at).copied();
    Err(Difference::State { at, program: byte(program), model: byte(model) })
}

//! The proved machine against the plain machine: every reply of a roll, state, pool and table
//! after every line, and the archives of the snapshots that it leaves.
//!
//! - `difference`: what can differ, in words;
//! - `check`: replies and memory of a program against the plain machine;
//! - `played`: a case played by the proved machine, in memory that was not clean;
//! - `row`: the places for kept runs; `frames`: which frames a call moves;
//! - `layout`: the state in bytes; `state`: from the plain machine to the state, and back;
//! - `stepwise`: a case played a call at a time, in step with the plain machine;
//! - `archives`: archives against the plain machine's, and played again;
//! - `sound`: what makes a state unsound, clause by clause;
//! - `run`: many random rolls over all cores, and a failing one shrunk;
//! - `coverage`: which calls were accepted and which refusals were met;
//! - `pairs`: the two lists of demand 3, played by the proved machine;
//! - `with_frames` and `with_runs`: the plain machine with frames, and faults that only memory
//!   shows;
//! - `mutants`: wrong machines, and the roll that tells each of them.

mod archives;
mod check;
mod coverage;
mod difference;
mod frames;
pub mod layout;
mod mutants;
mod pairs;
mod played;
pub mod row;
mod run;
mod sound;
mod state;
mod stepwise;
mod with_frames;
mod with_runs;

pub use archives::{check_archives, check_writer, Archives};
pub use check::{check, check_entries, Expected};
pub use coverage::Coverage;
pub use difference::{Difference, Place, Side};
pub use frames::{check_rows, check_table, Frames};
pub use mutants::{table, tell, Known, Mutant, Told};
pub use pairs::{compare_pair, PairSeen};
pub use played::{play, Lengths};
pub use run::{run, Failure};
pub use sound::{unsound_clauses, Clause};
pub use state::{machine_of, state_of};
pub use stepwise::{check_state, in_step, Kept, Stepped};
pub use with_frames::{MemoryFault, WithFrames};

use gazhuppin::Played;
use rolls::Case;

/// Play a case on the proved machine and on the plain one, and compare them and their archives.
pub fn compare(case: &Case) -> Result<(), Difference> {
    compare_all(case, Lengths::of(case)).map(|_| ())
}

/// With lent memory of these lengths, right or wrong: the roll is played a call at a time, and as
/// a whole. Gives what the whole roll left.
pub fn compare_with(case: &Case, lengths: Lengths) -> Result<Played, Difference> {
    compare_calls(case, lengths).map(|(played, _)| played)
}

/// The same, and then the archives of all sandboxes are written, and played.
pub fn compare_all(case: &Case, lengths: Lengths) -> Result<(Played, Archives), Difference> {
    let (played, Stepped { expected, kept }) = compare_calls(case, lengths)?;
    let archives = check_archives(&kept, &expected.machine, &case.image)?;
    Ok((played, archives))
}

fn compare_calls(case: &Case, lengths: Lengths) -> Result<(Played, Stepped), Difference> {
    let stepped = in_step(case, lengths)?;
    let played = play(case, lengths);
    check(&played, &stepped.expected)?;
    Ok((played, stepped))
}

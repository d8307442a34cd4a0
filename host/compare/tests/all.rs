//! The proved machine against the plain one, all in one program: each is compiled and linked once.

mod along;
mod archives;
mod damaged;
mod kept_runs;
mod lengths;
mod mutants;
mod over_gaps;
mod pairs;
mod put_back;
mod random_rolls;
mod read_ahead;
mod stepwise;
mod still_clean;
#[path = "unsound/main.rs"]
mod unsound;

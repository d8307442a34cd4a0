//! The tests of the plain machine, all in one program: each is compiled and linked once.

mod all_are_run;
#[path = "archive/main.rs"]
mod archive;
mod by_hand;
mod common;
mod document_roll;
mod documents;
mod examples;
#[path = "kept_runs/main.rs"]
mod kept_runs;
mod over_gaps;
mod plausible_and_wrong;
mod player;
mod put_back;
mod refusals;
mod rewind_cases;
mod still_clean;

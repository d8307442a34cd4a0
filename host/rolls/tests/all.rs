//! The tests of the random rolls, all in one program: each is compiled and linked once.

mod archives;
#[path = "depth/main.rs"]
mod depth;
mod invariants;
mod mutants;
mod shrinking;
mod two_lists;

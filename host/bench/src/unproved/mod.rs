//! The machine of the Rattle crates, written in ordinary Rust without a proof: the
//! same state, the same work at each call. `play` makes the whole test of soundness before
//! every call, `play_trusting` never.
//!
//! - `page`: numbers, backings and attributes of pages;
//! - `areas`, `lookup` and `pack`: a sandbox's mapped pages as at most 8 runs;
//! - `held` and `runs`: the marks of frames, and the runs of kept ones;
//! - `memory`: the lent pool, page table and image;
//! - `request`: a call, its limits and its refusals;
//! - `sandbox` and `soundness`: what is kept, and the test of it;
//! - `rules`, `machine`, `rewind` and `compare`: what is refused, and what an accepted call
//!   does;
//! - `text` and `roll`: the lines, and the player;
//! - `archive`: a snapshot as a roll that rebuilds it.

mod archive;
mod areas;
mod compare;
mod held;
mod lookup;
mod machine;
mod memory;
mod pack;
mod page;
mod request;
mod rewind;
mod roll;
mod rules;
mod runs;
mod sandbox;
mod soundness;
#[cfg(test)]
mod spoiled;
mod text;

pub use archive::Left;
pub use roll::{play, play_dropping, play_keeping_nothing, play_trusting};

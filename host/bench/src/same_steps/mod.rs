//! The unproved machine once more, from the same files, but for five that go by the steps
//! that the proved machine had while it tested before every line. They part what a step
//! costs from what the proof or the compiler costs:
//!
//! - `lookup`: all 8 places are tried for a page, and all 8 lengths are counted;
//! - `walk` and `soundness`: the test of soundness walks the areas along with the pages, and
//!   goes over all places of runs;
//! - `rewind`: one look-up for each front; runs are gathered area by area;
//! - `compare`: the areas are compared first, and all bytes of two pages.

#[path = "../unproved/areas.rs"]
mod areas;
mod compare;
#[path = "../unproved/held.rs"]
mod held;
mod lookup;
#[path = "../unproved/machine.rs"]
mod machine;
#[path = "../unproved/memory.rs"]
mod memory;
#[path = "../unproved/pack.rs"]
mod pack;
#[path = "../unproved/page.rs"]
mod page;
#[path = "../unproved/request.rs"]
mod request;
mod rewind;
#[path = "../unproved/roll.rs"]
mod roll;
#[path = "../unproved/rules.rs"]
mod rules;
#[path = "../unproved/runs.rs"]
mod runs;
#[path = "../unproved/sandbox.rs"]
mod sandbox;
mod soundness;
#[cfg(test)]
#[path = "../unproved/spoiled.rs"]
mod spoiled;
#[path = "../unproved/text.rs"]
mod text;
mod walk;

pub use roll::{play, play_dropping, play_keeping_nothing, play_trusting};

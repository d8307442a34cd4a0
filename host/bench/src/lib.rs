//! The proved machine measured beside unproved ones.
//!
//! - `unproved`: the same design in ordinary Rust, with the test of soundness before every call
//!   and, trusting its state, without; `same_steps`: the same again, with the steps that the
//!   proved machine had while it tested before every line; `copying`: whole copies;
//! - `roll`, `states` and `rows`: the calls that are measured, and the states before them;
//! - `work` and `meter`: what is measured, and instructions and times of it;
//! - `calls`, `mixed`, `throughput`, `rewind`, `snapshot`, `frames`, `rounds`, `stepwise`,
//!   `compare`, `kept`, `archive`, `soundness`: the tables;
//! - `reach`: what is reached and what is not;
//! - `table`, `svg` and `document`: how they are written.

mod archive;
pub mod calls;
mod compare;
pub mod copying;
pub mod document;
mod frames;
mod kept;
pub mod meter;
pub mod mixed;
pub mod reach;
pub mod rewind;
pub mod roll;
mod rounds;
pub mod rows;
// Two machines from one set of files; see there.
#[allow(clippy::duplicate_mod)]
pub mod same_steps;
mod snapshot;
pub mod soundness;
pub mod states;
mod stepwise;
mod svg;
pub mod table;
mod throughput;
pub mod unproved;
mod work;

use table::Table;

/// The tables of docs/BENCHMARK.md.
pub const TABLES: [Table; 15] = [
    calls::TABLE,
    mixed::TABLE,
    throughput::TABLE,
    rewind::TABLE,
    snapshot::TABLE,
    frames::TABLE,
    rounds::TABLE,
    rounds::ADVERSE,
    stepwise::TABLE,
    compare::TABLE,
    kept::maps::TABLE,
    kept::soundness::TABLE,
    kept::requests::TABLE,
    archive::TABLE,
    soundness::TABLE,
];

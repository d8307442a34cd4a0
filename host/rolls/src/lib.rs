//! Random rolls for the plain machine, or for any program that should answer as it
//! does; a shrinker for rolls that fail; and pairs of lists for demand 3.
//!
//! - `prng`: the numbers, all drawn from a seed;
//! - `steering`: the next call, chosen with the machine's state in view, so that
//!   rolls reach deep states;
//! - `mood`: what a whole roll tends to;
//! - `put_back`: calls that undo what was changed since the snapshot;
//! - `gaps`: ranges that meet unmapped pages;
//! - `building`: areas of each kind, before a snapshot;
//! - `count`: a snapshot's pages written and written back, and rewound;
//! - `request`: areas mapped, written and rewound, again and again;
//! - `spoil`: calls at and past the limits, and malformed lines;
//! - `case`: a roll with its image and its number of frames;
//! - `shrink`: a smaller case that still fails;
//! - `pair`: two lists alike but for what came between a snapshot and a rewind.

mod building;
mod case;
mod count;
mod gaps;
mod mood;
mod pair;
mod prng;
mod put_back;
mod request;
mod shrink;
mod spoil;
mod steering;

pub use case::{Case, PLAYER_FRAMES};
pub use pair::{without_report_values, List, Pair};
pub use prng::Prng;
pub use shrink::shrink;
pub use spoil::{boundary_call, malformed_line, wild_call};
pub use steering::Steering;

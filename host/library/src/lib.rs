//! The proved machine of rewinding sandboxes, for callers in Rust.
//!
//! - `Machine` owns its memory and has a method for each call;
//! - `start` and `call` make a start and one call over memory that the caller lends;
//! - `Machine::archive`, and `archive` over lent memory, write a snapshot as a roll that rebuilds
//!   it;
//! - `play` plays a roll from a start over lent memory; `play_fresh` makes the memory and
//!   gives it back with the replies.
//!
//! C programs include `include/gazhuppin.h`, which says the same of the functions
//! underneath. What is proved of them stands in docs/CLAIMS.md.
//!
//! ```
//! use gazhuppin::{Address, Backing, Machine, Place, Rights};
//!
//! let mut machine = Machine::start([], 128)?;
//! machine.open(0, 16)?;
//! machine.map(0, Place::At(0), 4, Backing::Anonymous, Rights::ReadWrite)?;
//! machine.snapshot(0)?;
//! for request in 1..=3 {
//!     machine.write(0, Address(0), request)?; // a request's own data
//!     machine.rewind(0)?;
//!     assert_eq!(machine.read(0, Address(0))?, 0); // nothing of it is left
//! }
//! # Ok::<(), gazhuppin::Refusal>(())
//! ```

mod archive;
mod c;
mod call;
mod lent;
mod machine;
mod refusal;
mod roll;

pub use archive::archive;
pub use call::{Address, Backing, Call, Place, Rights};
pub use lent::{call, start, state_bytes};
pub use machine::Machine;
pub use refusal::{Refusal, Told};
pub use roll::{OutTooShort, Played, lines, play, play_fresh};

/// A line of a roll, with its line feed.
pub const LINE_BYTES: usize = 43;
/// The longest archive of a snapshot has this many lines: an open, 8 maps, a write for each of
/// 16,384 bytes, 8 protects and a snapshot.
pub const MOST_ARCHIVE_LINES: usize = 16_402;
/// A reply, with its line feed.
pub const REPLY_BYTES: usize = 19;
/// A frame of the pool, and a page of the image.
pub const FRAME_BYTES: usize = 256;
/// A pool has at most this many frames.
pub const MOST_FRAMES: usize = 128;
/// A table has exactly this many entries.
pub const TABLE_ENTRIES: usize = 512;
/// The pages of a sandbox.
pub const PAGES: u16 = 64;

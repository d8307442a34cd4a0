//! The plain machine of "Rewinding sandboxes: pages, frames and the call roll",
//! and the player of its roll.
//!
//! Sentences in quotation marks are the document's, or those of the requests that added call 10,
//! let unmap pass over gaps, keep the frames of a finished request, count the pages that a rewind
//! puts back, tell a rewind by its cases and write a snapshot as a roll; MACHINE and a number is a
//! clause of docs/MACHINE.md, which states them whole. The machine knows no frames: where a program
//! holds a frame, it keeps a front or a back mark on a page, or counts it in a run.
//!
//! Read in this order:
//! - `page`: one page, and how pages run together into areas;
//! - `runs`: lengths and ages of the runs of kept frames;
//! - `sandbox`: what is kept for a sandbox, and what each call does to it;
//! - `request`: the limits of the parameters (refusal 6);
//! - `machine`: four sandboxes, and the refusals in their order;
//! - `roll`: lines of calls, lines of replies, and the player;
//! - `archive`: a snapshot as a roll that rebuilds it;
//! - `rewind_case`: the four cases of a page at a rewind;
//! - `fault`, `faulty`, `faulty_pages`, `faulty_compare`, `faulty_gaps`, `faulty_runs`,
//!   `faulty_count` and `faulty_cases`: wrong machines, which a test must tell from the right one;
//!   `archive_fault` and `faulty_archive`: wrong writers of archives.

mod archive;
mod archive_fault;
mod fault;
mod faulty;
mod faulty_archive;
mod faulty_cases;
mod faulty_compare;
mod faulty_count;
mod faulty_gaps;
mod faulty_pages;
mod faulty_runs;
mod machine;
mod page;
mod request;
mod rewind_case;
mod roll;
mod runs;
mod sandbox;

pub use archive::{snapshots_agree, Archive, ARCHIVE_LINES};
pub use archive_fault::ArchiveFault;
pub use fault::Fault;
pub use faulty::Faulty;
pub use faulty_archive::wrong_archive;
pub use machine::{Answering, Machine, Refusal, Reply, CODES, FRAMES, IMAGE_PAGES, SANDBOXES};
pub use page::{areas_of, count_areas, Backing, Page, Pages, PAGES, PAGE_BYTES};
pub use request::{Place, Request, ADDRESSES};
pub use rewind_case::RewindCase;
pub use roll::LINE_BYTES;
pub use roll::{call_line, parse_line, play, play_on, reply_line, reply_lines, Call, LINES};
pub use runs::{Runs, RUNS};
pub use sandbox::{Sandbox, AREAS};

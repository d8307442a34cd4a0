//! What is kept for a sandbox.

use super::areas::Areas;
use super::runs::Runs;

#[derive(Clone, Copy, PartialEq, Eq, Debug)]
pub struct Sandbox {
    pub open: bool,
    pub share: u8,
    pub present: Areas,
    pub snapshot: Option<Areas>,
    pub runs: Runs,
}

impl Sandbox {
    pub const CLOSED: Sandbox =
        Sandbox { open: false, share: 0, present: Areas::EMPTY, snapshot: None, runs: Runs::NONE };

    /// "its mapped pages before a snapshot. Afterwards it is 2 × the snapshot's pages,
    /// mapped or not, plus the uncommitted mapped pages."
    pub fn charge(&self) -> usize {
        match &self.snapshot {
            None => self.present.mapped_pages(),
            Some(snapshot) => 2 * snapshot.mapped_pages() + self.present.uncommitted_pages(),
        }
    }
}

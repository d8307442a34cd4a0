//! Request A5: what a rewind finds of "each committed page still mapped", with "the cases in the
//! order of that text", section 3.2.2 of document 000. The plain machine puts the whole copy in
//! place and looks for no case: wrong machines and tests do.

use crate::page::{Backing, Page};

#[derive(Clone, Copy, PartialEq, Eq, Debug)]
pub enum RewindCase {
    /// "page shared with the snapshot (no front)", whether it has a back or not.
    Shared,
    /// "page with a copy (front and back)".
    Copied,
    /// "zeroed page (front alone, anonymous)".
    Zeroed,
    /// "the image page (front alone, image)", and which page of the image it is.
    ImagePage(usize),
}

impl RewindCase {
    /// MACHINE 4.29: the case of a page as it is before a rewind; `None` where it is not committed,
    /// and so not of the snapshot, unmapped since, or mapped anew.
    pub fn of(page: &Page) -> Option<RewindCase> {
        match page {
            Page { committed: false, .. } => None,
            Page { front: false, .. } => Some(RewindCase::Shared),
            Page { back: true, .. } => Some(RewindCase::Copied),
            Page { backing: Backing::Anonymous, .. } => Some(RewindCase::Zeroed),
            Page { backing: Backing::Image(under), .. } => Some(RewindCase::ImagePage(*under)),
        }
    }
}

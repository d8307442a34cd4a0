//! "Still clean?": where the areas are the snapshot's, only pages with a front are looked at; else
//! each page is looked up in the present areas and in the snapshot's.

use super::memory::Memory;
use super::page::{PageNo, PAGES};
use super::sandbox::Sandbox;

/// "the lowest page number at which the sandbox and its snapshot differ in being mapped, in
/// rights or in bytes, and 64 if they nowhere differ".
pub fn lowest_difference(sandbox: &Sandbox, memory: &Memory, s: usize) -> u32 {
    // The snapshot's areas are committed, so these are too where they are the same.
    let same = sandbox.snapshot.as_ref() == Some(&sandbox.present);
    let passed = |page: PageNo| same && memory.front(s, page).is_none();
    let differs = |&page: &PageNo| !passed(page) && !agrees(sandbox, memory, s, page);
    let lowest = (0..PAGES as u8).map(PageNo).find(differs);
    lowest.map_or(PAGES as u32, |page| u32::from(page.0))
}

/// "A committed page with unchanged rights and no front is passed over." Any other mapped page
/// reads its front or its backing, and in the snapshot its back or its backing.
fn agrees(sandbox: &Sandbox, memory: &Memory, s: usize, page: PageNo) -> bool {
    let present = sandbox.present.slot(page);
    let snapshot = sandbox.snapshot.as_ref().and_then(|snapshot| snapshot.slot(page));
    let (Some(present), Some(snapshot)) = (present, snapshot) else {
        return present.is_none() && snapshot.is_none();
    };
    if present.rights != snapshot.rights {
        return false;
    }
    let front = memory.front(s, page);
    if present.committed && front.is_none() {
        return true;
    }
    let back = memory.back(s, page);
    memory.bytes(front, present.backing) == memory.bytes(back, snapshot.backing)
}

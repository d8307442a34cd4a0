//! "Still clean?": where every area stands in the snapshot as it is, a page without a front is
//! not looked up, and one with a front is looked up once.

use super::areas::{Area, Areas};
use super::memory::Memory;
use super::page::{Attributes, FrameNo, PageNo, PAGES};
use super::sandbox::Sandbox;

/// "the lowest page number at which the sandbox and its snapshot differ in being mapped, in
/// rights or in bytes, and 64 if they nowhere differ".
pub fn lowest_difference(sandbox: &Sandbox, memory: &Memory, s: usize) -> u32 {
    let snapshot = sandbox.snapshot.as_ref().unwrap_or(&Areas::EMPTY);
    let same = are_unchanged(&sandbox.present, snapshot);
    for page in 0..PAGES {
        let number = PageNo(page as u8);
        let front = memory.front(s, number);
        if !(same & front.is_none()) {
            let present = sandbox.present.slot(number);
            let copied = if same { present } else { snapshot.slot(number) };
            if !agrees(present, copied, memory, front, memory.back(s, number)) {
                return page as u32;
            }
        }
    }
    PAGES as u32
}

/// Whether every area is committed and stands in the snapshot with the same pages and rights.
/// All 8 places are looked at, which takes no branch.
fn are_unchanged(present: &Areas, snapshot: &Areas) -> bool {
    let places = present.list.iter().zip(&snapshot.list);
    places.fold(true, |same, (area, copied)| same & stays(area, copied))
}

fn stays(area: &Area, copied: &Area) -> bool {
    (area.first == copied.first)
        & (area.pages == copied.pages)
        & (area.attributes.rights == copied.attributes.rights)
        & (area.attributes.committed | (area.pages == 0))
}

/// "A committed page with unchanged rights and no front is passed over." Any other mapped page
/// reads its front or its backing, and in the snapshot its back or its backing.
fn agrees(
    present: Option<Attributes>,
    snapshot: Option<Attributes>,
    memory: &Memory,
    front: Option<FrameNo>,
    back: Option<FrameNo>,
) -> bool {
    let (Some(present), Some(snapshot)) = (present, snapshot) else {
        return present.is_none() && snapshot.is_none();
    };
    if present.rights != snapshot.rights {
        return false;
    }
    if present.committed && front.is_none() {
        return true;
    }
    is_same(memory.bytes(front, present.backing), memory.bytes(back, snapshot.backing))
}

/// Whether two parts of the same length have the same bytes. All are compared, which takes no
/// branch.
fn is_same(part: &[u8], other: &[u8]) -> bool {
    part.iter().zip(other).fold(true, |same, (byte, other)| same & (byte == other))
}

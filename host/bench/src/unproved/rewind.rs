//! A rewind's work on the lent memory: whether a page is still committed is looked up in
//! the present areas, its backing in the snapshot's.

use super::held::Held;
use super::memory::Memory;
use super::page::{Backing, PageNo, PAGES};
use super::sandbox::Sandbox;

/// Each front keeps its frame with the snapshot's bytes, or is freed and cleared. Gives "the number
/// of committed pages still mapped whose bytes differed from the snapshot".
pub fn rewind<const KEEPS_FRONTS: bool>(
    sandbox: &Sandbox,
    held: &mut Held,
    memory: &mut Memory,
    s: usize,
) -> u32 {
    let mut put_back = 0;
    for page in (0..PAGES as u8).map(PageNo) {
        let Some(frame) = memory.front(s, page) else {
            continue;
        };
        let present = sandbox.present.slot(page);
        if present.is_some_and(|page| page.committed) {
            let copy = sandbox.snapshot.and_then(|snapshot| snapshot.slot(page));
            let backing = copy.map_or(Backing::Anonymous, |copy| copy.backing);
            let back = memory.back(s, page);
            let differs = memory.differs(frame, back, backing);
            put_back += u32::from(differs);
            if KEEPS_FRONTS {
                if differs {
                    memory.fill(frame, back, backing);
                }
                continue;
            }
        }
        memory.free_front(held, s, page);
    }
    put_back
}

/// "the frames of each uncommitted anonymous area, if any, are .. kept as one run": of each area
/// in turn. The entries are those before the rewind, which then clears the frames.
pub fn gather(sandbox: &mut Sandbox, memory: &Memory, s: usize) {
    let areas = sandbox.present.as_slice().iter();
    for area in areas.filter(|area| area.attributes.is_spared()) {
        let pages = (area.first.0..area.end() as u8).map(PageNo);
        sandbox.runs.push(pages.filter_map(|page| memory.front(s, page)).collect());
    }
}

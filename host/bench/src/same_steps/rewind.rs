//! A rewind's work on the lent memory: a committed page agrees with the snapshot's in
//! backing, so that it is looked up once, in the present areas.

use super::held::Held;
use super::memory::Memory;
use super::page::{PageNo, PAGES};
use super::sandbox::Sandbox;

/// Each front keeps its frame with the snapshot's bytes, or is freed and cleared. Gives "the number
/// of committed pages still mapped whose bytes differed from the snapshot".
pub fn rewind<const KEEPS_FRONTS: bool>(
    sandbox: &Sandbox,
    held: &mut Held,
    memory: &mut Memory,
    s: usize,
) -> u32 {
    let mut put_back = 0;
    for page in (0..PAGES as u8).map(PageNo) {
        let Some(frame) = memory.front(s, page) else {
            continue;
        };
        if let Some(slot) = sandbox.present.slot(page).filter(|slot| slot.committed) {
            let back = memory.back(s, page);
            let differs = memory.differs(frame, back, slot.backing);
            put_back += u32::from(differs);
            if KEEPS_FRONTS {
                if differs {
                    memory.fill(frame, back, slot.backing);
                }
                continue;
            }
        }
        memory.free_front(held, s, page);
    }
    put_back
}

/// "the frames of each uncommitted anonymous area, if any, are .. kept as one run": of each area
/// in turn. The entries are those before the rewind, which then clears the frames.
pub fn gather(sandbox: &mut Sandbox, memory: &Memory, s: usize) {
    let mut runs = sandbox.runs;
    for area in &sandbox.present.list[..usize::from(sandbox.present.count)] {
        if area.attributes.is_spared() {
            let mut run = Held::NONE;
            for page in (area.first.0..area.end() as u8).map(PageNo) {
                if let Some(frame) = memory.front(s, page) {
                    run.insert(frame);
                }
            }
            if run != Held::NONE {
                runs.push(run);
            }
        }
    }
    sandbox.runs = runs;
}

//! "A state is sound if ..": the whole test, made before every call, with a walk along the
//! present areas and one along the snapshot's, and one pass over the runs of all sandboxes.

use super::areas::Areas;
use super::held::Held;
use super::machine::Machine;
use super::memory::{Memory, SANDBOX_ENTRIES};
use super::page::{Attributes, Backing, PageNo, PAGES};
use super::sandbox::Sandbox;
use super::walk::Walk;

impl<const KEEPS_FRONTS: bool, const KEEPS_RUNS: bool, const TESTS: bool>
    Machine<KEEPS_FRONTS, KEEPS_RUNS, TESTS>
{
    pub fn is_sound(&self, memory: &Memory) -> bool {
        memory.has_right_lengths()
            && Held::named_by(memory.table, memory.frames()) == Some(self.held)
            && self
                .sandboxes
                .iter()
                .zip(memory.table.chunks_exact(SANDBOX_ENTRIES))
                .all(|(sandbox, entries)| sandbox.is_sound(entries, memory.images()))
            && (!KEEPS_RUNS || self.has_sound_runs(memory))
            && self.shares() <= memory.frames()
    }

    /// "Kept frames are held and zero, belong to one run and no entry, and with fronts and backs
    /// stay within the share".
    fn has_sound_runs(&self, memory: &Memory) -> bool {
        let sandboxes = self.sandboxes.iter().enumerate();
        let mut within = sandboxes.map(|(s, sandbox)| sandbox.keeps_within_share(memory, s));
        if !within.all(|within| within) {
            return false;
        }
        let Some(kept) = self.kept_once() else {
            return false;
        };
        kept.is_apart(&self.held)
            && kept.is_of_pool(memory.frames())
            && kept.frames().all(|frame| is_zero(memory.bytes(Some(frame), Backing::Anonymous)))
    }

    /// The frames that runs keep; `None` where two keep the same. All 32 places are looked at,
    /// which takes no branch.
    fn kept_once(&self) -> Option<Held> {
        let runs = self.sandboxes.iter().flat_map(|sandbox| &sandbox.runs.list);
        let (once, kept) = runs.fold((true, Held::NONE), |(once, kept), run| {
            (once & kept.is_apart(run), kept.with_all(run))
        });
        once.then_some(kept)
    }
}

impl Sandbox {
    /// Where nothing is kept, the charge already holds fronts and backs within the share.
    fn keeps_within_share(&self, memory: &Memory, s: usize) -> bool {
        let kept = self.runs.kept();
        kept == 0 || self.open && memory.used(s) + kept <= usize::from(self.share)
    }

    fn is_sound(&self, entries: &[u16], images: usize) -> bool {
        self.present.are_well_formed(images)
            && self.snapshot.as_ref().is_none_or(|snapshot| snapshot.are_well_formed(images))
            && self.has_sound_pages(entries)
            && self.charge() <= usize::from(self.share)
            && self.has_sound_record()
    }

    /// Without areas no page is looked at, only the entries.
    fn has_sound_pages(&self, entries: &[u16]) -> bool {
        let snapshot = self.snapshot.as_ref().unwrap_or(&Areas::EMPTY);
        if self.present.count == 0 && snapshot.count == 0 {
            return names_none(entries);
        }
        let (fronts, backs) = entries.split_at(PAGES);
        let (mut here, mut there) = (Walk::along(&self.present), Walk::along(snapshot));
        for (page, (&front, &back)) in fronts.iter().zip(backs).enumerate() {
            let number = PageNo(page as u8);
            if !is_sound_page(here.slot(number), there.slot(number), front, back) {
                return false;
            }
            here.go_on(page + 1);
            there.go_on(page + 1);
        }
        true
    }

    fn has_sound_record(&self) -> bool {
        if self.open {
            (1..=128).contains(&self.share)
        } else {
            self.share == 0 && self.present.count == 0 && self.snapshot.is_none()
        }
    }
}

/// Whether no entry names a frame. All are looked at, which takes no branch.
fn names_none(entries: &[u16]) -> bool {
    entries.iter().fold(true, |none, &entry| none & (entry == 0))
}

/// Whether all bytes are zero. All are looked at, which takes no branch.
fn is_zero(page: &[u8]) -> bool {
    page.iter().fold(true, |zero, &byte| zero & (byte == 0))
}

/// "the snapshot's areas are marked committed; committed pages are snapshot pages and
/// agree with them in backing; fronts stand on mapped pages only, backs on snapshot
/// pages only". Most pages are in neither.
fn is_sound_page(
    present: Option<Attributes>,
    snapshot: Option<Attributes>,
    front: u16,
    back: u16,
) -> bool {
    if present.is_none() && snapshot.is_none() {
        return front == 0 && back == 0;
    }
    let agrees = |page: Attributes| snapshot.is_some_and(|copy| copy.backing == page.backing);
    snapshot.is_none_or(|copy| copy.committed)
        && present.is_none_or(|page| !page.committed || agrees(page))
        && (present.is_some() || front == 0)
        && (snapshot.is_some() || back == 0)
}

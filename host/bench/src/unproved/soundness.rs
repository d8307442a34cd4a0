//! "A state is sound if ..": the whole test, made before every call of a machine that tests.

use super::held::Held;
use super::machine::Machine;
use super::memory::{Memory, SANDBOX_ENTRIES};
use super::page::{Attributes, Backing, PageNo, PAGES};
use super::runs::Runs;
use super::sandbox::Sandbox;

impl<const KEEPS_FRONTS: bool, const KEEPS_RUNS: bool, const TESTS: bool>
    Machine<KEEPS_FRONTS, KEEPS_RUNS, TESTS>
{
    pub fn is_sound(&self, memory: &Memory) -> bool {
        memory.has_right_lengths()
            && Held::named_by(memory.table, memory.frames()) == Some(self.held)
            && self
                .sandboxes
                .iter()
                .zip(memory.table.chunks_exact(SANDBOX_ENTRIES))
                .all(|(sandbox, entries)| sandbox.is_sound(entries, memory.images()))
            && (!KEEPS_RUNS || self.has_sound_runs(memory))
            && self.shares() <= memory.frames()
    }

    /// "Kept frames are held and zero, belong to one run and no entry, and with fronts and backs
    /// stay within the share".
    fn has_sound_runs(&self, memory: &Memory) -> bool {
        let mut kept = Held::NONE;
        for (s, Sandbox { open, share, runs, .. }) in self.sandboxes.iter().enumerate() {
            if *runs == Runs::NONE {
                continue;
            }
            if !open || memory.used(s) + runs.kept() > usize::from(*share) {
                return false;
            }
            for run in &runs.list {
                if !kept.is_apart(run) {
                    return false;
                }
                kept = kept.with_all(run);
            }
        }
        let zero = memory.bytes(None, Backing::Anonymous);
        kept.is_apart(&self.held)
            && kept.is_of_pool(memory.frames())
            && kept.frames().all(|frame| memory.bytes(Some(frame), Backing::Anonymous) == zero)
    }
}

impl Sandbox {
    fn is_sound(&self, entries: &[u16], images: usize) -> bool {
        self.present.are_well_formed(images)
            && self.snapshot.as_ref().is_none_or(|snapshot| snapshot.are_well_formed(images))
            && self.has_sound_pages(entries)
            && self.charge() <= usize::from(self.share)
            && self.has_sound_record()
    }

    fn has_sound_pages(&self, entries: &[u16]) -> bool {
        let (fronts, backs) = entries.split_at(PAGES);
        (0..PAGES as u8).map(PageNo).zip(fronts.iter().zip(backs)).all(|(page, (&front, &back))| {
            let present = self.present.slot(page);
            let snapshot = self.snapshot.as_ref().and_then(|snapshot| snapshot.slot(page));
            is_sound_page(present, snapshot, front, back)
        })
    }

    fn has_sound_record(&self) -> bool {
        if self.open {
            (1..=128).contains(&self.share)
        } else {
            self.share == 0 && self.present.count == 0 && self.snapshot.is_none()
        }
    }
}

/// "the snapshot's areas are marked committed; committed pages are snapshot pages and
/// agree with them in backing; fronts stand on mapped pages only, backs on snapshot
/// pages only".
fn is_sound_page(
    present: Option<Attributes>,
    snapshot: Option<Attributes>,
    front: u16,
    back: u16,
) -> bool {
    let agrees = |page: Attributes| snapshot.is_some_and(|copy| copy.backing == page.backing);
    snapshot.is_none_or(|copy| copy.committed)
        && present.is_none_or(|page| !page.committed || agrees(page))
        && (present.is_some() || front == 0)
        && (snapshot.is_some() || back == 0)
}

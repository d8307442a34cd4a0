//! "A state is sound if": each clause of the sentence, tested by itself and apart from the
//! proved machine's test.

use crate::layout::{Area, Areas, Record, State};
use crate::row::length;
use model::{Backing, AREAS, FRAMES, IMAGE_PAGES, PAGES, PAGE_BYTES, RUNS};
use std::collections::BTreeSet;

/// What a state can lack. The words are document 01's; the first three are no clause of its
/// sentence, but what it takes for granted.
#[derive(Clone, Copy, PartialEq, Eq, PartialOrd, Ord, Debug)]
pub enum Clause {
    /// "lent length wrong": of pool, table or image.
    Lengths,
    /// Bytes that a state has: their number, marks 0 or 1, kinds of backing 0 or 1, no image
    /// page where anonymous.
    Bytes,
    /// Places behind the areas hold nothing.
    NothingBehind,
    /// "areas, the snapshot's too, are at most 8"
    AtMostEight,
    /// "with rights 1 or 3"
    Rights,
    /// "lie in 0 to 63"; an area is a run of pages, at least one.
    Inside,
    /// "ordered"
    Ordered,
    /// "apart"
    Apart,
    /// "longest"
    Longest,
    /// "image pages exist"
    ImagePages,
    /// "the snapshot's areas are marked committed"
    SnapshotMarked,
    /// "committed pages are snapshot pages"
    CommittedInSnapshot,
    /// "and agree with them in backing"
    BackingAgrees,
    /// "entries name frames of the pool"
    EntriesInPool,
    /// "no frame twice"
    NoFrameTwice,
    /// "the held marks are those frames"
    HeldMarks,
    /// "fronts stand on mapped pages only"
    FrontsOnMapped,
    /// "backs on snapshot pages only"
    BacksOnSnapshot,
    /// "the charge .. limits hold": "It never exceeds the share"
    Charge,
    /// ".. and share limits hold": "share, 1 to 128", "the shares together never exceed the
    /// pool"
    Shares,
    /// "a sandbox without a snapshot has no committed page", in the snapshot's areas either
    NoSnapshot,
    /// "a closed one has nothing", and keeps no run
    Closed,
    /// Kept frames "are held": they are frames of the pool
    KeptInPool,
    /// "and zero"
    KeptZero,
    /// "belong to one run"
    KeptOnce,
    /// "and no entry"
    KeptUnnamed,
    /// "and with fronts and backs stay within the share"
    KeptInShare,
}

/// The clauses that do not hold, in order; none of a sound state. Where lengths or bytes are
/// wrong nothing else can be looked at.
pub fn unsound_clauses(state: &[u8], pool: &[u8], table: &[u16], image: &[u8]) -> Vec<Clause> {
    let whole = |bytes: usize| bytes.is_multiple_of(PAGE_BYTES).then_some(bytes / PAGE_BYTES);
    let frames = whole(pool.len()).filter(|frames| FRAMES.contains(frames));
    let images = whole(image.len()).filter(|pages| IMAGE_PAGES.contains(pages));
    let (Some(frames), Some(images), 512) = (frames, images, table.len()) else {
        return vec![Clause::Lengths];
    };
    let Some(state) = State::of(state) else { return vec![Clause::Bytes] };
    let mut broken = BTreeSet::new();
    for (record, entries) in state.sandboxes.iter().zip(table.chunks_exact(2 * PAGES)) {
        areas(&record.present, images, &mut broken);
        areas(&record.snapshot, images, &mut broken);
        pages(record, entries, &mut broken);
        limits(record, &mut broken);
        let held = entries.iter().filter(|&&entry| entry != 0).count();
        let kept: usize = record.runs.iter().map(|&run| length(run)).sum();
        let within = held + kept <= usize::from(record.share);
        // Fronts and backs alone are bounded by the charge.
        require(within || kept == 0 || !record.open, Clause::KeptInShare, &mut broken);
    }
    marks(&state, table, frames, &mut broken);
    kept_frames(&state, pool, table, &mut broken);
    let shares = state.sandboxes.iter().map(|record| usize::from(record.share));
    require(shares.sum::<usize>() <= frames, Clause::Shares, &mut broken);
    broken.into_iter().collect()
}

fn require(holds: bool, clause: Clause, broken: &mut BTreeSet<Clause>) {
    if !holds {
        broken.insert(clause);
    }
}

fn areas(areas: &Areas, images: usize, broken: &mut BTreeSet<Clause>) {
    require(usize::from(areas.count) <= AREAS, Clause::AtMostEight, broken);
    let list = areas.list();
    for area in list {
        require(area.rights == 1 || area.rights == 3, Clause::Rights, broken);
        require(area.pages > 0 && area.end() <= PAGES, Clause::Inside, broken);
        let last_image = match area.backing {
            Backing::Anonymous => 0,
            Backing::Image(first) => first + usize::from(area.pages),
        };
        require(last_image <= images, Clause::ImagePages, broken);
    }
    let ordered = list.windows(2).all(|pair| pair[0].first <= pair[1].first);
    require(ordered, Clause::Ordered, broken);
    // Any two of them, whatever their order.
    for (index, area) in list.iter().enumerate() {
        for other in list[..index].iter().chain(&list[index + 1..]) {
            // One of two runs that share a page begins inside the other.
            let shared = area.pages > 0 && other.covers(usize::from(area.first));
            require(!shared, Clause::Apart, broken);
            require(!goes_on(area, other), Clause::Longest, broken);
        }
    }
    let behind = &areas.places[list.len()..];
    require(behind.iter().all(|place| *place == Area::NONE), Clause::NothingBehind, broken);
}

/// Whether the two would be one: the second begins where the first ends, and they "agree in
/// rights, mark and backing (image pages running on)".
fn goes_on(area: &Area, next: &Area) -> bool {
    area.end() == usize::from(next.first)
        && area.rights == next.rights
        && area.committed == next.committed
        && area.backing_of(area.end()) == next.backing
}

fn pages(record: &Record, entries: &[u16], broken: &mut BTreeSet<Clause>) {
    let (fronts, backs) = entries.split_at(PAGES);
    for area in record.snapshot.list() {
        require(area.committed, Clause::SnapshotMarked, broken);
    }
    for page in 0..PAGES {
        let (present, kept) = (record.present.at(page), record.snapshot.at(page));
        if let Some(area) = present.filter(|area| area.committed) {
            require(kept.is_some(), Clause::CommittedInSnapshot, broken);
            let agrees = |kept: &Area| kept.backing_of(page) == area.backing_of(page);
            require(kept.is_none_or(agrees), Clause::BackingAgrees, broken);
        }
        require(fronts[page] == 0 || present.is_some(), Clause::FrontsOnMapped, broken);
        require(backs[page] == 0 || kept.is_some(), Clause::BacksOnSnapshot, broken);
    }
}

fn limits(record: &Record, broken: &mut BTreeSet<Clause>) {
    let pages = |areas: &Areas, counted: &dyn Fn(&Area) -> bool| {
        (0..PAGES).filter(|&page| areas.at(page).is_some_and(counted)).count()
    };
    let charge = if record.taken {
        let uncommitted = pages(&record.present, &|area| !area.committed);
        2 * pages(&record.snapshot, &|_| true) + uncommitted
    } else {
        pages(&record.present, &|_| true)
    };
    let share = usize::from(record.share);
    require(charge <= share, Clause::Charge, broken);
    let committed = record.present.list().iter().any(|area| area.committed);
    let kept = record.snapshot.count != 0;
    require(record.taken || !(committed || kept), Clause::NoSnapshot, broken);
    let no_areas = record.present.count == 0 && record.snapshot.count == 0;
    let nothing = share == 0 && !record.taken && no_areas && record.runs == [0; RUNS];
    require(record.open || nothing, Clause::Closed, broken);
    require(!record.open || (1..=128).contains(&share), Clause::Shares, broken);
}

fn marks(state: &State, table: &[u16], frames: usize, broken: &mut BTreeSet<Clause>) {
    let mut named = 0u128;
    for &entry in table.iter().filter(|&&entry| entry != 0) {
        let frame = usize::from(entry) - 1;
        require(frame < frames, Clause::EntriesInPool, broken);
        if frame < frames {
            require(named & 1 << frame == 0, Clause::NoFrameTwice, broken);
            named |= 1 << frame;
        }
    }
    require(state.held == named, Clause::HeldMarks, broken);
}

/// "Kept frames are held and zero, belong to one run and no entry".
fn kept_frames(state: &State, pool: &[u8], table: &[u16], broken: &mut BTreeSet<Clause>) {
    let mut kept = 0u128;
    for run in state.sandboxes.iter().flat_map(|record| record.runs) {
        require(kept & run == 0, Clause::KeptOnce, broken);
        kept |= run;
    }
    for frame in (0..128).filter(|frame| kept >> frame & 1 == 1) {
        let bytes = pool.get(frame * PAGE_BYTES..(frame + 1) * PAGE_BYTES);
        require(bytes.is_some(), Clause::KeptInPool, broken);
        let zero = bytes.is_none_or(|bytes| bytes.iter().all(|&byte| byte == 0));
        require(zero, Clause::KeptZero, broken);
        require(!table.contains(&(frame as u16 + 1)), Clause::KeptUnnamed, broken);
    }
}

//! The same of the snapshot's areas; and "the snapshot's areas are marked committed;
//! committed pages are snapshot pages and agree with them in backing".

use super::areas::in_two;
use super::bases::{eight_in_snapshot, since_snapshot, snapshot_alone, World};
use super::Row;
use compare::layout::{count_at, Area, Which};
use compare::Clause::{
    Apart, AtMostEight, BackingAgrees, CommittedInSnapshot, ImagePages, Inside, Longest,
    NothingBehind, Ordered, Rights, SnapshotMarked,
};
use model::Backing;

pub const ROWS: &[Row] = &[
    Row {
        clause: AtMostEight,
        what: "snapshot: a count of 9",
        base: eight_in_snapshot,
        edit: |w| w.kept.state[count_at(0, Which::Snapshot)] = 9,
    },
    Row {
        clause: Rights,
        what: "snapshot: rights 2",
        base: snapshot_alone,
        edit: |w| area(w, 2, |area| area.rights = 2),
    },
    Row {
        clause: Rights,
        what: "snapshot: rights 0, of mapped pages",
        base: since_snapshot,
        edit: |w| area(w, 2, |area| area.rights = 0),
    },
    Row {
        clause: Inside,
        what: "snapshot: pages 63 and 64",
        base: snapshot_alone,
        edit: |w| area(w, 2, |area| (area.first, area.pages) = (63, 2)),
    },
    Row {
        clause: Inside,
        what: "snapshot: no page",
        base: snapshot_alone,
        edit: |w| area(w, 2, |area| area.pages = 0),
    },
    Row {
        clause: Ordered,
        what: "snapshot: first and last area exchanged",
        base: snapshot_alone,
        edit: |w| w.edit_areas(Which::Snapshot, |areas| areas.places.swap(0, 2)),
    },
    Row {
        clause: Apart,
        what: "snapshot: an area runs into the next",
        base: snapshot_alone,
        edit: |w| area(w, 0, |area| area.pages = 5),
    },
    Row {
        clause: Longest,
        what: "snapshot: an anonymous area in two",
        base: snapshot_alone,
        edit: |w| in_two(w, Which::Snapshot, 0),
    },
    Row {
        clause: Longest,
        what: "snapshot: an image area in two, of mapped pages",
        base: since_snapshot,
        edit: |w| in_two(w, Which::Snapshot, 1),
    },
    Row {
        clause: ImagePages,
        what: "snapshot: image pages 7 and 8 of 8",
        base: snapshot_alone,
        edit: |w| area(w, 1, |area| area.backing = Backing::Image(7)),
    },
    Row {
        clause: ImagePages,
        what: "snapshot: one image page is left",
        base: snapshot_alone,
        edit: |w| w.image.truncate(256),
    },
    Row {
        clause: NothingBehind,
        what: "snapshot: rights behind the areas",
        base: snapshot_alone,
        edit: |w| area(w, 3, |area| area.rights = 3),
    },
    Row {
        clause: NothingBehind,
        what: "snapshot: a mark in the last place",
        base: since_snapshot,
        edit: |w| area(w, 7, |area| area.committed = true),
    },
    Row {
        clause: SnapshotMarked,
        what: "an area without its mark",
        base: snapshot_alone,
        edit: |w| area(w, 0, |area| area.committed = false),
    },
    Row {
        clause: SnapshotMarked,
        what: "an area without its mark, of mapped pages",
        base: since_snapshot,
        edit: |w| area(w, 2, |area| area.committed = false),
    },
    Row {
        clause: CommittedInSnapshot,
        what: "a mark on pages mapped since the snapshot",
        base: since_snapshot,
        edit: |w| w.edit_area(Which::Present, 3, |area| area.committed = true),
    },
    Row {
        clause: CommittedInSnapshot,
        what: "an area is gone from the snapshot",
        base: since_snapshot,
        edit: |w| {
            w.edit_areas(Which::Snapshot, |areas| {
                areas.count = 2;
                areas.places[2] = Area::NONE;
            })
        },
    },
    Row {
        clause: CommittedInSnapshot,
        what: "an area of the snapshot is a page shorter",
        base: since_snapshot,
        edit: |w| area(w, 0, |area| area.pages = 1),
    },
    Row {
        clause: BackingAgrees,
        what: "an anonymous snapshot page is an image page",
        base: since_snapshot,
        edit: |w| w.edit_area(Which::Present, 0, |area| area.backing = Backing::Image(0)),
    },
    Row {
        clause: BackingAgrees,
        what: "an image snapshot page is anonymous",
        base: since_snapshot,
        edit: |w| w.edit_area(Which::Present, 1, |area| area.backing = Backing::Anonymous),
    },
    Row {
        clause: BackingAgrees,
        what: "the snapshot's image page is the next one",
        base: since_snapshot,
        edit: |w| area(w, 1, |area| area.backing = Backing::Image(2)),
    },
];

/// Edit one area of sandbox 0's snapshot.
fn area(world: &mut World, number: usize, edit: fn(&mut Area)) {
    world.edit_area(Which::Snapshot, number, edit);
}

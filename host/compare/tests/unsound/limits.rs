//! "the charge and share limits hold; a sandbox without a snapshot has no committed page; a
//! closed one has nothing."

use super::bases::{empty_snapshot, opened, since_snapshot, snapshot_alone, three, World};
use super::Row;
use compare::layout::{open_at, share_at, taken_at, Area, Which};
use compare::Clause::{Charge, Closed, NoSnapshot, Shares};
use model::Backing;

pub const ROWS: &[Row] = &[
    Row {
        clause: Charge,
        what: "a share below the mapped pages",
        base: three,
        edit: |w| w.kept.state[share_at(0)] = 4,
    },
    Row {
        clause: Charge,
        what: "a share below twice the snapshot's pages and the others",
        base: since_snapshot,
        edit: |w| w.kept.state[share_at(0)] = 11,
    },
    Row {
        clause: Charge,
        what: "a share below twice the snapshot's pages, none mapped",
        base: snapshot_alone,
        edit: |w| w.kept.state[share_at(0)] = 9,
    },
    Row {
        clause: Charge,
        what: "more pages than the share",
        base: three,
        edit: |w| w.edit_area(Which::Present, 2, |area| area.pages = 17),
    },
    Row {
        clause: Charge,
        what: "more snapshot pages than half the share",
        base: snapshot_alone,
        edit: |w| w.edit_area(Which::Snapshot, 2, |area| area.pages = 7),
    },
    Row {
        clause: Shares,
        what: "a share above the pool",
        base: opened,
        edit: |w| w.kept.state[share_at(0)] = 33,
    },
    Row {
        clause: Shares,
        what: "two shares together above the pool",
        base: three,
        edit: |w| w.kept.state[share_at(1)] = 13,
    },
    Row {
        clause: Shares,
        what: "an open sandbox with a share of 0",
        base: opened,
        edit: |w| w.kept.state[share_at(0)] = 0,
    },
    Row {
        clause: Shares,
        what: "a share of 255",
        base: opened,
        edit: |w| w.kept.state[share_at(0)] = 255,
    },
    Row {
        clause: NoSnapshot,
        what: "committed pages, and no snapshot is taken",
        base: since_snapshot,
        edit: |w| w.kept.state[taken_at(0)] = 0,
    },
    Row {
        clause: NoSnapshot,
        what: "areas of a snapshot that is not taken",
        base: snapshot_alone,
        edit: |w| w.kept.state[taken_at(0)] = 0,
    },
    Row {
        clause: Closed,
        what: "a closed sandbox with all of an open one",
        base: three,
        edit: |w| w.kept.state[open_at(1)] = 0,
    },
    Row {
        clause: Closed,
        what: "a closed sandbox with a share",
        base: three,
        edit: |w| w.kept.state[share_at(3)] = 1,
    },
    Row {
        clause: Closed,
        what: "a closed sandbox with a snapshot of no pages",
        base: three,
        edit: |w| w.kept.state[taken_at(3)] = 1,
    },
    Row {
        clause: Closed,
        what: "a closed sandbox with a share and a snapshot",
        base: three,
        edit: |w| (w.kept.state[share_at(3)], w.kept.state[taken_at(3)]) = (1, 1),
    },
    Row { clause: Closed, what: "a closed sandbox with an area", base: three, edit: closed_area },
    Row {
        clause: Closed,
        what: "a closed sandbox with a snapshot area",
        base: empty_snapshot,
        edit: closed_snapshot_area,
    },
];

const PAGE: Area =
    Area { first: 9, pages: 1, rights: 1, committed: false, backing: Backing::Anonymous };

/// With a share, so that the charge does not exceed it.
fn closed_area(world: &mut World) {
    world.edit(|state| {
        let closed = &mut state.sandboxes[3];
        closed.share = 1;
        closed.present.count = 1;
        closed.present.places[0] = PAGE;
    });
}

fn closed_snapshot_area(world: &mut World) {
    world.edit(|state| {
        let closed = &mut state.sandboxes[3];
        (closed.share, closed.taken, closed.snapshot.count) = (2, true, 1);
        closed.snapshot.places[0] = Area { committed: true, ..PAGE };
    });
}

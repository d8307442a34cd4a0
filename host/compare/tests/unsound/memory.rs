//! "entries name frames of the pool, no frame twice; the held marks are those frames; fronts
//! stand on mapped pages only, backs on snapshot pages only"; and the lent lengths.

use super::bases::{since_snapshot, snapshot_alone, three, World};
use super::Row;
use compare::layout::HELD_AT;
use compare::Clause::{
    BacksOnSnapshot, EntriesInPool, FrontsOnMapped, HeldMarks, Lengths, NoFrameTwice,
};

/// Where entries of a sandbox stand in the table.
const fn front(sandbox: usize, page: usize) -> usize {
    128 * sandbox + page
}

const fn back(sandbox: usize, page: usize) -> usize {
    128 * sandbox + 64 + page
}

pub const ROWS: &[Row] = &[
    Row {
        clause: EntriesInPool,
        what: "a front names the frame behind the last",
        base: three,
        edit: |w| w.kept.table[front(0, 1)] = 33,
    },
    Row {
        clause: EntriesInPool,
        what: "a front names frame 128",
        base: three,
        edit: |w| w.kept.table[front(1, 0)] = 129,
    },
    Row {
        clause: EntriesInPool,
        what: "a back has the greatest number",
        base: since_snapshot,
        edit: |w| w.kept.table[back(0, 1)] = 65_535,
    },
    Row {
        clause: NoFrameTwice,
        what: "two fronts of a sandbox",
        base: three,
        edit: |w| twice(w, front(0, 0), front(0, 1)),
    },
    Row {
        clause: NoFrameTwice,
        what: "fronts of two sandboxes",
        base: three,
        edit: |w| twice(w, front(0, 0), front(1, 0)),
    },
    Row {
        clause: NoFrameTwice,
        what: "a page's front and its back",
        base: since_snapshot,
        edit: |w| twice(w, back(0, 4), front(0, 4)),
    },
    Row {
        clause: NoFrameTwice,
        what: "two backs",
        base: snapshot_alone,
        edit: |w| twice(w, back(0, 0), back(0, 1)),
    },
    Row {
        clause: HeldMarks,
        what: "a frame too many is marked",
        base: three,
        edit: |w| w.edit(|state| state.held |= 1),
    },
    Row {
        clause: HeldMarks,
        what: "a held frame is not marked",
        base: three,
        edit: |w| w.edit(|state| state.held &= state.held - 1),
    },
    Row {
        clause: HeldMarks,
        what: "no frame is marked",
        base: since_snapshot,
        edit: |w| w.kept.state[HELD_AT..].fill(0),
    },
    Row {
        clause: HeldMarks,
        what: "the frame behind the pool is marked",
        base: three,
        edit: |w| w.edit(|state| state.held |= 1 << 32),
    },
    Row {
        clause: HeldMarks,
        what: "frame 127, behind the pool, is marked",
        base: three,
        edit: |w| w.edit(|state| state.held |= 1 << 127),
    },
    Row {
        clause: FrontsOnMapped,
        what: "a front on a page between areas",
        base: three,
        edit: |w| w.move_entry(front(0, 0), front(0, 3)),
    },
    Row {
        clause: FrontsOnMapped,
        what: "a front on page 63",
        base: three,
        edit: |w| w.move_entry(front(0, 4), front(0, 63)),
    },
    Row {
        clause: FrontsOnMapped,
        what: "a front in a closed sandbox",
        base: three,
        edit: |w| w.move_entry(front(0, 0), front(3, 0)),
    },
    Row {
        clause: FrontsOnMapped,
        what: "a front on a snapshot page that is not mapped",
        base: snapshot_alone,
        edit: |w| w.move_entry(back(0, 0), front(0, 0)),
    },
    Row {
        clause: BacksOnSnapshot,
        what: "a back without a snapshot",
        base: three,
        edit: |w| w.move_entry(front(0, 0), back(0, 0)),
    },
    Row {
        clause: BacksOnSnapshot,
        what: "a back on a page mapped since the snapshot",
        base: since_snapshot,
        edit: |w| w.move_entry(back(0, 4), back(0, 20)),
    },
    Row {
        clause: BacksOnSnapshot,
        what: "a back in a closed sandbox",
        base: since_snapshot,
        edit: |w| w.move_entry(back(0, 4), back(3, 63)),
    },
    Row {
        clause: Lengths,
        what: "a byte of the pool is missing",
        base: three,
        edit: |w| w.kept.pool.truncate(32 * 256 - 1),
    },
    Row { clause: Lengths, what: "no pool", base: three, edit: |w| w.kept.pool.clear() },
    Row {
        clause: Lengths,
        what: "a pool of 129 frames",
        base: three,
        edit: |w| w.kept.pool.resize(129 * 256, 0),
    },
    Row {
        clause: Lengths,
        what: "an entry of the table is missing",
        base: three,
        edit: |w| w.kept.table.truncate(511),
    },
    Row {
        clause: Lengths,
        what: "an entry of the table too many",
        base: three,
        edit: |w| w.kept.table.push(0),
    },
    Row {
        clause: Lengths,
        what: "a byte of the image too many",
        base: three,
        edit: |w| w.image.push(0),
    },
    Row {
        clause: Lengths,
        what: "an image of 65 pages",
        base: three,
        edit: |w| w.image.resize(65 * 256, 0),
    },
];

/// The frame of one entry is named by another place too.
fn twice(world: &mut World, of: usize, to: usize) {
    let table = &mut world.kept.table;
    assert!(table[of] != 0 && table[to] == 0, "an entry, and a place without one");
    table[to] = table[of];
}

//! Bytes that no state has: a mark or a kind of backing that is neither 0 nor 1, an image page
//! where the backing is anonymous, a wrong length.

use super::bases::{since_snapshot, three, World};
use super::Row;
use compare::layout::{area_at, open_at, taken_at, Which};
use compare::Clause::Bytes;

/// Where these stand in an area's bytes.
const MARK: usize = 3;
const KIND: usize = 4;
const IMAGE_PAGE: usize = 5;

pub const ROWS: &[Row] = &[
    Row { clause: Bytes, what: "open is 2", base: three, edit: |w| set(w, open_at(0), 2) },
    Row {
        clause: Bytes,
        what: "open is 255, of a closed sandbox",
        base: three,
        edit: |w| set(w, open_at(3), 255),
    },
    Row {
        clause: Bytes,
        what: "snapshot taken is 2",
        base: since_snapshot,
        edit: |w| set(w, taken_at(0), 2),
    },
    Row {
        clause: Bytes,
        what: "present: a mark is 2",
        base: since_snapshot,
        edit: |w| set(w, area_at(0, Which::Present, 0) + MARK, 2),
    },
    Row {
        clause: Bytes,
        what: "snapshot: a mark is 3",
        base: since_snapshot,
        edit: |w| set(w, area_at(0, Which::Snapshot, 2) + MARK, 3),
    },
    Row {
        clause: Bytes,
        what: "present: a kind of backing is 2",
        base: three,
        edit: |w| set(w, area_at(0, Which::Present, 1) + KIND, 2),
    },
    Row {
        clause: Bytes,
        what: "snapshot: a kind of backing is 2",
        base: since_snapshot,
        edit: |w| set(w, area_at(0, Which::Snapshot, 1) + KIND, 2),
    },
    Row {
        clause: Bytes,
        what: "present: an image page where anonymous",
        base: three,
        edit: |w| set(w, area_at(0, Which::Present, 0) + IMAGE_PAGE, 1),
    },
    Row {
        clause: Bytes,
        what: "snapshot: an image page where anonymous",
        base: since_snapshot,
        edit: |w| set(w, area_at(0, Which::Snapshot, 0) + IMAGE_PAGE, 1),
    },
    Row {
        clause: Bytes,
        what: "an image page behind the areas",
        base: three,
        edit: |w| set(w, area_at(0, Which::Present, 7) + IMAGE_PAGE, 1),
    },
    Row {
        clause: Bytes,
        what: "a mark of 2 in a closed sandbox's last place",
        base: three,
        edit: |w| set(w, area_at(3, Which::Snapshot, 7) + MARK, 2),
    },
    Row {
        clause: Bytes,
        what: "the last byte is missing",
        base: three,
        edit: |w| w.kept.state.truncate(gazhuppin::state_bytes() - 1),
    },
    Row { clause: Bytes, what: "a byte too many", base: three, edit: |w| w.kept.state.push(0) },
    Row { clause: Bytes, what: "no byte", base: three, edit: |w| w.kept.state.clear() },
];

fn set(world: &mut World, at: usize, byte: u8) {
    world.kept.state[at] = byte;
}

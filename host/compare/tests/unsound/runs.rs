//! "Kept frames are held and zero, belong to one run and no entry, and with fronts and backs stay
//! within the share (else refusal 3)"; and a closed sandbox keeps nothing.

use super::bases::{keeping, opened, World};
use super::Row;
use compare::layout::{run_at, share_at, MARKS_BYTES};
use compare::row::smallest;
use compare::Clause::{Closed, KeptInPool, KeptInShare, KeptOnce, KeptUnnamed, KeptZero};

pub const ROWS: &[Row] = &[
    Row {
        clause: KeptZero,
        what: "the first byte of a kept frame",
        base: keeping,
        edit: |w| write_in_kept(w, 0, 6, 0),
    },
    Row {
        clause: KeptZero,
        what: "the last byte of a kept frame",
        base: keeping,
        edit: |w| write_in_kept(w, 0, 7, 255),
    },
    Row {
        clause: KeptZero,
        what: "a byte of another sandbox's kept frame",
        base: keeping,
        edit: |w| write_in_kept(w, 1, 7, 128),
    },
    Row {
        clause: KeptZero,
        what: "a frame that holds something is kept, and was unheld",
        base: keeping,
        edit: |w| {
            w.kept.pool[0] = 1;
            w.edit(|state| state.sandboxes[0].runs[2] = 1);
        },
    },
    Row {
        clause: KeptInPool,
        what: "the frame behind the last is kept",
        base: keeping,
        edit: |w| w.edit(|state| state.sandboxes[0].runs[6] |= 1 << 32),
    },
    Row {
        clause: KeptInPool,
        what: "frame 127, behind the pool, is kept in a place of its own",
        base: keeping,
        edit: |w| w.kept.state[run_at(0, 0) + MARKS_BYTES - 1] = 0x80,
    },
    Row {
        clause: KeptInPool,
        what: "frame 64, the first of the second word",
        base: keeping,
        edit: |w| w.kept.state[run_at(1, 3) + 8] = 1,
    },
    Row {
        clause: KeptOnce,
        what: "a frame in two runs of a sandbox",
        base: keeping,
        edit: |w| w.edit(|state| state.sandboxes[0].runs[7] |= lowest(state.sandboxes[0].runs[6])),
    },
    Row {
        clause: KeptOnce,
        what: "a frame in runs of two sandboxes",
        base: keeping,
        edit: |w| w.edit(|state| state.sandboxes[1].runs[0] |= lowest(state.sandboxes[0].runs[7])),
    },
    Row {
        clause: KeptOnce,
        what: "all eight places keep the same frame",
        base: keeping,
        edit: |w| {
            w.edit(|state| {
                let frame = lowest(state.sandboxes[1].runs[7]);
                state.sandboxes[1].runs = [frame; 8];
            })
        },
    },
    Row {
        clause: KeptUnnamed,
        what: "a kept frame is a page's front",
        base: keeping,
        edit: |w| keep_named(w, 0, 30),
    },
    Row {
        clause: KeptUnnamed,
        what: "a kept frame is the front of another sandbox's page",
        base: keeping,
        edit: |w| keep_named(w, 1, 30),
    },
    Row {
        clause: KeptUnnamed,
        what: "a kept frame is a page's back",
        base: keeping,
        edit: |w| keep_named(w, 0, 64 + 40),
    },
    Row {
        clause: KeptInShare,
        what: "fronts, backs and kept frames are one above the share, by the share",
        base: keeping,
        edit: |w| {
            let held = held(w);
            w.kept.state[share_at(0)] = held - 1;
        },
    },
    Row {
        clause: KeptInShare,
        what: "one above the share, by a frame kept more",
        base: keeping,
        edit: |w| {
            let held = held(w);
            w.kept.state[share_at(0)] = held;
            w.assert_sound("the share is just filled");
            w.edit(|state| state.sandboxes[0].runs[6] |= 1);
        },
    },
    Row {
        clause: KeptInShare,
        what: "nothing is mapped, and more is kept than the share",
        base: opened,
        edit: |w| w.edit(|state| state.sandboxes[0].runs[0] = (1 << 9) - 1),
    },
    Row {
        clause: Closed,
        what: "a closed sandbox with a run",
        base: keeping,
        edit: |w| w.edit(|state| state.sandboxes[3].runs[0] = 1),
    },
    Row {
        clause: Closed,
        what: "a closed sandbox with a share and a run in the last place",
        base: keeping,
        edit: |w| {
            w.edit(|state| {
                state.sandboxes[2].share = 1;
                state.sandboxes[2].runs[7] = 1 << 3;
            })
        },
    },
];

fn lowest(run: u128) -> u128 {
    1 << smallest(run)
}

/// A byte of the lowest frame of a run is no longer zero.
fn write_in_kept(world: &mut World, sandbox: usize, place: usize, offset: usize) {
    let frame = smallest(world.state().sandboxes[sandbox].runs[place]);
    let byte = &mut world.kept.pool[256 * frame + offset];
    assert_eq!(*byte, 0);
    *byte = 1;
}

/// A sandbox's first place keeps the frame that an entry of sandbox 0 names; it is zero.
fn keep_named(world: &mut World, sandbox: usize, entry: usize) {
    let frame = world.kept.table[entry] - 1;
    world.kept.pool[256 * usize::from(frame)..][..256].fill(0);
    world.edit(|state| state.sandboxes[sandbox].runs[0] = 1 << frame);
}

/// Fronts, backs and kept frames of sandbox 0.
fn held(world: &World) -> u8 {
    let entries = world.kept.table[..128].iter().filter(|&&entry| entry != 0).count();
    let kept: u32 = world.state().sandboxes[0].runs.iter().map(|run| run.count_ones()).sum();
    (entries + kept as usize) as u8
}

//! Sound states, made by calls, over a pool of 32 frames and an image of 8 pages.

use compare::layout::{Area, Areas, State, Which};
use compare::{unsound_clauses, Kept, Lengths};
use model::Call;

const FRAMES: usize = 32;
const IMAGE_PAGES: usize = 8;

/// What a call is handed.
#[derive(Clone, PartialEq, Eq)]
pub struct World {
    pub kept: Kept,
    pub image: Vec<u8>,
}

impl World {
    /// The world after these calls (code, sandbox, p1 to p5), all accepted.
    fn after(calls: &[[u16; 7]]) -> World {
        let lengths = Lengths { pool: 256 * FRAMES, table: 512 };
        let mut world = World { kept: Kept::filled(lengths), image: vec![3; 256 * IMAGE_PAGES] };
        assert_eq!(world.kept.start(&world.image).number, 0);
        for &call in calls {
            let told = world.call(call);
            assert_eq!(told.number, 0, "{call:?}");
        }
        world
    }

    fn call(&mut self, [code, sandbox, p1, p2, p3, p4, p5]: [u16; 7]) -> gazhuppin::Told {
        let call = Call { code, sandbox, parameters: [p1, p2, p3, p4, p5] };
        self.kept.call(&self.image, &call)
    }

    /// The state is sound, and a call on it is accepted.
    pub fn assert_sound(&self, what: &str) {
        let World { kept, image } = self;
        let broken = unsound_clauses(&kept.state, &kept.pool, &kept.table, image);
        assert_eq!(broken, [], "{what}: before the edit");
        assert_eq!(self.clone().call([9, 0, 0, 0, 0, 0, 0]).number, 0, "{what}: before the edit");
    }

    /// Whatever is called, it is refused, 3 or 2, and nothing changes.
    pub fn assert_refuses_all(&self, what: &str) {
        let calls = [
            [1, 2, 4, 0, 0, 0, 0],
            [2, 0, 64, 1, 0, 0, 3],
            [3, 0, 0, 1, 0, 0, 0],
            [4, 0, 0, 1, 1, 0, 0],
            [5, 0, 0, 0, 0, 0, 0],
            [6, 0, 0, 5, 0, 0, 0],
            [7, 1, 0, 0, 0, 0, 0],
            [8, 0, 0, 0, 0, 0, 0],
            [9, 0, 0, 0, 0, 0, 0],
            [10, 0, 0, 0, 0, 0, 0],
            // Refused by later rows as well: the lowest number is answered.
            [9, 4, 0, 0, 0, 0, 0],
            [1, 0, 999, 9, 9, 9, 9],
        ];
        let no_calls = [[0, 0, 0, 0, 0, 0, 0], [11, 4, 9, 9, 9, 9, 9], [65_535, 0, 0, 0, 0, 0, 0]];
        let all = calls.map(|call| (call, 3)).into_iter().chain(no_calls.map(|call| (call, 2)));
        for (call, number) in all {
            let mut after = self.clone();
            let told = after.call(call);
            assert_eq!((told.number, told.value), (number, 0), "{what}: {call:?}");
            assert!(after == *self, "{what}: {call:?} changed something");
        }
    }

    pub fn state(&self) -> State {
        State::of(&self.kept.state).expect("a state")
    }

    /// Edit the state by its parts; its bytes are written anew.
    pub fn edit(&mut self, edit: impl FnOnce(&mut State)) {
        let mut state = self.state();
        edit(&mut state);
        self.kept.state = state.bytes();
    }

    /// Edit the areas of sandbox 0.
    pub fn edit_areas(&mut self, which: Which, edit: impl FnOnce(&mut Areas)) {
        self.edit(|state| match which {
            Which::Present => edit(&mut state.sandboxes[0].present),
            Which::Snapshot => edit(&mut state.sandboxes[0].snapshot),
        });
    }

    /// Edit one area of sandbox 0.
    pub fn edit_area(&mut self, which: Which, area: usize, edit: impl FnOnce(&mut Area)) {
        self.edit_areas(which, |areas| edit(&mut areas.places[area]));
    }

    /// Move an entry of the table.
    pub fn move_entry(&mut self, from: usize, to: usize) {
        let table = &mut self.kept.table;
        assert!(table[from] != 0 && table[to] == 0, "an entry goes to a place without one");
        table.swap(from, to);
    }
}

/// Pages 0 and 1 anonymous, 4 and 5 image pages 1 and 2, 10 anonymous and read only.
const THREE_AREAS: [[u16; 7]; 6] = [
    [1, 0, 20, 0, 0, 0, 0],
    [2, 0, 0, 2, 0, 0, 3],
    [2, 0, 4, 2, 1, 1, 3],
    [2, 0, 10, 1, 0, 0, 1],
    [6, 0, 0, 7, 0, 0, 0],
    [6, 0, 1024, 7, 0, 0, 0],
];
const SNAPSHOT: [u16; 7] = [7, 0, 0, 0, 0, 0, 0];
const SECOND_OPEN: [u16; 7] = [1, 1, 8, 0, 0, 0, 0];

/// Sandbox 0 with three areas and fronts on pages 0 and 4; no snapshot. Sandbox 1 with page 0
/// mapped; 2 and 3 closed. Shares 20 and 8.
pub fn three() -> World {
    World::after(&[&THREE_AREAS[..], &[SECOND_OPEN, [2, 1, 0, 1, 0, 0, 3]]].concat())
}

/// The same three areas committed: snapshot pages with backs on pages 0 and 4, and a front on
/// page 0 again. Pages 20 and 21 mapped since, with a front on 20. Charge 12 of 20.
pub fn since_snapshot() -> World {
    let since = [[6, 0, 0, 9, 0, 0, 0], [2, 0, 20, 2, 0, 0, 3], [6, 0, 5120, 9, 0, 0, 0]];
    World::after(&[&THREE_AREAS[..], &[SNAPSHOT], &since, &[SECOND_OPEN]].concat())
}

/// The three areas are the snapshot's alone: all are unmapped. Charge 10 of 20.
pub fn snapshot_alone() -> World {
    let unmaps = [[3, 0, 0, 2, 0, 0, 0], [3, 0, 4, 2, 0, 0, 0], [3, 0, 10, 1, 0, 0, 0]];
    World::after(&[&THREE_AREAS[..], &[SNAPSHOT], &unmaps, &[SECOND_OPEN]].concat())
}

fn eight_maps() -> Vec<[u16; 7]> {
    let maps = (0..8).map(|area| [2, 0, 2 * area, 1, 0, 0, 3]);
    [[1, 0, 20, 0, 0, 0, 0]].into_iter().chain(maps).collect()
}

/// Sandbox 0 with eight areas of one page.
pub fn eight() -> World {
    World::after(&eight_maps())
}

/// Eight areas that are the snapshot's alone.
pub fn eight_in_snapshot() -> World {
    let unmaps: Vec<_> = (0..8).map(|area| [3, 0, 2 * area, 1, 0, 0, 0]).collect();
    World::after(&[&eight_maps()[..], &[SNAPSHOT], &unmaps].concat())
}

/// Sandbox 0 open with a share of 8, and nothing more.
pub fn opened() -> World {
    World::after(&[[1, 0, 8, 0, 0, 0, 0]])
}

/// Sandbox 0 with a snapshot of no pages.
pub fn empty_snapshot() -> World {
    World::after(&[[1, 0, 8, 0, 0, 0, 0], SNAPSHOT])
}

/// Sandbox 0 keeps runs of two frames and of one; page 40 is its snapshot's, with a back and a
/// front, and page 30, mapped since, has a front. Charge 3 of 10, and 6 frames are held.
/// Sandbox 1 keeps a run of one frame; 2 and 3 are closed.
pub fn keeping() -> World {
    let world = World::after(&[
        [1, 0, 10, 0, 0, 0, 0],
        [2, 0, 40, 1, 0, 0, 3],
        [6, 0, 10_240, 7, 0, 0, 0],
        SNAPSHOT,
        [6, 0, 10_240, 8, 0, 0, 0],
        [2, 0, 3, 2, 0, 0, 3],
        [6, 0, 768, 1, 0, 0, 0],
        [6, 0, 1024, 1, 0, 0, 0],
        [2, 0, 6, 1, 0, 0, 3],
        [6, 0, 1536, 1, 0, 0, 0],
        [8, 0, 0, 0, 0, 0, 0],
        [2, 0, 30, 1, 0, 0, 3],
        [6, 0, 7680, 1, 0, 0, 0],
        SECOND_OPEN,
        [7, 1, 0, 0, 0, 0, 0],
        [2, 1, 9, 1, 0, 0, 3],
        [6, 1, 2304, 1, 0, 0, 0],
        [8, 1, 0, 0, 0, 0, 0],
    ]);
    let lengths = |sandbox: usize| world.state().sandboxes[sandbox].runs.map(u128::count_ones);
    // The newest run is last, and the places before the oldest are empty.
    assert_eq!(lengths(0), [0, 0, 0, 0, 0, 0, 2, 1]);
    assert_eq!(lengths(1), [0, 0, 0, 0, 0, 0, 0, 1]);
    world
}

//! A state with kept frames is refused as unsound as soon as one of their conditions fails.

use super::held::Held;
use super::machine::Machine;
use super::memory::{Memory, TABLE_ENTRIES};
use super::page::{FrameNo, PageNo};
use super::request::{Refusal, Request};
use super::runs::MOST_RUNS;

const FRAMES: usize = 70;
type Kept = Machine<true, true, true>;
type Spoil = fn(&mut Kept, &mut Memory);

fn request(code: u16, sandbox: u16, parameters: [u16; 5]) -> Request {
    let [p1, p2, p3, p4, p5] = parameters;
    Request { code, sandbox, p1, p2, p3, p4, p5 }
}

fn run(frames: &[u8]) -> Held {
    frames.iter().map(|&frame| FrameNo(frame)).collect()
}

/// Sandbox 0 of share 4 has a front, frame 69, and keeps frames 67 and 68; sandbox 1, of share 8,
/// keeps frame 66. What a report is told, after the state was spoiled.
fn reported(spoil: Spoil) -> Result<u32, Refusal> {
    let (mut pool, mut table) = (vec![1; 256 * FRAMES], [1; TABLE_ENTRIES]);
    let mut memory = Memory { pool: &mut pool, table: &mut table, image: &[] };
    let mut machine = Kept::start(&mut memory);
    for line in [
        request(1, 0, [4, 0, 0, 0, 0]),
        request(2, 0, [0, 1, 0, 0, 3]),
        request(7, 0, [0; 5]),
        request(6, 0, [0, 7, 0, 0, 0]),
        request(2, 0, [64, 2, 0, 0, 3]),
        request(6, 0, [256, 7, 0, 0, 0]),
        request(6, 0, [512, 7, 0, 0, 0]),
        request(8, 0, [0; 5]),
        request(1, 1, [8, 0, 0, 0, 0]),
        request(7, 1, [0; 5]),
        request(2, 1, [64, 1, 0, 0, 3]),
        request(6, 1, [0, 7, 0, 0, 0]),
        request(8, 1, [0; 5]),
    ] {
        assert!(machine.call(&mut memory, &line).is_ok(), "{line:?}");
    }
    assert_eq!(machine.sandboxes[0].runs.list[MOST_RUNS - 1], run(&[67, 68]));
    assert_eq!(machine.sandboxes[1].runs.list[MOST_RUNS - 1], run(&[66]));
    assert_eq!(machine.held, run(&[69]));
    spoil(&mut machine, &mut memory);
    machine.call(&mut memory, &request(9, 0, [0; 5]))
}

#[test]
fn kept_frames_are_counted_where_the_state_is_sound() {
    assert_eq!(reported(|_, _| {}), Ok(3));
    // One frame more is within the share, also in another place.
    assert_eq!(reported(|machine, _| machine.sandboxes[0].runs.list[0] = run(&[0])), Ok(4));
}

#[test]
fn a_state_whose_kept_frames_are_unsound_is_refused() {
    let spoils: [Spoil; 10] = [
        // Not zero: the first byte and the last.
        |_, memory| memory.pool[256 * 67] = 1,
        |_, memory| memory.pool[256 * 69 - 1] = 1,
        // Past the pool.
        |machine, _| machine.sandboxes[1].runs.list[0] = run(&[70]),
        |machine, _| machine.sandboxes[1].runs.list[0] = run(&[127]),
        // In two runs of one sandbox, and of two.
        |machine, _| machine.sandboxes[1].runs.list[3] = run(&[66]),
        |machine, _| machine.sandboxes[1].runs.list[3] = run(&[67]),
        // Named by an entry too, whose page is mapped, with its mark.
        |machine, _| machine.sandboxes[1].runs.list[3] = run(&[69]),
        |machine, memory| {
            memory.set_front(0, PageNo(0), FrameNo(68));
            machine.held = run(&[68]);
        },
        // Fronts, backs and kept frames above the share.
        |machine, _| machine.sandboxes[0].runs.list[0] = run(&[0, 1]),
        // A closed sandbox keeps none.
        |machine, _| machine.sandboxes[2].runs.list[0] = run(&[0]),
    ];
    for (number, spoil) in spoils.into_iter().enumerate() {
        assert_eq!(reported(spoil), Err(Refusal::Unsound), "spoiled {number}");
    }
}

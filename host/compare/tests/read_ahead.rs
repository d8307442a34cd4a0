//! Lines are read 64 at a time: rolls cut before, at and behind the 64th line and its multiples,
//! in whole lines and within a line, with malformed lines at the edges.

use compare::{compare_with, Lengths};
use gazhuppin::LINE_BYTES;
use rolls::Case;

const AHEAD: usize = 64;
const BLOCKS: usize = 3;

/// The replies to a roll, which both machines agree on.
fn replies(case: &Case) -> Vec<u8> {
    let compared = compare_with(case, Lengths::of(case));
    let bytes = case.roll.len();
    compared.unwrap_or_else(|difference| panic!("{bytes} bytes: {difference}")).replies
}

#[test]
fn rolls_that_end_at_the_edges_of_what_is_read_ahead() {
    for seed in 0..60 {
        // The last line may be a short one.
        let whole = Case::of_lines(seed, AHEAD * BLOCKS + 3);
        assert!(whole.roll.len() >= (AHEAD * BLOCKS + 2) * LINE_BYTES);
        let all = replies(&whole);
        for block in 0..=BLOCKS {
            for (lines, more) in [(0, 0), (0, 1), (0, 42), (1, 0), (1, 42), (63, 0), (63, 1)] {
                let bytes = (block * AHEAD + lines) * LINE_BYTES + more;
                if bytes > whole.roll.len() {
                    continue;
                }
                let cut = Case { roll: whole.roll[..bytes].to_vec(), ..whole.clone() };
                let told = replies(&cut);
                assert_eq!(told.len(), 19 * bytes.div_ceil(LINE_BYTES));
                // The whole lines are answered as if others followed.
                let same = 19 * (bytes / LINE_BYTES);
                assert!(told[..same] == all[..same], "seed {seed}, {bytes} bytes");
            }
        }
    }
}

#[test]
fn malformed_lines_at_the_edges() {
    for seed in 0..60 {
        let mut case = Case::of_lines(seed, AHEAD * BLOCKS + 1);
        for line in [0, AHEAD - 1, AHEAD, 2 * AHEAD - 1, 2 * AHEAD, 3 * AHEAD - 1] {
            case.roll[line * LINE_BYTES + LINE_BYTES - 1] = b'x';
            let told = replies(&case);
            assert_eq!(&told[19 * line + 6..19 * line + 18], b"     1     0");
        }
    }
}

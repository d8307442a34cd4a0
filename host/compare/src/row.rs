//! The eight places for a sandbox's kept runs, the oldest first, each with one bit a frame. A
//! place without a frame is no run, and may stand anywhere among them.

use model::RUNS;

pub type Row = [u128; RUNS];

/// Which of equal runs is meant: "All ties go to the older run".
#[derive(Clone, Copy, PartialEq, Eq, Debug)]
pub enum Tie {
    Older,
    /// Of a wrong machine.
    Newer,
}

pub fn length(run: u128) -> usize {
    run.count_ones() as usize
}

/// "smallest frame number first"
pub fn smallest(run: u128) -> usize {
    run.trailing_zeros() as usize
}

/// The place of the run that ranks highest, of those that have a rank.
fn highest(row: &Row, rank: impl Fn(usize) -> Option<i32>, tie: Tie) -> Option<usize> {
    let ranked = (0..RUNS).filter_map(|place| {
        let length = length(row[place]);
        rank(length).filter(|_| length > 0).map(|rank| (rank, place))
    });
    let order = |place: usize| match tie {
        Tie::Older => RUNS - place,
        Tie::Newer => place,
    };
    ranked.max_by_key(|&(rank, place)| (rank, order(place))).map(|(_, place)| place)
}

pub fn longest(row: &Row, tie: Tie) -> Option<usize> {
    highest(row, |length| Some(length as i32), tie)
}

/// "the shortest run at least as long as its pages; if none is that long, the longest"
pub fn fitting(row: &Row, pages: usize, tie: Tie) -> Option<usize> {
    let sufficient = |length: usize| (length >= pages).then_some(-(length as i32));
    highest(row, sufficient, tie).or_else(|| longest(row, tie))
}

/// A new run competes for a place: the shortest goes, of equals the one that is not kept by
/// `kept`; places behind it move up, and the new run is last. A new run no longer than the
/// shortest is itself the one that goes.
pub fn push(row: &mut Row, run: u128, kept: Tie) {
    let lengths = row.map(length);
    let shortest = lengths.iter().min().expect("eight places");
    let equal = |&length: &usize| length == *shortest;
    let place = match kept {
        Tie::Older => lengths.iter().rposition(equal),
        Tie::Newer => lengths.iter().position(equal),
    };
    if length(run) > *shortest {
        let place = place.expect("there is a shortest");
        row.copy_within(place + 1.., place);
        row[RUNS - 1] = run;
    }
}

/// Take at most so many frames of a run, the smallest first. Gives them in this order.
pub fn take(run: &mut u128, frames: usize) -> Vec<usize> {
    let taken: Vec<usize> = (0..128).filter(|frame| *run >> frame & 1 == 1).take(frames).collect();
    taken.iter().for_each(|frame| *run &= !(1 << frame));
    taken
}

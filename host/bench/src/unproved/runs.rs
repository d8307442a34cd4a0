//! The frames of finished requests, kept as at most 8 runs for the maps of the next.

use super::held::Held;

pub const MOST_RUNS: usize = 8;

/// The oldest first. A place without a frame is no run, and may stand anywhere.
#[derive(Clone, Copy, PartialEq, Eq, Debug)]
pub struct Runs {
    pub list: [Held; MOST_RUNS],
}

impl Runs {
    pub const NONE: Runs = Runs { list: [Held::NONE; MOST_RUNS] };

    /// How many frames are kept.
    pub fn kept(&self) -> usize {
        self.list.iter().map(|run| run.count() as usize).sum()
    }

    /// A new run comes last, for the shortest, of equals the newest; or nothing changes, if it is
    /// no longer than that.
    pub fn push(&mut self, run: Held) {
        let length = |&place: &usize| self.list[place].count();
        let shortest = (0..MOST_RUNS).rev().min_by_key(length).expect("there are places");
        if length(&shortest) < run.count() {
            self.list[shortest..].rotate_left(1);
            self.list[MOST_RUNS - 1] = run;
        }
    }

    /// The shortest run that is at least so long, else the longest; of equals the oldest.
    pub fn fitting(&mut self, pages: u32) -> &mut Held {
        self.first_least(|length| if length < pages { u32::MAX - length } else { length })
    }

    /// The longest run, of equals the oldest.
    pub fn longest(&mut self) -> &mut Held {
        self.first_least(|length| u32::MAX - length)
    }

    fn first_least(&mut self, order: impl Fn(u32) -> u32) -> &mut Held {
        let least = self.list.iter_mut().min_by_key(|run| order(run.count()));
        least.expect("there are places")
    }
}

//! The runs of frames that a sandbox keeps from finished requests: "For call 9 the plain machine
//! also carries run lengths and ages." (Request A3; its sentences are quoted below.)

/// "At most 8 runs are kept".
pub const RUNS: usize = 8;

/// The lengths of a sandbox's kept runs, the oldest first; a run without a frame is none.
#[derive(Clone, PartialEq, Eq, Debug, Default)]
pub struct Runs {
    pub(crate) lengths: Vec<usize>,
}

impl Runs {
    /// Runs of these lengths, the oldest first.
    pub fn of(lengths: impl IntoIterator<Item = usize>) -> Runs {
        Runs { lengths: lengths.into_iter().filter(|&length| length > 0).collect() }
    }

    pub fn lengths(&self) -> &[usize] {
        &self.lengths
    }

    /// How many frames are kept.
    pub fn frames(&self) -> usize {
        self.lengths.iter().sum()
    }

    /// The runs of one rewind, "the lower page is older", beside those kept before: "At most 8
    /// runs are kept, the longest. All ties go to the older run".
    pub fn keep(&mut self, new: impl IntoIterator<Item = usize>) {
        self.lengths.extend(new.into_iter().filter(|&length| length > 0));
        self.leave_longest(RUNS);
    }

    /// Of all runs so many, the longest and of equals the oldest, each with its age.
    pub(crate) fn leave_longest(&mut self, places: usize) {
        let mut ages: Vec<usize> = (0..self.lengths.len()).collect();
        // Stable: equals stay in the order of their ages.
        ages.sort_by_key(|&age| std::cmp::Reverse(self.lengths[age]));
        ages.truncate(places);
        ages.sort_unstable();
        self.lengths = ages.into_iter().map(|age| self.lengths[age]).collect();
    }

    /// The run that an anonymous map at 64 takes, by its place: "the shortest run at least as
    /// long as its pages; if none is that long, the longest".
    pub fn fitting(&self, pages: usize) -> Option<usize> {
        let places = 0..self.lengths.len();
        let sufficient = places.filter(|&place| self.lengths[place] >= pages);
        // Of equals the first, which is the oldest.
        sufficient.min_by_key(|&place| self.lengths[place]).or_else(|| self.longest())
    }

    /// The longest run, of equals the oldest, by its place.
    pub fn longest(&self) -> Option<usize> {
        let places = 0..self.lengths.len();
        places.min_by_key(|&place| std::cmp::Reverse(self.lengths[place]))
    }

    /// Take at most so many frames of the run at a place; "a surplus stays kept with its age".
    /// Gives how many were taken.
    pub(crate) fn take_from(&mut self, place: usize, frames: usize) -> usize {
        let taken = frames.min(self.lengths[place]);
        self.lengths[place] -= taken;
        self.lengths.retain(|&length| length > 0);
        taken
    }

    /// Take a run's frames for so many new pages. Gives how many.
    pub fn take(&mut self, pages: usize) -> usize {
        self.fitting(pages).map_or(0, |place| self.take_from(place, pages))
    }

    /// "one frame of the longest run is given up".
    pub fn give_up(&mut self) {
        if let Some(place) = self.longest() {
            self.take_from(place, 1);
        }
    }
}

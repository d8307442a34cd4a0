//! Many random rolls over all cores, with the archives of some; a failing one is shrunk.

use crate::coverage::Coverage;
use crate::difference::Difference;
use crate::{compare, compare_all, compare_with, Lengths};
use rolls::{shrink, Case};
use std::fmt;
use std::sync::atomic::{AtomicU64, Ordering};
use std::thread;

/// Of so many rolls one has its archives written and played: they take their time.
const ARCHIVES_OF: u64 = 4;

/// A roll on which the machines differ.
#[derive(Clone, Debug)]
pub struct Failure {
    pub seed: u64,
    pub shrunk: Case,
    /// What differs on the shrunk roll.
    pub difference: Difference,
}

impl Failure {
    fn of(seed: u64, case: &Case) -> Failure {
        let shrunk = shrink(case, |case| compare(case).is_err());
        let difference = compare(&shrunk).expect_err("a shrunk roll still fails");
        Failure { seed, shrunk, difference }
    }
}

impl fmt::Display for Failure {
    fn fmt(&self, to: &mut fmt::Formatter) -> fmt::Result {
        let Case { roll, image, frames } = &self.shrunk;
        writeln!(to, "seed {}: {}", self.seed, self.difference)?;
        writeln!(to, "shrunk, with an image of {} bytes and {frames} frames:", image.len())?;
        write!(to, "{}", String::from_utf8_lossy(roll))
    }
}

/// Compare the machines on the rolls of the seeds from `first` on, each of so many
/// lines. Gives the failure of the lowest seed among those found.
pub fn run(first: u64, rolls: u64, lines: usize) -> Result<Coverage, Box<Failure>> {
    let next = AtomicU64::new(0);
    let worker = || {
        let mut coverage = Coverage::default();
        loop {
            let at = next.fetch_add(1, Ordering::Relaxed);
            if at >= rolls {
                return Ok(coverage);
            }
            let (seed, case) = (first + at, Case::of_lines(first + at, lines));
            let lengths = Lengths::of(&case);
            let compared = match seed.is_multiple_of(ARCHIVES_OF) {
                true => compare_all(&case, lengths),
                false => compare_with(&case, lengths).map(|played| (played, Default::default())),
            };
            match compared {
                Ok((played, archives)) => coverage.add(&case, &played.replies, &archives),
                Err(_) => {
                    // One failure is enough: the other threads stop too.
                    next.store(rolls, Ordering::Relaxed);
                    return Err(Box::new(Failure::of(seed, &case)));
                }
            }
        }
    };
    let cores = thread::available_parallelism().map_or(1, |cores| cores.get());
    let results = thread::scope(|scope| {
        let threads: Vec<_> = (0..cores).map(|_| scope.spawn(worker)).collect();
        threads.into_iter().map(|thread| thread.join().expect("no panic")).collect::<Vec<_>>()
    });
    let mut all = Coverage::default();
    let mut failures = Vec::new();
    for result in results {
        match result {
            Ok(coverage) => all.join(&coverage),
            Err(failure) => failures.push(failure),
        }
    }
    match failures.into_iter().min_by_key(|failure| failure.seed) {
        Some(failure) => Err(failure),
        None => Ok(all),
    }
}

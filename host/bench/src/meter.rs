//! Instructions by callgrind, and times.

use crate::work::Work;
use std::hint::black_box;
use std::path::Path;
use std::process::Command;
use std::time::{Duration, Instant};
use std::{env, fs, io};

/// The name by which callgrind is told what to count.
const METERED: &str = "bench::meter::metered";

/// What callgrind counts.
#[inline(never)]
pub fn metered(work: &mut dyn FnMut()) {
    black_box(work)();
}

/// Does each work for callgrind to count. The first time is not counted: it also
/// resolves the addresses of library functions.
pub fn run(works: &[Work]) {
    for work in works {
        let mut prepared = work.prepared();
        prepared();
        metered(&mut *prepared);
    }
}

/// The instructions of some works.
pub struct Counts(Vec<u64>);

impl Counts {
    /// Counts a table's works: this program is run again under callgrind with `count`
    /// and the table's name, and dumps one profile for each work.
    /// Its environment has nothing but the path: how a copy goes depends on where the stack lies,
    /// which is behind the environment, and some instructions would come and go with that.
    pub fn of(table: &str, works: usize) -> io::Result<Counts> {
        if works == 0 {
            return Ok(Counts(Vec::new()));
        }
        let folder = env::temp_dir().join(format!("bench-{}-{table}", std::process::id()));
        fs::create_dir_all(&folder)?;
        let status = Command::new("valgrind")
            .env_clear()
            .envs(env::var_os("PATH").map(|path| ("PATH", path)))
            .args(["--tool=callgrind", "--quiet"])
            .arg(format!("--toggle-collect={METERED}"))
            .arg(format!("--dump-after={METERED}"))
            .arg(format!("--callgrind-out-file={}", folder.join("profile").display()))
            .arg(env::current_exe()?)
            .args(["count", table])
            .status()?;
        let profiles = (1..=works).map(|n| total(&folder.join(format!("profile.{n}"))));
        let counts: io::Result<Vec<u64>> = profiles.collect();
        fs::remove_dir_all(&folder)?;
        if !status.success() {
            return Err(io::Error::other("valgrind failed"));
        }
        counts.map(Counts)
    }

    pub fn get(&self, work: usize) -> i64 {
        self.0[work] as i64
    }

    /// How many more the first work takes than the second.
    pub fn difference(&self, with: usize, without: usize) -> i64 {
        self.get(with) - self.get(without)
    }
}

/// The total of a profile.
fn total(profile: &Path) -> io::Result<u64> {
    let text = fs::read_to_string(profile)?;
    let line = text.lines().find_map(|line| line.strip_prefix("totals: "));
    let total = line.and_then(|total| total.trim().parse().ok());
    total.ok_or_else(|| io::Error::other(format!("{}: no total", profile.display())))
}

/// The times of some works in nanoseconds, one sample for each round.
pub struct Times(Vec<Vec<f64>>);

impl Times {
    /// Times all works in turn, in each of the rounds, so that what disturbs one work
    /// disturbs its neighbours alike. Within a round a work is done as often as takes
    /// about `slice`.
    pub fn of(works: &[Work], rounds: usize, slice: Duration) -> Times {
        let mut prepared: Vec<_> = works.iter().map(Work::prepared).collect();
        let repeats: Vec<u32> =
            prepared.iter_mut().map(|work| repeats_in(&mut **work, slice)).collect();
        let mut samples = vec![Vec::with_capacity(rounds); works.len()];
        for _ in 0..rounds {
            for ((work, &repeats), samples) in prepared.iter_mut().zip(&repeats).zip(&mut samples) {
                let start = Instant::now();
                for _ in 0..repeats {
                    work();
                }
                samples.push(start.elapsed().as_nanos() as f64 / f64::from(repeats));
            }
        }
        Times(samples)
    }

    /// The median of a work's samples.
    pub fn get(&self, work: usize) -> f64 {
        median(self.0[work].clone())
    }

    /// How much longer the first work takes than the second: the median of the
    /// differences within each round.
    pub fn difference(&self, with: usize, without: usize) -> f64 {
        let pairs = self.0[with].iter().zip(&self.0[without]);
        median(pairs.map(|(with, without)| with - without).collect())
    }
}

/// How often the work can be done within the slice, at least once; a warm-up too.
fn repeats_in(work: &mut dyn FnMut(), slice: Duration) -> u32 {
    let start = Instant::now();
    let mut done = 0;
    while start.elapsed() < slice {
        work();
        done += 1;
    }
    done.max(1)
}

fn median(mut samples: Vec<f64>) -> f64 {
    samples.sort_by(f64::total_cmp);
    samples[samples.len() / 2]
}

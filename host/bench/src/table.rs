//! A table of the report: what has to be measured for it, and how it is written.

use crate::meter::{Counts, Times};
use crate::work::Work;

/// Whether works are to be counted, each call once, or timed, with calls repeated where
/// that is possible, so that the call is not lost in the time of its state's calls.
#[derive(Clone, Copy, PartialEq, Eq)]
pub enum Purpose {
    Count,
    Time,
}

/// The costs of a table's works; times are left out while the machine is not quiet.
pub struct Costs {
    pub counts: Counts,
    pub times: Option<Times>,
}

pub struct Table {
    /// The name in the marks of docs/BENCHMARK.md.
    pub name: &'static str,
    pub works: fn(Purpose) -> Vec<Work>,
    pub markdown: fn(&Costs) -> String,
    pub rounds: usize,
}

/// What stands where nothing was measured.
pub const NOT_MEASURED: &str = "–";

/// What something costs: instructions, and nanoseconds where it was timed.
#[derive(Clone, Copy)]
pub struct Cost {
    pub count: i64,
    pub time: Option<f64>,
}

impl Costs {
    /// What a work costs.
    pub fn of(&self, work: usize) -> Cost {
        let time = self.times.as_ref().map(|times| times.get(work));
        Cost { count: self.counts.get(work), time }
    }

    /// What a call costs that one work has and another has not, so often where it is timed.
    pub fn of_call(&self, with: usize, without: usize, repeats: usize) -> Cost {
        let times = self.times.as_ref();
        let time = times.map(|times| times.difference(with, without) / repeats as f64);
        Cost { count: self.counts.difference(with, without), time }
    }

    /// Nanoseconds of a call that was repeated so often, or a dash.
    pub fn time_of_call(&self, with: usize, without: usize, repeats: usize) -> String {
        self.of_call(with, without, repeats).nanoseconds()
    }

    pub fn time(&self, work: usize) -> String {
        self.of(work).nanoseconds()
    }
}

impl Cost {
    pub fn instructions(&self) -> String {
        thousands(self.count)
    }

    pub fn nanoseconds(&self) -> String {
        self.time.map_or(NOT_MEASURED.to_string(), |time| thousands(time.round() as i64))
    }

    /// In one measure, as text.
    pub fn by(&self, measure: Measure) -> String {
        match measure {
            Measure::Count => self.instructions(),
            Measure::Time => self.nanoseconds(),
        }
    }

    pub fn less(&self, other: &Cost) -> Cost {
        let time = self.time.zip(other.time);
        Cost { count: self.count - other.count, time: time.map(|(one, other)| one - other) }
    }

    pub fn beside(&self, other: &Cost) -> Ratio {
        let time = self.time.zip(other.time);
        Ratio {
            count: self.count as f64 / other.count as f64,
            time: time.map(|(one, other)| one / other),
        }
    }
}

/// How often one cost is another, in instructions and in time.
#[derive(Clone, Copy)]
pub struct Ratio {
    pub count: f64,
    pub time: Option<f64>,
}

/// By what something is judged.
#[derive(Clone, Copy, PartialEq, Eq, Debug)]
pub enum Measure {
    Count,
    Time,
}

impl Measure {
    pub const BOTH: [Measure; 2] = [Measure::Count, Measure::Time];
}

impl Ratio {
    /// The ratio of instructions, or that of times.
    pub fn by(&self, measure: Measure) -> Option<f64> {
        match measure {
            Measure::Count => Some(self.count),
            Measure::Time => self.time,
        }
    }

    /// Both as text, in bold where it misses the most that is aimed at.
    pub fn judged(&self, most: &Ratio) -> [String; 2] {
        Measure::BOTH.map(|by| match (self.by(by), most.by(by)) {
            (Some(ratio), Some(most)) if !reaches(ratio, most) => format!("**{ratio:.2}**"),
            (Some(ratio), _) => format!("{ratio:.2}"),
            (None, _) => NOT_MEASURED.to_string(),
        })
    }
}

/// Whether a ratio is at most so much. One below zero, of a difference that was lost in the
/// disturbances of a time, reaches nothing.
pub fn reaches(ratio: f64, most: f64) -> bool {
    (0.0..=most).contains(&ratio)
}

/// A number with commas.
pub fn thousands(number: i64) -> String {
    let digits = number.unsigned_abs().to_string();
    let mut text = String::new();
    for (index, digit) in digits.chars().enumerate() {
        if index > 0 && (digits.len() - index).is_multiple_of(3) {
            text.push(',');
        }
        text.push(digit);
    }
    if number < 0 {
        text.insert(0, '-');
    }
    text
}

pub fn ratio(number: i64, base: i64) -> String {
    format!("{:.2}", number as f64 / base as f64)
}

/// A Markdown table; the first column stands left, the others right.
pub fn markdown(head: &[&str], rows: &[Vec<String>]) -> String {
    let mut text = format!("| {} |\n|---|", head.join(" | "));
    text.push_str(&"---:|".repeat(head.len() - 1));
    text.push('\n');
    for row in rows {
        text.push_str(&format!("| {} |\n", row.join(" | ")));
    }
    text
}

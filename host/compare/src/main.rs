//! `compare [ROLLS] [SEED]` compares the proved machine with the plain one on so many
//! random rolls, from this seed on, a call at a time and as whole rolls, and the archives of the
//! snapshots that they leave. `compare --mutants` prints which roll tells each wrong machine, as
//! Markdown.

use compare::{run, table, tell, Known, Mutant};
use rolls::Case;
use std::process::ExitCode;
use std::time::Instant;

const ROLLS: u64 = 20_000;
const LINES: usize = 200;
/// A mutant that so many rolls do not tell is not told.
const MUTANT_SEEDS: u64 = 2_000;

fn main() -> ExitCode {
    let arguments: Vec<String> = std::env::args().skip(1).collect();
    if arguments == ["--mutants"] {
        return mutants();
    }
    let number = |at: usize, usual: u64| match arguments.get(at) {
        Some(argument) => argument.parse().ok(),
        None => Some(usual),
    };
    match (number(0, ROLLS), number(1, 0), arguments.len() <= 2) {
        (Some(rolls), Some(seed), true) => random_rolls(rolls, seed),
        _ => {
            eprintln!("usage: compare [ROLLS] [SEED], or compare --mutants");
            ExitCode::from(2)
        }
    }
}

fn random_rolls(rolls: u64, seed: u64) -> ExitCode {
    let started = Instant::now();
    match run(seed, rolls, LINES) {
        Ok(coverage) => {
            let seconds = started.elapsed().as_secs_f64();
            let (rolls, lines) = (coverage.rolls, coverage.lines);
            let speed = rolls as f64 / seconds;
            println!("{rolls} rolls, {lines} lines, {seconds:.1} s, {speed:.0} rolls a second");
            println!("no difference; answers by call, accepted and by refusal number:\n{coverage}");
            ExitCode::SUCCESS
        }
        Err(failure) => {
            println!("{failure}");
            ExitCode::FAILURE
        }
    }
}

fn mutants() -> ExitCode {
    let cases: Vec<Case> = (0..MUTANT_SEEDS).map(Case::random).collect();
    let seeds: Vec<Known> = cases.iter().map(Known::of).collect();
    let mut told = Vec::new();
    for mutant in Mutant::all() {
        match tell(mutant, &seeds) {
            Some(found) => told.push(found),
            None => {
                println!("{mutant} passed {MUTANT_SEEDS} rolls");
                return ExitCode::FAILURE;
            }
        }
    }
    print!("{}", table(&told));
    ExitCode::SUCCESS
}

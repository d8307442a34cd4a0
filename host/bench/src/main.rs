//! `bench DOCS [--counts]`: measures everything, and writes the tables of
//! DOCS/BENCHMARK.md and DOCS/rewind.svg; with `--counts` no times are taken.
//! `bench count TABLE`: does the works of a table once, under callgrind.

use bench::meter::{run, Counts, Times};
use bench::table::{Costs, Purpose, Table};
use bench::{calls, document, mixed, reach, rewind, soundness, TABLES};
use std::path::Path;
use std::process::ExitCode;
use std::time::Duration;
use std::{env, fs, io};

const SLICE: Duration = Duration::from_millis(4);

fn main() -> ExitCode {
    let arguments: Vec<String> = env::args().skip(1).collect();
    let arguments: Vec<&str> = arguments.iter().map(String::as_str).collect();
    let done = match arguments[..] {
        ["count", name] => count(name),
        [docs] => measure(Path::new(docs), true),
        [docs, "--counts"] => measure(Path::new(docs), false),
        _ => Err(io::Error::other("usage: bench DOCS [--counts] | bench count TABLE")),
    };
    match done {
        Ok(()) => ExitCode::SUCCESS,
        Err(error) => {
            eprintln!("bench: {error}");
            ExitCode::FAILURE
        }
    }
}

fn count(name: &str) -> io::Result<()> {
    let table = TABLES.iter().find(|table| table.name == name);
    let table = table.ok_or_else(|| io::Error::other(format!("no table {name}")))?;
    run(&(table.works)(Purpose::Count));
    Ok(())
}

fn measure(docs: &Path, timed: bool) -> io::Result<()> {
    let report = docs.join("BENCHMARK.md");
    document::replace(&report, "setting", &setting(timed)?)?;
    let write = |name: &str, text: &str| {
        println!("{name}:\n\n{text}");
        document::replace(&report, name, text)
    };
    let mut measured = Vec::new();
    for table in &TABLES {
        let costs = costs(table, timed)?;
        write(table.name, &(table.markdown)(&costs))?;
        measured.push((table.name, costs));
    }
    let of = |table: Table| {
        let found = measured.iter().find(|(name, _)| *name == table.name);
        &found.expect("every table was measured").1
    };
    let rewinds = of(rewind::TABLE);
    let judged = reach::Measured {
        calls: of(calls::TABLE),
        mixed: of(mixed::TABLE),
        rewind: rewinds,
        test: of(soundness::TABLE),
    };
    write("reach", &reach::written(&judged))?;
    fs::write(docs.join("rewind.svg"), rewind::drawing(rewinds))
}

fn costs(table: &Table, timed: bool) -> io::Result<Costs> {
    let counts = Counts::of(table.name, (table.works)(Purpose::Count).len())?;
    let times = timed.then(|| Times::of(&(table.works)(Purpose::Time), table.rounds, SLICE));
    Ok(Costs { counts, times })
}

/// When and on what the tables were measured.
fn setting(timed: bool) -> io::Result<String> {
    let processor = fs::read_to_string("/proc/cpuinfo")?;
    let model = processor.lines().find(|line| line.starts_with("model name"));
    let model = model.and_then(|line| line.split(": ").nth(1)).unwrap_or("unknown");
    let cores = processor.lines().filter(|line| line.starts_with("processor")).count();
    let load = fs::read_to_string("/proc/loadavg")?;
    let load = load.split(' ').next().unwrap_or("unknown");
    let date = command("date", &["+%Y-%m-%d"])?;
    let compiler = command("rustc", &["--version", "--verbose"])?;
    let of_compiler = |start: &str| compiler.lines().find(|line| line.starts_with(start));
    let release = of_compiler("rustc").unwrap_or("rustc unknown");
    let llvm = of_compiler("LLVM").unwrap_or("LLVM version unknown");
    let times = match timed {
        true => format!("load average {load} before the times were taken"),
        false => "instructions alone, no times taken".to_string(),
    };
    Ok(format!("Measured on {date}: x86-64, {model}, {cores} cores; {release}, {llvm}; {times}.\n"))
}

fn command(program: &str, arguments: &[&str]) -> io::Result<String> {
    let output = std::process::Command::new(program).args(arguments).output()?;
    Ok(String::from_utf8_lossy(&output.stdout).trim().to_string())
}

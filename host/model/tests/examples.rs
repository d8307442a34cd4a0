//! The rolls of `examples/`, whose answers were written from the documents: the model gives the
//! same. (`../test-examples` and the tests of `library` play them on the proved machine.)

use model::{play, play_on, wrong_archive, ArchiveFault, Fault, Faulty, Machine, LINE_BYTES};
use std::fs;
use std::path::{Path, PathBuf};

fn example_rolls() -> Vec<PathBuf> {
    let folder = Path::new(env!("CARGO_MANIFEST_DIR")).join("../../examples");
    let files =
        fs::read_dir(folder).expect("the examples").map(|file| file.expect("a file").path());
    files.filter(|file| file.extension().is_some_and(|extension| extension == "roll")).collect()
}

#[test]
fn the_model_answers_as_the_examples_say() {
    let rolls = example_rolls();
    assert!(rolls.len() >= 29, "only {} examples", rolls.len());
    for roll in rolls {
        let image = fs::read(roll.with_extension("image")).ok();
        let played = play(&fs::read(&roll).expect("the roll"), image.as_deref(), 128);
        let expected = fs::read(roll.with_extension("answers")).expect("answers");
        for (line, (played, expected)) in played.chunks(19).zip(expected.chunks(19)).enumerate() {
            let [played, expected] = [played, expected].map(String::from_utf8_lossy);
            assert_eq!(played, expected, "{}, line {}", roll.display(), line + 1);
        }
        assert_eq!(played.len(), expected.len(), "{}", roll.display());
    }
}

/// The first line of an example that a wrong machine answers otherwise.
fn telling_line(name: &str, fault: Fault) -> Option<usize> {
    let named = |roll: &PathBuf| roll.file_stem().is_some_and(|stem| stem == name);
    let roll = example_rolls().into_iter().find(named).expect("the example");
    let image = fs::read(roll.with_extension("image")).unwrap_or_default();
    let answers = fs::read(roll.with_extension("answers")).expect("answers");
    let lines = fs::read(&roll).expect("the roll");
    let played = play_on(&lines, &mut Faulty::fresh(&image, 128, fault));
    let line = played.chunks(19).zip(answers.chunks(19)).position(|(a, b)| a != b);
    println!("{fault:?}: line {:?} of {name}", line.map(|line| line + 1));
    line
}

/// The example of the request tells every wrong machine near it.
#[test]
fn over_gaps_tells_every_slip_of_unmapping_over_gaps() {
    let place = |wanted| Fault::ALL.iter().position(|&fault| fault == wanted).expect("a fault");
    let slips = place(Fault::UnmapRefusedOverGap)..=place(Fault::WritePassesOverGap);
    for fault in Fault::ALL[slips].iter().copied().chain([Fault::UnmapFreesBack]) {
        assert!(telling_line("over-gaps", fault).is_some(), "{fault:?}");
    }
}

/// The example of the request tells every wrong machine near it; what a kept frame still holds is
/// told by the example of a secret.
#[test]
fn kept_runs_tells_every_slip_of_keeping_frames() {
    for fault in Fault::ALL.into_iter().filter(|fault| fault.is_near_runs()) {
        let example = match fault {
            Fault::KeptFramesNotCleared => "kept-secret",
            _ => "kept-runs",
        };
        assert!(telling_line(example, fault).is_some(), "{fault:?}");
    }
}

/// The example of the request tells every wrong machine near it.
#[test]
fn put_back_tells_every_slip_of_counting_pages() {
    let place = |wanted| Fault::ALL.iter().position(|&fault| fault == wanted).expect("a fault");
    let slips = place(Fault::PutBackAnswersZero)..=place(Fault::PutBackStopsAtPage);
    for &fault in &Fault::ALL[slips] {
        assert!(telling_line("put-back", fault).is_some(), "{fault:?}");
    }
}

/// The example of the request tells every wrong machine near it.
#[test]
fn rewind_cases_tells_every_slip_of_the_four_cases() {
    let place = |wanted| Fault::ALL.iter().position(|&fault| fault == wanted).expect("a fault");
    let slips = place(Fault::CaseZeroedBeforeCopied)..=place(Fault::CaseFrontBecomesBack);
    let others = [
        Fault::ZeroUnderRewoundImagePage,
        Fault::RewindLeavesPagesDirty,
        Fault::RewindKeepsAllFronts,
        Fault::RewindFreesAllFronts,
    ];
    for fault in Fault::ALL[slips].iter().copied().chain(others) {
        assert!(telling_line("rewind-cases", fault).is_some(), "{fault:?}");
    }
}

/// The examples that show an archive: the machine after the roll, the sandbox, the archive.
fn example_archives() -> Vec<(Machine, u16, Vec<u8>)> {
    let rolls = example_rolls().into_iter();
    let with_archive = rolls.filter_map(|roll| {
        let archive = fs::read(roll.with_extension("archive")).ok()?;
        let image = fs::read(roll.with_extension("image")).unwrap_or_default();
        let mut machine = Machine::fresh(&image, 128);
        play_on(&fs::read(&roll).expect("the roll"), &mut machine);
        let sandbox = model::parse_line(&archive[..LINE_BYTES]).expect("a line").sandbox;
        Some((machine, sandbox, archive))
    });
    with_archive.collect()
}

#[test]
fn the_model_writes_the_archives_that_the_examples_show() {
    let archives = example_archives();
    assert!(archives.len() >= 3, "only {} archives", archives.len());
    for (machine, sandbox, archive) in archives {
        let written = machine.archived(sandbox).expect("a snapshot").text();
        let [written, expected] = [&written, &archive].map(|text| String::from_utf8_lossy(text));
        assert_eq!(written, expected);
    }
}

/// The examples tell every wrong writer, but for those whose slip is in output of another length
/// or in a refusal that the examples do not have.
#[test]
fn the_archives_tell_every_slip_in_their_lines() {
    use ArchiveFault::*;
    let elsewhere = [
        ClosedLacksSnapshot,
        SandboxModuloFour,
        ArchivesWithoutSnapshot,
        AnswersFifteenFirst,
        ClearsPastLines,
        TouchedBeforeFifteen,
        FifteenClearsOutput,
        TakesOneByteShort,
    ];
    let archives = example_archives();
    for fault in ArchiveFault::ALL {
        let told = archives.iter().any(|(machine, sandbox, archive)| {
            let mut out = vec![b'x'; archive.len()];
            let reply = wrong_archive(fault, machine, *sandbox, &mut out);
            (reply, &out) != ((0, (archive.len() / LINE_BYTES) as u32), archive)
        });
        assert_eq!(told, !elsewhere.contains(&fault), "{fault:?}");
    }
}

/// A line of every call is accepted somewhere, and some line has the first code that is no call.
#[test]
fn the_examples_have_every_call() {
    let mut accepted = [false; 12];
    for roll in example_rolls() {
        let lines = fs::read(&roll).expect("the roll");
        let answers = fs::read(roll.with_extension("answers")).expect("answers");
        for (line, answer) in lines.chunks(LINE_BYTES).zip(answers.chunks(19)) {
            let code = model::parse_line(line).map_or(0, |call| call.code);
            let expected = if code == 11 { b"     2" } else { b"     0" };
            if code < 12 && answer[6..12] == *expected {
                accepted[usize::from(code)] = true;
            }
        }
    }
    assert_eq!(accepted[1..], [true; 11]);
}

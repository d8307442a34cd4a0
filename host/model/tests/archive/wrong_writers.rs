//! Each wrong writer is told from the right one by a case made for it: by number, value or output.

use super::after;
use crate::common::image;
use model::{wrong_archive, ArchiveFault, Machine, Reply};
use ArchiveFault::*;

/// How long the output is beside the roll that the right writer writes.
#[derive(Clone, Copy, PartialEq, Eq, Debug)]
enum Room {
    Exact,
    OneShort,
    OneMore,
    Nothing,
}

/// The faults that a case tells, with the sandbox whose archive is asked for and the output's
/// length; the calls are made over an image of 4 pages.
type Case = (&'static [ArchiveFault], u16, Room, &'static [&'static str]);

const CASES: [Case; 21] = [
    (&[ClosedLacksSnapshot], 1, Room::Exact, &["1 0 8", "7 0"]),
    (&[SandboxModuloFour], 4, Room::OneMore, &["1 0 8", "7 0"]),
    (&[ArchivesWithoutSnapshot], 0, Room::OneMore, &["1 0 8"]),
    (&[AnswersFifteenFirst], 0, Room::Nothing, &["1 0 8"]),
    (&[RefusesEmptySnapshot, LeavesOutSnapshot], 0, Room::Exact, &["1 0 8", "7 0"]),
    (&[LeadingZeros, CountOneShort, CountsBytes], 0, Room::Exact, &["1 0 8", "7 0"]),
    (&[RefusesExactFit], 0, Room::Exact, &["1 0 8", "7 0"]),
    (&[ClearsPastLines], 0, Room::OneMore, &["1 0 8", "7 0"]),
    (&[TouchedBeforeFifteen, FifteenClearsOutput], 0, Room::OneShort, &["1 0 8", "7 0"]),
    (&[TakesOneByteShort], 0, Room::OneShort, &["1 0 8", "7 0"]),
    (&[OpensWithCharge, OpensWithPool], 0, Room::Exact, &["1 0 8", "2 0 0 2 0 0 3", "7 0"]),
    (&[NamesSandbox0], 2, Room::Exact, &["1 2 8", "7 2"]),
    (&[ArchivesPresent], 0, Room::Exact, &["1 0 8", "7 0", "2 0 0 1 0 0 3"]),
    (&[PresentBytes], 0, Room::Exact, &["1 0 8", "2 0 0 1 0 0 3", "7 0", "6 0 0 1"]),
    (&[PresentRights], 0, Room::Exact, &["1 0 8", "2 0 0 1 0 0 3", "7 0", "4 0 0 1 1"]),
    // Page 0 with rights 1, page 1 behind it with rights 3.
    (
        &[MapsWithOwnRights, MapsAtLowestGap, RightsDivideNoMap, MapsHighestFirst],
        0,
        Room::Exact,
        &["1 0 8", "2 0 0 2 0 0 3", "4 0 0 1 1", "7 0"],
    ),
    (&[MapForEachPage, ProtectForEachPage], 0, Room::Exact, &["1 0 8", "2 0 3 2 0 0 1", "7 0"]),
    // Image pages 2 and 3, running on: the first byte of page 5 is 3, that of page 6 is 4.
    (
        &[ImagePagesMappedApart, MapsImageFromPage0, WritesImageOut, ZeroUnderImagePage],
        0,
        Room::Exact,
        &["1 0 8", "2 0 5 2 1 2 3", "7 0"],
    ),
    // A byte written back, a zero over an image byte.
    (
        &[WritesEqualBytes, LeavesOutZeros],
        0,
        Room::Exact,
        &["1 0 8", "2 0 5 1 1 2 3", "6 0 1280 9", "6 0 1280 3", "6 0 1281 0", "7 0"],
    ),
    // Two areas, both written, the last byte of page 63 too.
    (
        &[LeavesOutLastByte, LeavesOutLastPage, WritesBehindEachMap, WritesHighestFirst],
        0,
        Room::Exact,
        &["1 0 8", "2 0 0 1 0 0 3", "2 0 63 1 0 0 3", "6 0 0 1", "6 0 16383 1", "7 0"],
    ),
    // An anonymous and an image area with rights 1, and behind them one with rights 3.
    (
        &[
            LeavesOutReadOnly,
            ProtectsEveryArea,
            ProtectsJoined,
            LeavesOutProtects,
            ProtectsBeforeWrites,
            ProtectsHighestFirst,
        ],
        0,
        Room::Exact,
        &[
            "1 0 8",
            "2 0 0 1 0 0 3",
            "6 0 9 9",
            "4 0 0 1 1",
            "2 0 1 1 1 0 1",
            "2 0 2 1 0 0 3",
            "7 0",
        ],
    ),
];

/// What a writer answers and leaves.
fn written(
    fault: ArchiveFault,
    machine: &Machine,
    sandbox: u16,
    length: usize,
) -> (Reply, Vec<u8>) {
    let mut out = vec![0xa5; length];
    let reply = match fault {
        ArchiveFault::None => machine.archive(sandbox, &mut out),
        _ => wrong_archive(fault, machine, sandbox, &mut out),
    };
    (reply, out)
}

#[test]
fn every_wrong_writer_is_told_by_its_case() {
    for (faults, sandbox, room, calls) in CASES {
        let machine = after(&image(4), calls);
        let roll = machine.archived(sandbox).map_or(172, |archive| archive.text().len());
        let length = match room {
            Room::Exact => roll,
            Room::OneShort => roll - 1,
            Room::OneMore => roll + 1,
            Room::Nothing => 0,
        };
        let right = written(ArchiveFault::None, &machine, sandbox, length);
        for &fault in faults {
            let wrong = written(fault, &machine, sandbox, length);
            assert!(wrong != right, "{fault:?} is not told: {:?}", wrong.0);
        }
    }
    let told: Vec<ArchiveFault> = CASES.iter().flat_map(|case| case.0).copied().collect();
    for fault in ArchiveFault::ALL {
        assert_eq!(told.iter().filter(|&&other| other == fault).count(), 1, "{fault:?}");
    }
}

/// Without a fault the writer of wrong archives is the right one.
#[test]
fn a_writer_without_fault_is_the_right_one() {
    for (_, sandbox, _, calls) in CASES {
        let machine = after(&image(4), calls);
        for sandbox in [sandbox, 0, 1, 4] {
            for length in [0, 85, 86, 172, 1_000] {
                let mut out = vec![0xa5; length];
                let reply = wrong_archive(ArchiveFault::None, &machine, sandbox, &mut out);
                let right = written(ArchiveFault::None, &machine, sandbox, length);
                assert_eq!((reply, out), right);
            }
        }
    }
}

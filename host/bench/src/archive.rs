//! (i) A snapshot written as a roll that rebuilds it, beside a writer without a proof.

use crate::roll::{call, image, map, map_image, open, protect, snapshot, write, READ, WRITE};
use crate::table::{markdown, ratio, thousands, Costs, Purpose, Table};
use crate::work::{Work, Writer};
use model::{Answering, Call, Machine, ARCHIVE_LINES, LINE_BYTES, PAGE_BYTES};

pub const TABLE: Table = Table { name: "archive", works, markdown: written, rounds: 21 };

const WRITERS: [Writer; 2] = [Writer::Proved, Writer::Unproved];
/// A sandbox that no case opens: its archive is refused 4 as soon as the state is found sound.
const CLOSED: u16 = 3;

/// What the archive is of.
#[derive(Clone, Copy, PartialEq, Eq)]
enum Case {
    NoPages,
    Small,
    ZeroPages,
    WrittenPages,
    Longest,
}

const CASES: [Case; 5] =
    [Case::NoPages, Case::Small, Case::ZeroPages, Case::WrittenPages, Case::Longest];
/// The archives of a case that are measured: written; refused as soon as the state is found sound;
/// and refused for want of a byte of output.
const ARCHIVES: usize = 3;

impl Case {
    fn title(self) -> &'static str {
        match self {
            Case::NoPages => "no pages",
            Case::Small => "4 pages in 2 areas, 3 bytes written, 1 protect",
            Case::ZeroPages => "64 pages, none written",
            Case::WrittenPages => "64 pages, a byte of each written",
            Case::Longest => "the longest: 64 pages in 8 areas with rights 1, every byte written",
        }
    }

    fn calls(self) -> Vec<Call> {
        let mut calls = vec![open(0, 128)];
        match self {
            Case::NoPages => {}
            Case::Small => {
                calls.extend([map(0, 0, 2, WRITE), map_image(0, 8, 2, 3, WRITE)]);
                calls.extend([write(0, 0), write(0, 1), write(0, 9), protect(0, 8, 2, READ)]);
            }
            Case::ZeroPages => calls.push(map(0, 0, 64, WRITE)),
            Case::WrittenPages => {
                calls.push(map(0, 0, 64, WRITE));
                calls.extend((0..64).map(|page| write(0, page)));
            }
            Case::Longest => calls.extend(every_byte()),
        }
        calls.push(snapshot(0));
        calls
    }

    /// The archive that the model writes.
    fn roll(self) -> Vec<u8> {
        let mut machine = Machine::fresh(&image(), 128);
        for call in self.calls() {
            assert_eq!(machine.answer(&call).0, 0, "{call:?}");
        }
        machine.archived(0).expect("a snapshot").text()
    }
}

/// Anonymous and image areas of 8 pages in turn, every byte other than its zero or image byte, and
/// all protected.
fn every_byte() -> Vec<Call> {
    let image = image();
    let mut calls = Vec::new();
    // The image pages under pages 0 to 63; there are 16, and each serves twice.
    let under = |page: usize| (page / 8 % 2 == 1).then(|| (page - 8) / 16 % 2 * 8 + page % 8);
    for first in (0..64).step_by(8) {
        calls.push(match under(first) {
            None => map(0, first as u16, 8, WRITE),
            Some(image_page) => map_image(0, first as u16, 8, image_page as u16, WRITE),
        });
    }
    for address in 0..64 * PAGE_BYTES {
        let offset = address % PAGE_BYTES;
        let byte = under(address / PAGE_BYTES).map_or(0, |page| image[page * PAGE_BYTES + offset]);
        let other = u16::from(byte.wrapping_add(1 + (offset % 9) as u8));
        calls.push(call(6, 0, [address as u16, other, 0, 0, 0]));
    }
    calls.push(protect(0, 0, 64, READ));
    calls
}

/// For each case and writer its archives.
fn works(_: Purpose) -> Vec<Work> {
    let mut works = Vec::new();
    for case in CASES {
        let roll = case.roll();
        let lines = (roll.len() / LINE_BYTES) as u32;
        for writer in WRITERS {
            let mut left = writer.left(&case.calls());
            let archives: [_; ARCHIVES] = [
                (0, roll.len(), (0, lines)),
                (CLOSED, roll.len(), (4, 0)),
                (0, roll.len() - 1, (15, 0)),
            ];
            for (sandbox, room, told) in archives {
                let mut out = vec![b'x'; room];
                assert_eq!(left.archive(sandbox, &mut out), told, "{}", case.title());
                assert!(told.0 != 0 || out == roll, "{}: another archive", case.title());
                works.push(Work::Archive { left: left.clone(), sandbox, room });
            }
        }
    }
    assert_eq!(Case::Longest.roll().len(), ARCHIVE_LINES * LINE_BYTES);
    works
}

/// Where the archives of a case stand.
fn place(case: usize, writer: usize) -> usize {
    (case * WRITERS.len() + writer) * ARCHIVES
}

fn written(costs: &Costs) -> String {
    let row = |(index, case): (usize, &Case)| {
        let lines = case.roll().len() / LINE_BYTES;
        let [proved, unproved] = [0, 1].map(|writer| place(index, writer));
        let own = |at: usize| costs.counts.difference(at, at + 1);
        let a_line = |at: usize| format!("{:.1}", own(at) as f64 / lines as f64);
        let too_short = |at: usize| thousands(costs.counts.difference(at + 2, at + 1));
        vec![
            case.title().to_string(),
            thousands(lines as i64),
            thousands(costs.counts.get(proved)),
            thousands(costs.counts.get(unproved)),
            thousands(own(proved)),
            thousands(own(unproved)),
            ratio(own(proved), own(unproved)),
            a_line(proved),
            a_line(unproved),
            too_short(proved),
            too_short(unproved),
            costs.time(proved),
            costs.time(unproved),
        ]
    };
    let rows: Vec<Vec<String>> = CASES.iter().enumerate().map(row).collect();
    let head = [
        "snapshot",
        "lines",
        "proved",
        "unproved",
        "proved, own work",
        "unproved, own work",
        "ratio",
        "proved, a line",
        "unproved, a line",
        "proved, refused 15",
        "unproved, refused 15",
        "proved, ns",
        "unproved, ns",
    ];
    markdown(&head, &rows)
}

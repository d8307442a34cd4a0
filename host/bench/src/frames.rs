//! (d) Frames held, beside two whole copies of 64 pages.

use crate::roll::{map, open, report, snapshot, text, write, WRITE};
use crate::table::{markdown, ratio, Costs, Purpose, Table};
use crate::work::{Player, Work};
use model::Call;

pub const TABLE: Table = Table { name: "frames", works, markdown: written, rounds: 0 };

/// The frames of a sandbox whose snapshot is a full copy: 64 pages, and 64 more.
const FULL_COPY: i64 = 128;

/// Pages mapped; written before the snapshot; dirtied since, the lowest first.
const CASES: [(u16, u16, u16); 7] =
    [(16, 4, 1), (16, 16, 4), (32, 8, 7), (32, 32, 7), (64, 16, 7), (64, 64, 7), (64, 64, 64)];

fn works(_: Purpose) -> Vec<Work> {
    Vec::new()
}

/// Frames held after some calls: counted in the table, and as the report says.
fn held(calls: &[Call]) -> i64 {
    let with_report = [calls, &[report(0)]].concat();
    let played = Player::Proved.played(&text(&with_report));
    let reported = played.reply(calls.len());
    assert_eq!(reported, (0, played.named() as u32), "the report counts the table's entries");
    i64::from(reported.1)
}

fn written(_: &Costs) -> String {
    let mut rows = Vec::new();
    for (mapped, written, dirty) in CASES {
        let mut calls = vec![open(0, 128), map(0, 0, mapped, WRITE)];
        calls.extend((0..written).map(|page| write(0, page)));
        calls.push(snapshot(0));
        let after_snapshot = held(&calls);
        calls.extend((0..dirty).map(|page| write(0, page)));
        let after_writes = held(&calls);
        rows.push(vec![
            format!("{mapped} mapped, {written} written, {dirty} dirtied"),
            after_snapshot.to_string(),
            after_writes.to_string(),
            FULL_COPY.to_string(),
            ratio(after_writes, FULL_COPY),
        ]);
    }
    let head = [
        "pages",
        "frames after the snapshot",
        "frames after the writes",
        "full copy",
        "share of the full copy",
    ];
    markdown(&head, &rows)
}

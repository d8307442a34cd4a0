//! "Played from a fresh state with the same image and pool, the roll gives a sandbox whose
//! snapshot and present pages both equal the written snapshot in mappings, rights and bytes. Two
//! snapshots under one image give equal rolls only if they agree in these." (Random rolls are
//! replayed in `rolls`.)

use super::{after, archived};
use crate::common::{accept, image};
use model::{play_on, snapshots_agree, Answering, Machine};

/// Five pages, filled with 1 to 5, and a page of zeros.
fn bytes() -> Vec<u8> {
    [image(5), vec![0; 256]].concat()
}

/// Calls that lead to snapshots of sandbox 0 of many kinds, no two alike.
const SNAPSHOTS: [&[&str]; 15] = [
    &["7 0"],
    &["2 0 0 1 0 0 3", "7 0"],
    &["2 0 0 1 0 0 1", "7 0"],
    &["2 0 1 1 0 0 3", "7 0"],
    &["2 0 0 2 0 0 3", "7 0"],
    &["2 0 0 1 1 0 3", "7 0"],
    &["2 0 0 1 1 1 3", "7 0"],
    &["2 0 0 1 0 0 3", "6 0 0 1", "7 0"],
    &["2 0 0 1 0 0 3", "6 0 0 2", "7 0"],
    &["2 0 0 1 0 0 3", "6 0 255 1", "7 0"],
    &["2 0 0 2 1 0 3", "4 0 1 1 1", "7 0"],
    // Reads as the second does, over another backing.
    &["2 0 0 1 1 5 3", "7 0"],
    &["2 0 63 1 0 0 3", "6 0 16383 255", "7 0"],
    &["2 0 3 4 1 2 3", "6 0 800 0", "6 0 1100 9", "4 0 4 2 1", "7 0"],
    &["2 0 3 1 0 0 1", "2 0 4 1 1 5 1", "2 0 5 1 0 0 3", "2 0 7 1 1 5 3", "7 0"],
];

fn snapshot_of(calls: &[&str]) -> Machine {
    after(&bytes(), &[&["1 0 20"], calls].concat())
}

#[test]
fn an_archive_rebuilds_its_snapshot_and_is_its_own_archive() {
    for calls in SNAPSHOTS {
        let machine = snapshot_of(calls);
        let archive = archived(&machine, 0);
        let mut rebuilt = Machine::fresh(&bytes(), 128);
        for call in archive.calls() {
            assert_eq!(rebuilt.answer(&call).0, 0, "{call:?}");
        }
        let written = machine.sandbox(0).copy.as_ref().expect("a snapshot");
        let sandbox = rebuilt.sandbox(0);
        let copy = sandbox.copy.as_ref().expect("a snapshot");
        assert!(snapshots_agree(copy, written), "{calls:?}");
        assert!(snapshots_agree(&sandbox.pages, written), "{calls:?}");
        assert_eq!(sandbox.share, 20);
        assert_eq!(archived(&rebuilt, 0), archive);
    }
}

/// As text: the player accepts every line, and the last answer is the snapshot's pages.
#[test]
fn the_player_accepts_every_line() {
    for calls in SNAPSHOTS {
        let machine = snapshot_of(calls);
        let text = archived(&machine, 0).text();
        let played = play_on(&text, &mut Machine::fresh(&bytes(), 128));
        assert!(played.chunks(19).all(|reply| reply[6..12] == *b"     0"), "{calls:?}");
        let pages = machine.sandbox(0).copy.as_ref().expect("a snapshot");
        let pages = pages.iter().filter(|page| page.mapped).count();
        let last = format!("{:>6}{:>6}{pages:>6}\n", text.len() / 43, 0);
        assert!(played.ends_with(last.as_bytes()), "{calls:?}");
    }
}

#[test]
fn archives_are_equal_just_where_snapshots_agree() {
    let machines = SNAPSHOTS.map(snapshot_of);
    let mut agreeing = 0;
    for (one, other) in machines.iter().flat_map(|one| machines.iter().map(move |two| (one, two))) {
        let [copy, other_copy] = [one, other].map(|machine| machine.sandbox(0).copy.clone());
        let agree = snapshots_agree(&copy.expect("taken"), &other_copy.expect("taken"));
        assert_eq!(archived(one, 0) == archived(other, 0), agree);
        agreeing += usize::from(agree);
    }
    assert_eq!(agreeing, SNAPSHOTS.len(), "each agrees with itself alone");
}

/// How a snapshot came about does not show: in which order pages were mapped and written, and
/// what was written over or unmapped again.
#[test]
fn equal_snapshots_have_equal_archives_however_they_came_about() {
    let straight = ["1 0 20", "2 0 2 3 0 0 3", "2 0 5 1 1 2 3", "6 0 600 4", "4 0 5 1 1", "7 0"];
    let crooked = [
        &["1 0 20", "2 0 5 1 1 2 1", "2 0 4 1 0 0 3", "6 0 1100 3", "6 0 1100 0"][..],
        &["2 0 40 2 0 0 3", "6 0 10240 1", "3 0 40 2", "2 0 64 2 0 0 3", "3 0 0 2"],
        &["2 0 2 2 0 0 1", "4 0 2 2 3", "6 0 600 9", "6 0 600 4", "7 0", "6 0 600 1", "8 0"],
    ];
    let [one, other] = [straight.to_vec(), crooked.concat()].map(|calls| after(&bytes(), &calls));
    assert_eq!(archived(&one, 0), archived(&other, 0));
}

/// "with the same image and pool": beside other sandboxes too, if their shares leave room.
#[test]
fn an_archive_is_replayed_beside_other_sandboxes() {
    let machine = snapshot_of(SNAPSHOTS[13]);
    let mut busy = after(&bytes(), &["1 1 100", "2 1 0 9 0 0 3", "6 1 0 1", "7 1", "6 1 0 2"]);
    for call in archived(&machine, 0).calls() {
        assert_eq!(busy.answer(&call).0, 0, "{call:?}");
    }
    assert_eq!(archived(&busy, 0), archived(&machine, 0));
    accept(&mut busy, &["8 0", "8 1"]);
}

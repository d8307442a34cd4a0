//! Every clause of a sound state, broken alone, is refusal 3 and changes nothing.
//!
//! Each row of the tables in `areas`, `snapshot`, `memory`, `limits`, `bytes` and `runs` names a
//! clause, takes a sound state that calls have made, and edits state, pool, table or image. The
//! clauses are tested apart from the proved machine (`compare::unsound_clauses`), so that it
//! is seen that the edit breaks this one and no other.

mod areas;
mod bases;
mod bytes;
mod limits;
mod memory;
mod runs;
mod snapshot;

use bases::World;
use compare::{unsound_clauses, Clause};

/// A clause, what is done to break it, to which state, and how.
pub struct Row {
    clause: Clause,
    what: &'static str,
    base: fn() -> World,
    edit: fn(&mut World),
}

const TABLES: [&[Row]; 6] =
    [areas::ROWS, snapshot::ROWS, memory::ROWS, limits::ROWS, bytes::ROWS, runs::ROWS];

/// A sentence of the documents, clause by clause; and a test for each.
macro_rules! sentence {
    ($name:ident: $($words:literal => $test:ident, $clause:ident;)+) => {
        const $name: &[(&str, Clause)] = &[$(($words, Clause::$clause)),+];
        $(
            #[test]
            fn $test() {
                broken_alone(Clause::$clause);
            }
        )+
    };
}

sentence! { SENTENCE:
    "areas, the snapshot's too, are at most 8, " => at_most_eight, AtMostEight;
    "with rights 1 or 3, " => rights, Rights;
    "lie in 0 to 63, " => inside, Inside;
    "ordered, " => ordered, Ordered;
    "apart " => apart, Apart;
    "and longest; " => longest, Longest;
    "image pages exist; " => image_pages, ImagePages;
    "the snapshot's areas are marked committed; " => snapshot_marked, SnapshotMarked;
    "committed pages are snapshot pages " => committed_in_snapshot, CommittedInSnapshot;
    "and agree with them in backing; " => backing_agrees, BackingAgrees;
    "entries name frames of the pool, " => entries_in_pool, EntriesInPool;
    "no frame twice; " => no_frame_twice, NoFrameTwice;
    "the held marks are those frames; " => held_marks, HeldMarks;
    "fronts stand on mapped pages only, " => fronts_on_mapped, FrontsOnMapped;
    "backs on snapshot pages only; " => backs_on_snapshot, BacksOnSnapshot;
    "the charge " => charge, Charge;
    "and share limits hold; " => shares, Shares;
    "a sandbox without a snapshot has no committed page; " => no_snapshot, NoSnapshot;
    "a closed one has nothing." => closed, Closed;
}

// Request A3. That they "are held" is that they are frames of the pool, marked in their run.
sentence! { OF_KEPT_FRAMES:
    "Kept frames are held " => kept_in_pool, KeptInPool;
    "and zero, " => kept_zero, KeptZero;
    "belong to one run " => kept_once, KeptOnce;
    "and no entry, " => kept_unnamed, KeptUnnamed;
    "and with fronts and backs stay within the share" => kept_in_share, KeptInShare;
}

/// What the sentence takes for granted.
#[test]
fn lengths() {
    broken_alone(Clause::Lengths);
}

#[test]
fn bytes_of_a_state() {
    broken_alone(Clause::Bytes);
}

#[test]
fn nothing_behind_the_areas() {
    broken_alone(Clause::NothingBehind);
}

/// The clauses that are said of the present areas and of the snapshot's.
const OF_BOTH: [Clause; 8] = [
    Clause::AtMostEight,
    Clause::Rights,
    Clause::Inside,
    Clause::Ordered,
    Clause::Apart,
    Clause::Longest,
    Clause::ImagePages,
    Clause::NothingBehind,
];

fn broken_alone(clause: Clause) {
    let all = TABLES.into_iter().flatten();
    let rows: Vec<&Row> = all.filter(|row| row.clause == clause).collect();
    assert!(!rows.is_empty(), "no row breaks {clause:?}");
    for begins in ["present:", "snapshot:"] {
        let one = rows.iter().any(|row| row.what.starts_with(begins));
        assert!(one || !OF_BOTH.contains(&clause), "{clause:?} has no row for the {begins}");
    }
    for row in rows {
        let mut world = (row.base)();
        world.assert_sound(row.what);
        (row.edit)(&mut world);
        let World { kept, image } = &world;
        let broken = unsound_clauses(&kept.state, &kept.pool, &kept.table, image);
        assert_eq!(broken, [clause], "{}", row.what);
        world.assert_refuses_all(row.what);
    }
}

#[test]
fn the_sentence_is_the_documents() {
    let sentence: String = SENTENCE.iter().map(|(words, _)| *words).collect();
    let documents = "areas, the snapshot's too, are at most 8, with rights 1 or 3, lie in 0 to \
                     63, ordered, apart and longest; image pages exist; the snapshot's areas \
                     are marked committed; committed pages are snapshot pages and agree with \
                     them in backing; entries name frames of the pool, no frame twice; the held \
                     marks are those frames; fronts stand on mapped pages only, backs on \
                     snapshot pages only; the charge and share limits hold; a sandbox without a \
                     snapshot has no committed page; a closed one has nothing.";
    assert_eq!(sentence, documents);
    let of_kept_frames: String = OF_KEPT_FRAMES.iter().map(|(words, _)| *words).collect();
    let documents = "Kept frames are held and zero, belong to one run and no entry, and with \
                     fronts and backs stay within the share";
    assert_eq!(of_kept_frames, documents);
}

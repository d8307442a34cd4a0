//! Archives of the proved machine, beside the random rolls: read off its own answers, so that
//! nothing here leans on the model.

use compare::{Kept, Lengths};
use gazhuppin::{LINE_BYTES, MOST_ARCHIVE_LINES};
use model::{parse_line, Call, SANDBOXES};
use rolls::Case;

const ROLLS: u64 = 1_000;

/// Cases whose start is not refused, with the memory that it leaves.
fn cases() -> impl Iterator<Item = (Case, Kept)> {
    (0..ROLLS).map(|seed| Case::of_lines(seed, 150)).filter_map(|case| {
        let mut kept = Kept::filled(Lengths::of(&case));
        (kept.start(&case.image).number == 0).then_some((case, kept))
    })
}

fn calls(roll: &[u8]) -> Vec<Call> {
    roll.chunks(LINE_BYTES).filter_map(parse_line).collect()
}

/// A sandbox's archive, or the refusal's number; `out` has room for the longest.
fn archive(kept: &Kept, image: &[u8], sandbox: usize, out: &mut [u8]) -> Result<Vec<u8>, u32> {
    let told = kept.archive(image, sandbox as u16, out);
    match told.number {
        0 => Ok(out[..LINE_BYTES * told.value as usize].to_vec()),
        number => Err(number),
    }
}

/// 4 until it is open, 8 until its snapshot is taken, and from then on the same roll, whatever is
/// called.
#[test]
fn from_its_snapshot_on_a_sandboxes_archive_stays_the_same() {
    let mut out = vec![0; LINE_BYTES * MOST_ARCHIVE_LINES];
    let (mut taken, mut stayed) = (0, 0);
    for (case, mut kept) in cases() {
        let mut last: [Result<Vec<u8>, u32>; SANDBOXES] = std::array::from_fn(|_| Err(4));
        for call in calls(&case.roll) {
            let number = kept.call(&case.image, &call).number;
            let Some(last) = last.get_mut(usize::from(call.sandbox)) else { continue };
            let now = archive(&kept, &case.image, usize::from(call.sandbox), &mut out);
            match (call.code, number, &last) {
                (1, 0, _) => assert_eq!(now, Err(8)),
                (7, 0, _) => {
                    assert!(now.is_ok());
                    taken += 1;
                }
                _ => assert!(now == *last, "{call:?} changed the archive"),
            }
            stayed += usize::from(last.is_ok());
            *last = now;
        }
    }
    println!("{taken} snapshots, {stayed} calls after them");
    assert!(taken > 1_000 && stayed > 50_000, "{taken} snapshots, {stayed} calls after them");
}

/// The archives of all sandboxes, one behind the other, rebuild them all in one machine.
#[test]
fn the_archives_of_all_sandboxes_are_played_into_one_machine() {
    let mut out = vec![0; LINE_BYTES * MOST_ARCHIVE_LINES];
    let mut several = 0;
    for (case, mut kept) in cases() {
        for call in calls(&case.roll) {
            kept.call(&case.image, &call);
        }
        let mut all = |kept: &Kept| {
            let of = |sandbox| archive(kept, &case.image, sandbox, &mut out).ok();
            (0..SANDBOXES).map(of).collect::<Vec<_>>()
        };
        let archives = all(&kept);
        let mut rebuilt = Kept::filled(Lengths::of(&case));
        rebuilt.start(&case.image);
        for call in archives.iter().flatten().flat_map(|roll| calls(roll)) {
            assert_eq!(rebuilt.call(&case.image, &call).number, 0, "{call:?}");
        }
        assert!(all(&rebuilt) == archives);
        several += usize::from(archives.iter().flatten().count() > 1);
    }
    assert!(several > 200, "only {several} rolls with several snapshots");
}

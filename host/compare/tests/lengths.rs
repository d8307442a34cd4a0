//! Lent memory of a wrong length: every call and every archive is refused, and nothing is touched.

use compare::{compare_all, Lengths};
use rolls::Case;

/// Cases whose image has a right length.
fn cases(count: usize) -> impl Iterator<Item = Case> {
    let whole = |case: &Case| case.image.len().is_multiple_of(256) && case.image.len() <= 64 * 256;
    (0..).map(|seed| Case::of_lines(seed, 40)).filter(whole).take(count)
}

fn assert_refused(case: &Case, lengths: Lengths) {
    let compared = compare_all(case, lengths);
    let compared = compared.unwrap_or_else(|difference| panic!("{lengths:?}: {difference}"));
    let (played, archives) = compared;
    // Five sandboxes, each asked for in output of three lengths.
    assert_eq!(archives.answered(3), 15, "{lengths:?}");
    // Neither accepted nor refused by a later row.
    let replies = played.replies.chunks(19);
    let early = |reply: &[u8]| matches!(&reply[6..12], b"     1" | b"     2" | b"     3");
    assert!(replies.len() >= 40 && replies.into_iter().all(early), "{lengths:?}");
}

#[test]
fn pools_and_tables_of_a_wrong_length() {
    for case in cases(40) {
        let right = Lengths::of(&case);
        for pool in [0, 1, 255, 257, right.pool - 1, right.pool + 1, 128 * 256 + 1, 129 * 256] {
            assert_refused(&case, Lengths { pool, ..right });
        }
        for table in [0, 1, 128, 511, 513, 1_024] {
            assert_refused(&case, Lengths { table, ..right });
        }
        assert_refused(&case, Lengths { pool: 0, table: 0 });
    }
}

#[test]
fn images_of_a_wrong_length() {
    for case in cases(40) {
        for bytes in [1, 255, 257, 300, 64 * 256 - 1, 64 * 256 + 1, 65 * 256, 128 * 256] {
            let case = Case { image: vec![7; bytes], ..case.clone() };
            assert_refused(&case, Lengths::of(&case));
        }
    }
}

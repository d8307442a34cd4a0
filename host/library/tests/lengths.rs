//! Lengths that are wrong: an `out` too short, and lent memory of a wrong length.

use gazhuppin::{FRAME_BYTES, OutTooShort, REPLY_BYTES, TABLE_ENTRIES, play};

/// A call, an unknown code, a malformed line, a call for a sandbox that is not there,
/// and a short last line.
const ROLL: &[u8] = b"     1     0     8     0     0     0     0
    11     0     8     0     0     0     0
    05     0     8     0     0     0     0
     9     4     0     0     0     0     0
     9";

const REFUSED: &[u8] = b"     1     3     0
     2     2     0
     3     1     0
     4     3     0
     5     1     0
";

const POOL: usize = 8 * FRAME_BYTES;

/// Memory filled with something other than zero, so that clearing shows.
struct Lent {
    pool: Vec<u8>,
    table: Vec<u16>,
    out: Vec<u8>,
}

impl Lent {
    fn filled(pool: usize, table: usize, out: usize) -> Lent {
        Lent { pool: vec![0xa5; pool], table: vec![0xa5a5; table], out: vec![0x5a; out] }
    }

    fn play(&mut self, image: &[u8]) -> Result<usize, OutTooShort> {
        play(ROLL, image, &mut self.pool, &mut self.table, &mut self.out)
    }

    fn pool_and_table_are_as_filled(&self) -> bool {
        self.pool.iter().all(|&byte| byte == 0xa5)
            && self.table.iter().all(|&entry| entry == 0xa5a5)
    }
}

#[test]
fn an_out_too_short_is_an_error_and_touches_nothing() {
    for room in [0, 1, 18, 19, 5 * REPLY_BYTES - 1] {
        let mut lent = Lent::filled(POOL, TABLE_ENTRIES, room);
        assert_eq!(lent.play(&[]), Err(OutTooShort { needed: 95 }), "{room} bytes");
        assert!(lent.pool_and_table_are_as_filled(), "{room} bytes");
        assert!(lent.out.iter().all(|&byte| byte == 0x5a), "{room} bytes");
    }
}

#[test]
fn room_beyond_the_replies_is_left_as_it_was() {
    for room in [95, 96, 114, 1_000] {
        let mut lent = Lent::filled(POOL, TABLE_ENTRIES, room);
        assert_eq!(lent.play(&[]), Ok(5));
        assert!(lent.out.starts_with(b"     1     0     0\n     2     2     0\n"));
        assert!(lent.out[95..].iter().all(|&byte| byte == 0x5a), "{room} bytes");
        assert!(lent.pool.iter().all(|&byte| byte == 0), "started");
        assert!(lent.table.iter().all(|&entry| entry == 0), "started");
    }
}

fn assert_refused(pool: usize, table: usize, image: usize) {
    let mut lent = Lent::filled(pool, table, 96);
    let what = format!("pool of {pool} bytes, table of {table}, image of {image} bytes");
    assert_eq!(lent.play(&vec![1; image]), Ok(5), "{what}");
    assert_eq!(lent.out[..95], *REFUSED, "{what}");
    assert_eq!(lent.out[95], 0x5a, "{what}");
    assert!(lent.pool_and_table_are_as_filled(), "{what}");
}

#[test]
fn a_wrong_length_refuses_every_line_and_touches_neither_pool_nor_table() {
    for pool in [0, 1, 255, 257, 128 * 256 - 1, 128 * 256 + 1, 129 * 256, 256 * 256, 65_536 * 256] {
        assert_refused(pool, TABLE_ENTRIES, 0);
    }
    for table in [0, 1, 511, 513, 1024] {
        assert_refused(POOL, table, 256);
    }
    for image in [1, 255, 257, 300, 64 * 256 - 1, 64 * 256 + 1, 65 * 256, 65_536 * 256] {
        assert_refused(POOL, TABLE_ENTRIES, image);
    }
    assert_refused(0, 0, 1);
}

#[test]
fn the_first_and_last_right_lengths_are_accepted() {
    for (frames, pages) in [(8, 0), (8, 64), (128, 0), (128, 64)] {
        let mut lent = Lent::filled(frames * FRAME_BYTES, TABLE_ENTRIES, 95);
        assert_eq!(lent.play(&vec![1; pages * FRAME_BYTES]), Ok(5));
        assert!(lent.out.starts_with(b"     1     0     0\n"), "{frames} frames, {pages} pages");
    }
    // One frame is a pool as well, though too small for this roll's share.
    let mut lent = Lent::filled(FRAME_BYTES, TABLE_ENTRIES, 95);
    assert_eq!(lent.play(&[]), Ok(5));
    assert!(lent.out.starts_with(b"     1    13     0\n"));
}

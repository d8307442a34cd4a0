//! Call 10, "Still clean?", checked by hand: the lowest page at which a sandbox and its
//! snapshot differ in being mapped, in rights or in bytes, and 64 if they nowhere differ.

use bench::{same_steps, unproved};
use model::{call_line, Call};

pub type Play = fn(&[u8], &[u8], &mut [u8], &mut [u16], &mut [u8]) -> usize;
pub type Fields = [u16; 7];
/// A reply's number and value.
pub type Reply = (u32, u32);

pub fn proved(r: &[u8], i: &[u8], pool: &mut [u8], table: &mut [u16], out: &mut [u8]) -> usize {
    gazhuppin::play(r, i, pool, table, out).expect("out has room")
}

const COMPARE: Fields = [10, 0, 0, 0, 0, 0, 0];
pub const SNAPSHOT: Fields = [7, 0, 0, 0, 0, 0, 0];
pub const REWIND: Fields = [8, 0, 0, 0, 0, 0, 0];
pub const OPEN: Fields = [1, 0, 128, 0, 0, 0, 0];

pub fn map(first: u16, pages: u16) -> Fields {
    [2, 0, first, pages, 0, 0, 3]
}

pub fn map_image(first: u16, image_page: u16) -> Fields {
    [2, 0, first, 1, 1, image_page, 3]
}

pub fn unmap(page: u16) -> Fields {
    [3, 0, page, 1, 0, 0, 0]
}

pub fn protect(page: u16, rights: u16) -> Fields {
    [4, 0, page, 1, rights, 0, 0]
}

pub fn write(address: u16, byte: u16) -> Fields {
    [6, 0, address, byte, 0, 0, 0]
}

/// A page of zeros, and one whose last byte is 5.
fn image() -> Vec<u8> {
    let mut image = vec![0; 512];
    image[511] = 5;
    image
}

/// What each line is told.
pub fn replies(play: Play, lines: &[Fields]) -> Vec<Reply> {
    let call = |&[code, sandbox, p1, p2, p3, p4, p5]: &Fields| {
        call_line(&Call { code, sandbox, parameters: [p1, p2, p3, p4, p5] })
    };
    let roll: Vec<u8> = lines.iter().flat_map(call).collect();
    let mut out = vec![0; 19 * lines.len()];
    let (mut pool, mut table) = (vec![1; 128 * 256], [1; 512]);
    assert_eq!(play(&roll, &image(), &mut pool, &mut table, &mut out), lines.len());
    let text = String::from_utf8(out).expect("replies are text");
    let reply = |line: &str| {
        let field = |at: usize| line[at..at + 6].trim().parse().expect("a number");
        (field(6), field(12))
    };
    text.lines().map(reply).collect()
}

/// What each line of call 10, of a code past it and each refused line is told.
fn told(play: Play, lines: &[Fields]) -> Vec<Reply> {
    let of_interest = lines.iter().zip(replies(play, lines));
    of_interest.filter(|(line, told)| line[0] >= 10 || told.0 != 0).map(|(_, told)| told).collect()
}

/// Lines, and what the comparisons and the refused lines among them are told.
fn checked_by_hand() -> Vec<(Vec<Fields>, Vec<Reply>)> {
    let after =
        |before: &[Fields], lines: &[Fields]| [&[OPEN], before, &[SNAPSHOT], lines].concat();
    let page = |page: u32| (0, page);
    let clean = (0, 64);
    vec![
        // A snapshot of no pages; then a page mapped since.
        (after(&[], &[COMPARE, map(5, 1), COMPARE]), vec![clean, page(5)]),
        (after(&[map(0, 4), write(0, 7)], &[COMPARE]), vec![clean]),
        // Rights alone, and given back.
        (
            after(&[map(0, 4)], &[protect(2, 1), COMPARE, protect(2, 3), COMPARE]),
            vec![page(2), clean],
        ),
        // The last byte of page 63, and written back, without a back and with one.
        (
            after(&[map(0, 64)], &[write(16383, 1), COMPARE, write(16383, 0), COMPARE]),
            vec![page(63), clean],
        ),
        (
            after(
                &[map(0, 64), write(16383, 9)],
                &[write(16383, 1), COMPARE, write(16383, 9), COMPARE],
            ),
            vec![page(63), clean],
        ),
        // A byte written that was there already.
        (after(&[map(0, 4), write(300, 7)], &[write(300, 7), COMPARE]), vec![clean]),
        // Unmapped; mapped anew with zeros; then with the snapshot's bytes, which are in its back.
        (
            after(
                &[map(0, 4), write(300, 7)],
                &[unmap(1), COMPARE, map(1, 1), COMPARE, write(300, 7), COMPARE],
            ),
            vec![page(1), page(1), clean],
        ),
        // A zero image page for a zero anonymous page; and one that is not zero.
        (
            after(
                &[map(0, 4)],
                &[unmap(1), map_image(1, 0), COMPARE, unmap(1), map_image(1, 1), COMPARE],
            ),
            vec![clean, page(1)],
        ),
        // An anonymous page for an image page: zeros, and the image page's bytes.
        (
            after(&[map_image(3, 1)], &[unmap(3), map(3, 1), COMPARE, write(1023, 5), COMPARE]),
            vec![page(3), clean],
        ),
        // An image page written before the snapshot, mapped anew without its back's byte.
        (
            after(
                &[map_image(3, 1), write(768, 8)],
                &[COMPARE, unmap(3), map_image(3, 1), COMPARE, write(768, 8), COMPARE],
            ),
            vec![clean, page(3), clean],
        ),
        // The lowest of several; a rewind puts all back.
        (
            after(
                &[map(0, 8)],
                &[write(7 * 256, 1), unmap(5), protect(6, 1), COMPARE, map(20, 1), REWIND, COMPARE],
            ),
            vec![page(5), clean],
        ),
        // Rights differ and bytes do not; bytes differ and rights do not.
        (
            after(&[map(0, 2)], &[write(256, 1), COMPARE, write(256, 0), protect(1, 1), COMPARE]),
            vec![page(1), page(1)],
        ),
        // Not open; a parameter that must be 0, before a missing snapshot; a missing snapshot.
        (vec![COMPARE], vec![(4, 0)]),
        (vec![OPEN, [10, 0, 0, 0, 0, 0, 1], COMPARE], vec![(6, 0), (8, 0)]),
        (after(&[], &[[10, 0, 1, 0, 0, 0, 0], COMPARE]), vec![(6, 0), clean]),
        (vec![[10, 4, 0, 0, 0, 0, 0], [11, 0, 0, 0, 0, 0, 0]], vec![(4, 0), (2, 0)]),
    ]
}

fn answers_by_hand(play: Play) {
    for (lines, expected) in checked_by_hand() {
        assert_eq!(told(play, &lines), expected, "{lines:?}");
    }
}

#[test]
fn the_unproved_machine_compares_as_the_document_says() {
    answers_by_hand(unproved::play);
}

#[test]
fn the_trusting_machine_compares_the_same() {
    answers_by_hand(unproved::play_trusting);
}

#[test]
fn with_the_proved_machines_steps_it_compares_the_same() {
    answers_by_hand(same_steps::play);
}

#[test]
fn the_proved_machine_compares_the_same() {
    answers_by_hand(proved);
}

/// "no byte of its back frame can alter the answer": pages 0 and 1 have a back, page 0 alone
/// also a front. The bytes of page 1's back may be anything.
#[test]
fn a_page_without_a_front_is_passed_over() {
    let (mut state, image) = (vec![0; gazhuppin::state_bytes()], image());
    let (mut pool, mut table) = (vec![0; 128 * 256], vec![0; 512]);
    gazhuppin::start(&mut state, &mut pool, &mut table, &image).expect("right lengths");
    let mut call = |pool: &mut [u8], table: &mut [u16], fields: Fields| {
        let [code, sandbox, p1, p2, p3, p4, p5] = fields;
        let call = gazhuppin::Call { code, sandbox, parameters: [p1, p2, p3, p4, p5] };
        gazhuppin::call(&mut state, pool, table, &image, &call).result().expect("accepted")
    };
    for fields in [OPEN, map(0, 2), write(0, 7), write(256, 7), SNAPSHOT, write(0, 7)] {
        call(&mut pool, &mut table, fields);
    }
    let fronts_and_backs = [table[0], table[1], table[64], table[65]];
    assert_eq!(fronts_and_backs.map(|entry| entry != 0), [true, false, true, true]);
    let [compared, passed_over] = [64, 65].map(|entry| 256 * (usize::from(table[entry]) - 1));
    for offset in 0..256 {
        pool[passed_over + offset] ^= 255;
        assert_eq!(call(&mut pool, &mut table, COMPARE), 64, "byte {offset} of page 1's back");
        pool[compared + offset] ^= 255;
        assert_eq!(call(&mut pool, &mut table, COMPARE), 0, "byte {offset} of page 0's back");
        pool[compared + offset] ^= 255;
    }
}

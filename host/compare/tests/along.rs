//! The proved machine along random rolls, read off its own state, pool and table, so that nothing
//! leans on the model.

use compare::layout::{Area, Record, State};
use compare::{Kept, Lengths};
use model::{parse_line, Backing, Call, LINE_BYTES, PAGES, PAGE_BYTES};
use rolls::Case;

/// An accepted call, with what it found and left.
pub struct Made<'a> {
    pub before: &'a Kept,
    pub after: &'a Kept,
    pub image: &'a [u8],
    pub call: Call,
    pub value: u32,
}

/// Play the calls of so many cases, and look at each accepted one.
pub fn along_rolls(rolls: u64, mut look: impl FnMut(&Made)) {
    for case in (0..rolls).map(|seed| Case::of_lines(seed, 150)) {
        let mut kept = Kept::filled(Lengths::of(&case));
        if kept.start(&case.image).number != 0 {
            continue;
        }
        let mut before = kept.clone();
        for call in case.roll.chunks(LINE_BYTES).filter_map(parse_line) {
            before.clone_from(&kept);
            let told = kept.call(&case.image, &call);
            if told.number == 0 {
                let (image, value) = (&case.image[..], told.value);
                look(&Made { before: &before, after: &kept, image, call, value });
            }
        }
    }
}

/// The bytes of a frame.
pub fn frame(kept: &Kept, frame: usize) -> &[u8] {
    &kept.pool[frame * PAGE_BYTES..][..PAGE_BYTES]
}

/// The fronts of a sandbox, then its backs.
pub fn entries(kept: &Kept, sandbox: usize) -> &[u16] {
    &kept.table[2 * PAGES * sandbox..][..2 * PAGES]
}

pub fn record(kept: &Kept, sandbox: usize) -> Record {
    State::of(&kept.state).expect("a state").sandboxes[sandbox]
}

/// What a page of an area holds without a frame: "zero bytes or its image page".
pub fn backing_bytes<'a>(area: &Area, page: usize, image: &'a [u8]) -> &'a [u8] {
    match area.backing_of(page) {
        Backing::Anonymous => &[0; PAGE_BYTES],
        Backing::Image(image_page) => &image[image_page * PAGE_BYTES..][..PAGE_BYTES],
    }
}

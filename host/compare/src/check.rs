//! Replies and memory of a program against the plain machine.
//!
//! "After every list a front holds the 256 bytes that its page has in the plain
//! machine, a back those that it has in the copy, and a frame that no entry names is
//! zero."

use crate::difference::{Difference, Place, Side};
use crate::played::{filled_pool, filled_table, Lengths};
use gazhuppin::{Played, REPLY_BYTES};
use model::{play_on, Machine, PAGES, PAGE_BYTES, SANDBOXES};
use rolls::Case;

/// What the plain machine answers and keeps.
pub struct Expected {
    pub replies: Vec<u8>,
    pub machine: Machine,
}

impl Expected {
    pub fn of(case: &Case, lengths: Lengths) -> Expected {
        let mut machine = Machine::fresh(&case.image, lengths.frames());
        let replies = play_on(&case.roll, &mut machine);
        Expected { replies, machine }
    }
}

/// The first difference, replies before memory. The memory must have been filled by
/// `filled_pool` and `filled_table` before the roll.
pub fn check(played: &Played, expected: &Expected) -> Result<(), Difference> {
    check_replies(&played.replies, &expected.replies)?;
    if expected.machine.lengths_are_right() {
        check_memory(&played.pool, &played.table, &expected.machine)
    } else {
        check_untouched(played)
    }
}

fn check_replies(program: &[u8], model: &[u8]) -> Result<(), Difference> {
    let text = |reply: &[u8]| format!("`{}`", String::from_utf8_lossy(reply).trim_end());
    let mut lines = program.chunks(REPLY_BYTES).zip(model.chunks(REPLY_BYTES)).enumerate();
    if let Some((index, (program, model))) = lines.find(|(_, (program, model))| program != model) {
        let (program, model) = (text(program), text(model));
        return Err(Difference::Reply { line: index + 1, program, model });
    }
    require(program.len() == model.len(), || Difference::ReplyBytes {
        program: program.len(),
        model: model.len(),
    })
}

/// "where a length is wrong, [...] clears nothing".
pub(crate) fn check_untouched(played: &Played) -> Result<(), Difference> {
    let before = (filled_pool(played.pool.len()), filled_table(played.table.len()));
    if let Some(at) = (0..played.pool.len()).find(|&at| played.pool[at] != before.0[at]) {
        return Err(Difference::PoolTouched { at });
    }
    match (0..played.table.len()).find(|&at| played.table[at] != before.1[at]) {
        Some(at) => Err(Difference::TableTouched { at }),
        None => Ok(()),
    }
}

/// Pool and table are those of the plain machine.
pub(crate) fn check_memory(
    pool: &[u8],
    table: &[u16],
    machine: &Machine,
) -> Result<(), Difference> {
    let named = check_entries(pool, table, machine)?;
    for (frame, bytes) in pool.chunks_exact(PAGE_BYTES).enumerate() {
        if named[frame] || bytes == [0; PAGE_BYTES] {
            continue;
        }
        let offset = bytes.iter().position(|&byte| byte != 0).expect("one is not zero");
        return Err(Difference::NotCleared { frame, offset, byte: bytes[offset] });
    }
    Ok(())
}

/// Every entry stands where the plain machine has a mark, and its frame holds the page.
/// Gives for each frame whether an entry names it.
pub fn check_entries(
    pool: &[u8],
    table: &[u16],
    machine: &Machine,
) -> Result<Vec<bool>, Difference> {
    let mut named = vec![false; pool.len() / PAGE_BYTES];
    for sandbox in 0..SANDBOXES {
        let kept = machine.sandbox(sandbox);
        let entries = &table[sandbox * 2 * PAGES..][..2 * PAGES];
        let program = entries.iter().filter(|&&entry| entry != 0).count();
        let model = kept.marks();
        require(program == model, || Difference::Held { sandbox, program, model })?;
        if model == 0 {
            // No entry and no mark.
            continue;
        }
        for page in 0..PAGES {
            let now = &kept.pages[page];
            let front = now.front.then_some(&now.bytes);
            let entry = entries[page];
            check_entry(
                pool,
                &mut named,
                Place { sandbox, page, side: Side::Front },
                entry,
                front,
            )?;
            // A back mark without a copy would be a fault of the plain machine itself.
            let copied = kept.copy.as_ref().map(|copy| &copy[page].bytes);
            let back = now.back.then(|| copied.expect("a back mark has a copy"));
            let entry = entries[PAGES + page];
            check_entry(pool, &mut named, Place { sandbox, page, side: Side::Back }, entry, back)?;
        }
    }
    Ok(named)
}

/// One entry: `page` has the bytes of its frame where the plain machine has a mark.
fn check_entry(
    pool: &[u8],
    named: &mut [bool],
    place: Place,
    entry: u16,
    page: Option<&[u8; PAGE_BYTES]>,
) -> Result<(), Difference> {
    require((entry != 0) == page.is_some(), || Difference::Entry { place, entry })?;
    let Some(page) = page else { return Ok(()) };
    let (frame, frames) = (usize::from(entry) - 1, named.len());
    require(frame < frames, || Difference::OutsidePool { place, entry, frames })?;
    require(!named[frame], || Difference::NamedTwice { place, frame })?;
    named[frame] = true;
    let bytes = &pool[frame * PAGE_BYTES..][..PAGE_BYTES];
    if bytes == page {
        return Ok(());
    }
    let offset = (0..PAGE_BYTES).find(|&offset| bytes[offset] != page[offset]).expect("one");
    let (program, model) = (bytes[offset], page[offset]);
    Err(Difference::Bytes { place, offset, program, model })
}

impl Place {
    /// Where the entry stands in the table.
    pub fn index(self) -> usize {
        let side = match self.side {
            Side::Front => 0,
            Side::Back => PAGES,
        };
        2 * PAGES * self.sandbox + side + self.page
    }
}

pub(crate) fn require(
    holds: bool,
    difference: impl FnOnce() -> Difference,
) -> Result<(), Difference> {
    if holds {
        Ok(())
    } else {
        Err(difference())
    }
}

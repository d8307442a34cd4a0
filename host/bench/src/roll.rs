//! Rolls to be measured, built call by call.

use model::{call_line, Call, PAGE_BYTES};

/// Rights of an area.
pub const READ: u16 = 1;
pub const WRITE: u16 = 3;
/// "64 for the lowest gap that fits".
pub const ANYWHERE: u16 = 64;

/// The image pages that every measured roll is played over.
const IMAGE_PAGES: usize = 16;

pub fn open(sandbox: u16, share: u16) -> Call {
    call(1, sandbox, [share, 0, 0, 0, 0])
}

pub fn map(sandbox: u16, first: u16, pages: u16, rights: u16) -> Call {
    call(2, sandbox, [first, pages, 0, 0, rights])
}

pub fn map_image(sandbox: u16, first: u16, pages: u16, image_page: u16, rights: u16) -> Call {
    call(2, sandbox, [first, pages, 1, image_page, rights])
}

pub fn unmap(sandbox: u16, first: u16, pages: u16) -> Call {
    call(3, sandbox, [first, pages, 0, 0, 0])
}

pub fn protect(sandbox: u16, first: u16, pages: u16, rights: u16) -> Call {
    call(4, sandbox, [first, pages, rights, 0, 0])
}

/// A read in the middle of a page.
pub fn read(sandbox: u16, page: u16) -> Call {
    call(5, sandbox, [256 * page + 100, 0, 0, 0, 0])
}

/// A write in the middle of a page.
pub fn write(sandbox: u16, page: u16) -> Call {
    store(sandbox, page, 1 + page)
}

/// A write at the same place of another byte than `write`'s, which is not zero either.
pub fn change(sandbox: u16, page: u16) -> Call {
    change_at(sandbox, page, 100)
}

/// The same at this place of the page.
pub fn change_at(sandbox: u16, page: u16, offset: u16) -> Call {
    call(6, sandbox, [256 * page + offset, 65 + page, 0, 0, 0])
}

/// A write of a byte at the place of `write`.
pub fn store(sandbox: u16, page: u16, byte: u16) -> Call {
    call(6, sandbox, [256 * page + 100, byte, 0, 0, 0])
}

pub fn snapshot(sandbox: u16) -> Call {
    call(7, sandbox, [0; 5])
}

pub fn rewind(sandbox: u16) -> Call {
    call(8, sandbox, [0; 5])
}

pub fn report(sandbox: u16) -> Call {
    call(9, sandbox, [0; 5])
}

pub fn compare(sandbox: u16) -> Call {
    call(10, sandbox, [0; 5])
}

pub fn call(code: u16, sandbox: u16, parameters: [u16; 5]) -> Call {
    Call { code, sandbox, parameters }
}

/// The text of some calls.
pub fn text(calls: &[Call]) -> Vec<u8> {
    calls.iter().flat_map(call_line).collect()
}

/// The image: pages with different bytes.
pub fn image() -> Vec<u8> {
    (0..IMAGE_PAGES * PAGE_BYTES).map(|at| (at / PAGE_BYTES * 7 + at) as u8).collect()
}

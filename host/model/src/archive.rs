//! The archive of a snapshot: "a roll that rebuilds it, every line naming the sandbox by its own
//! number". (Request A9; its sentences are quoted below.) It is no call: it has no code, and it
//! changes nothing but the output memory that is lent for it.

use crate::machine::{Machine, Refusal, Reply};
use crate::page::{areas_of, Backing, Page, Pages, PAGES, PAGE_BYTES};
use crate::request::ADDRESSES;
use crate::roll::{call_line, Call, LINE_BYTES};
use crate::sandbox::AREAS;

/// The lines of the longest archive: an open, eight maps, a write for each address, eight
/// protects and a snapshot.
pub const ARCHIVE_LINES: usize = 1 + AREAS + ADDRESSES + AREAS + 1;

/// The lines of an archive, in the order of its parts.
#[derive(Clone, PartialEq, Eq, Debug)]
pub struct Archive {
    /// "open with its share".
    pub open: Call,
    /// "one map a snapshot area in page order, at named pages with rights 3".
    pub maps: Vec<Call>,
    /// "a write for each byte that differs from its page's zero or image byte, in address order".
    pub writes: Vec<Call>,
    /// "a protect for each area with rights 1, in page order".
    pub protects: Vec<Call>,
    /// "snapshot".
    pub snapshot: Call,
}

impl Archive {
    /// The archive of a sandbox's snapshot, by its number, its share and the copy of its pages.
    pub fn of(number: u16, share: usize, copy: &Pages, image: &[[u8; PAGE_BYTES]]) -> Archive {
        let areas = areas_of(copy);
        let maps = areas.iter().map(|area| {
            let (kind, image_page) = backing_fields(copy[area.start].backing);
            line(2, number, [area.start, area.len(), kind, image_page, 3])
        });
        let mapped = (0..PAGES).filter(|&at| copy[at].mapped);
        let addresses = mapped.flat_map(|page| page * PAGE_BYTES..(page + 1) * PAGE_BYTES);
        let written = addresses.filter(|&at| {
            let page = &copy[at / PAGE_BYTES];
            byte_of(page, at) != backing_byte(page, at, image)
        });
        let writes = written.map(|at| {
            let byte = usize::from(byte_of(&copy[at / PAGE_BYTES], at));
            line(6, number, [at, byte, 0, 0, 0])
        });
        let read_only = areas.iter().filter(|area| copy[area.start].rights == 1);
        let protects = read_only.map(|area| line(4, number, [area.start, area.len(), 1, 0, 0]));
        Archive {
            open: line(1, number, [share, 0, 0, 0, 0]),
            maps: maps.collect(),
            writes: writes.collect(),
            protects: protects.collect(),
            snapshot: line(7, number, [0; 5]),
        }
    }

    /// All its lines, in order.
    pub fn calls(&self) -> Vec<Call> {
        let mut calls = vec![self.open];
        calls.extend(&self.maps);
        calls.extend(&self.writes);
        calls.extend(&self.protects);
        calls.push(self.snapshot);
        calls
    }

    /// Its text: "Each line has the only form the reader accepts."
    pub fn text(&self) -> Vec<u8> {
        self.calls().iter().flat_map(call_line).collect()
    }
}

impl Machine {
    /// The archive of a sandbox's snapshot, or the first refusal that applies, but for the
    /// length of the output.
    pub fn archived(&self, sandbox: u16) -> Result<Archive, Refusal> {
        // 3: "lent length wrong".
        let image = self.image.as_deref().ok_or(Refusal::WrongLength)?;
        // 4: "sandbox above 3; or [...] not open".
        let kept = self.sandboxes.get(usize::from(sandbox)).filter(|kept| kept.open);
        let kept = kept.ok_or(Refusal::NoOpenSandbox)?;
        // 8: "Without a snapshot it is refusal 8".
        let copy = kept.copy.as_ref().ok_or(Refusal::NoSnapshot)?;
        Ok(Archive::of(sandbox, kept.share, copy, image))
    }

    /// The archive written to the start of lent output: "The answer is the number of lines;
    /// output memory past them is untouched", and "any refusal leaves all output memory
    /// untouched".
    pub fn archive(&self, sandbox: u16, out: &mut [u8]) -> Reply {
        let text = match self.archived(sandbox) {
            Ok(archive) => archive.text(),
            Err(refusal) => return (refusal as u16, 0),
        };
        // "Turned away: 15, output memory shorter than the roll, after 14."
        if out.len() < text.len() {
            return (Refusal::OutputTooShort as u16, 0);
        }
        out[..text.len()].copy_from_slice(&text);
        (0, (text.len() / LINE_BYTES) as u32)
    }
}

/// A line that names the sandbox.
pub(crate) fn line(code: u16, sandbox: u16, parameters: [usize; 5]) -> Call {
    Call { code, sandbox, parameters: parameters.map(|parameter| parameter as u16) }
}

/// MACHINE 4.4, map: p3 and p4, "0 anonymous, 1 image" and "first image page (0 when anonymous)".
pub(crate) fn backing_fields(backing: Backing) -> (usize, usize) {
    match backing {
        Backing::Anonymous => (0, 0),
        Backing::Image(image_page) => (1, image_page),
    }
}

/// MACHINE 3.1: the byte that a page has at an address on it.
pub(crate) fn byte_of(page: &Page, address: usize) -> u8 {
    page.bytes[address % PAGE_BYTES]
}

/// "its page's zero or image byte": what a page of this backing has at an address before it is
/// written.
pub(crate) fn backing_byte(page: &Page, address: usize, image: &[[u8; PAGE_BYTES]]) -> u8 {
    match page.backing {
        Backing::Anonymous => 0,
        Backing::Image(image_page) => image[image_page][address % PAGE_BYTES],
    }
}

/// Whether two snapshots "agree in these": mappings with their backing, rights and bytes.
pub fn snapshots_agree(one: &Pages, other: &Pages) -> bool {
    let agree = |at: usize| {
        let (page, kept) = (&one[at], &other[at]);
        page.agrees_with(kept) && (!page.mapped || page.backing == kept.backing)
    };
    (0..PAGES).all(agree)
}

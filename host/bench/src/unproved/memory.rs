//! The lent memory: the pool's frames, the page table and the image.

use super::held::Held;
use super::page::{Backing, FrameNo, PageNo, PAGES, PAGE_BYTES};
use std::ops::Range;

pub const TABLE_ENTRIES: usize = 512;
/// Of one sandbox: "64 front entries, then 64 back entries".
pub const SANDBOX_ENTRIES: usize = 2 * PAGES;
static ZERO_PAGE: [u8; PAGE_BYTES] = [0; PAGE_BYTES];

pub struct Memory<'a> {
    pub pool: &'a mut [u8],
    pub table: &'a mut [u16],
    pub image: &'a [u8],
}

impl Memory<'_> {
    pub fn frames(&self) -> usize {
        self.pool.len() / PAGE_BYTES
    }

    pub fn images(&self) -> usize {
        self.image.len() / PAGE_BYTES
    }

    pub fn has_right_lengths(&self) -> bool {
        let whole = |bytes: usize| bytes.is_multiple_of(PAGE_BYTES);
        whole(self.pool.len())
            && (1..=128).contains(&self.frames())
            && self.table.len() == TABLE_ENTRIES
            && whole(self.image.len())
            && self.images() <= 64
    }

    pub fn clear(&mut self) {
        self.pool.fill(0);
        self.table.fill(0);
    }

    /// The entries of a sandbox.
    pub fn entries(&self, sandbox: usize) -> &[u16] {
        &self.table[sandbox * SANDBOX_ENTRIES..][..SANDBOX_ENTRIES]
    }

    /// How many frames the entries of a sandbox name.
    pub fn used(&self, sandbox: usize) -> usize {
        self.entries(sandbox).iter().filter(|&&entry| entry != 0).count()
    }

    pub fn front(&self, sandbox: usize, page: PageNo) -> Option<FrameNo> {
        frame_of(self.table[front_index(sandbox, page)])
    }

    pub fn back(&self, sandbox: usize, page: PageNo) -> Option<FrameNo> {
        frame_of(self.table[front_index(sandbox, page) + PAGES])
    }

    pub fn set_front(&mut self, sandbox: usize, page: PageNo, frame: FrameNo) {
        self.table[front_index(sandbox, page)] = u16::from(frame.0) + 1;
    }

    pub fn byte(&self, frame: FrameNo, offset: usize) -> u8 {
        self.pool[bytes_of(frame)][offset]
    }

    pub fn store(&mut self, frame: FrameNo, offset: usize, byte: u8) {
        self.pool[bytes_of(frame)][offset] = byte;
    }

    /// The byte of a page without a frame.
    pub fn backing_byte(&self, backing: Backing, offset: usize) -> u8 {
        match backing {
            Backing::Anonymous => 0,
            Backing::Image(page) => self.image[usize::from(page.0) * PAGE_BYTES + offset],
        }
    }

    /// The bytes of a frame, or those of the backing where there is none.
    pub fn bytes(&self, frame: Option<FrameNo>, backing: Backing) -> &[u8] {
        match (frame, backing) {
            (Some(frame), _) => &self.pool[bytes_of(frame)],
            (None, Backing::Anonymous) => &ZERO_PAGE,
            (None, Backing::Image(page)) => {
                let start = usize::from(page.0) * PAGE_BYTES;
                &self.image[start..start + PAGE_BYTES]
            }
        }
    }

    /// A frame gets the bytes of another, or those of the backing where there is none.
    pub fn fill(&mut self, frame: FrameNo, from: Option<FrameNo>, backing: Backing) {
        match (from, backing) {
            (Some(from), _) => self.pool.copy_within(bytes_of(from), bytes_of(frame).start),
            (None, Backing::Anonymous) => self.pool[bytes_of(frame)].fill(0),
            (None, Backing::Image(page)) => {
                let start = usize::from(page.0) * PAGE_BYTES;
                let bytes = &self.image[start..start + PAGE_BYTES];
                self.pool[bytes_of(frame)].copy_from_slice(bytes);
            }
        }
    }

    /// Whether a frame holds other bytes than another, or than the backing where there is none.
    pub fn differs(&self, frame: FrameNo, from: Option<FrameNo>, backing: Backing) -> bool {
        self.pool[bytes_of(frame)] != *self.bytes(from, backing)
    }

    /// A page's front, if it has one, is freed: its frame is cleared and no longer held.
    pub fn free_front(&mut self, held: &mut Held, sandbox: usize, page: PageNo) {
        if let Some(frame) = self.front(sandbox, page) {
            self.table[front_index(sandbox, page)] = 0;
            self.pool[bytes_of(frame)].fill(0);
            held.remove(frame);
        }
    }

    /// The pages from the first on get the frames of a run as fronts, the smallest frame first,
    /// as far as these reach. They are zero already, so that no byte of the pool is touched.
    pub fn grant(&mut self, held: &mut Held, sandbox: usize, pages: Range<u8>, run: &mut Held) {
        for page in pages.map(PageNo) {
            let Some(frame) = run.take_least() else {
                return;
            };
            self.set_front(sandbox, page, frame);
            held.insert(frame);
        }
    }

    /// The fronts of all pages of a sandbox become its backs.
    pub fn move_fronts(&mut self, sandbox: usize) {
        let entries = &mut self.table[sandbox * SANDBOX_ENTRIES..][..SANDBOX_ENTRIES];
        let (fronts, backs) = entries.split_at_mut(PAGES);
        backs.copy_from_slice(fronts);
        fronts.fill(0);
    }
}

/// Where a page's front entry stands; its back entry stands 64 further on.
fn front_index(sandbox: usize, page: PageNo) -> usize {
    sandbox * SANDBOX_ENTRIES + usize::from(page.0)
}

fn frame_of(entry: u16) -> Option<FrameNo> {
    entry.checked_sub(1).map(|frame| FrameNo(frame as u8))
}

fn bytes_of(frame: FrameNo) -> Range<usize> {
    let start = usize::from(frame.0) * PAGE_BYTES;
    start..start + PAGE_BYTES
}

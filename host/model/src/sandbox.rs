//! What the plain machine keeps for one sandbox, and what each call does to it.
//!
//! The methods that change something suppose that the call is not refused.

use crate::page::{areas_of, count_areas, Backing, Page, Pages, PAGES, PAGE_BYTES};
use crate::runs::Runs;
use std::ops::Range;
use std::sync::Arc;

/// MACHINE 2.7: "A sandbox has at most 8" areas.
pub const AREAS: usize = 8;

/// MACHINE 9.2: "For each sandbox it keeps whether it is open, its share, and for each of
/// 64 pages [...]; from its snapshot on, also a copy of these pages."
#[derive(Clone, PartialEq, Eq, Debug)]
pub struct Sandbox {
    pub open: bool,
    pub share: usize,
    pub pages: Pages,
    /// Shared, since a copy once taken never changes.
    pub copy: Option<Arc<Pages>>,
    /// "the plain machine also carries run lengths and ages".
    pub runs: Runs,
}

impl Sandbox {
    /// MACHINE 9.3: "Fresh, all are closed, nothing is mapped or marked, and there is no
    /// copy."
    pub fn closed() -> Sandbox {
        let runs = Runs::default();
        Sandbox { open: false, share: 0, pages: [Page::FRESH; PAGES], copy: None, runs }
    }

    // Counts.

    /// MACHINE 9.4: the areas, counted by 2.7.
    pub fn areas(&self) -> usize {
        count_areas(&self.pages)
    }

    /// MACHINE 5.1: "its mapped pages".
    pub fn mapped_pages(&self) -> usize {
        self.pages.iter().filter(|page| page.mapped).count()
    }

    /// MACHINE 5.1: "The charge of a sandbox is its mapped pages before a snapshot.
    /// Afterwards it is 2 × the snapshot's pages, mapped or not, plus the uncommitted
    /// mapped pages."
    pub fn charge(&self) -> usize {
        match &self.copy {
            None => self.mapped_pages(),
            Some(copy) => {
                let snapshot_pages = copy.iter().filter(|page| page.mapped).count();
                let uncommitted =
                    self.pages.iter().filter(|page| page.mapped && !page.committed).count();
                2 * snapshot_pages + uncommitted
            }
        }
    }

    /// MACHINE 9.14: "report counts front and back marks"; kept frames "count in call 9 but not
    /// in the charge".
    pub fn held(&self) -> usize {
        self.marks() + self.runs.frames()
    }

    /// Front and back marks alone: as many frames have an entry.
    pub fn marks(&self) -> usize {
        self.pages.iter().map(|page| usize::from(page.front) + usize::from(page.back)).sum()
    }

    /// "the frames of each uncommitted anonymous area, if any [...] as one run, whose length is
    /// its number of frames": for each such area, in page order, how many fronts it has.
    pub fn fronts_to_keep(&self) -> Vec<usize> {
        let areas = areas_of(&self.pages).into_iter().map(|area| &self.pages[area]);
        let kept = areas.filter(|area| area[0].is_spared());
        kept.map(|area| area.iter().filter(|page| page.front).count()).collect()
    }

    // Questions about pages.

    /// MACHINE 6, row 9, of protect: whether no page of these is unmapped.
    pub fn all_mapped(&self, pages: Range<usize>) -> bool {
        self.pages[pages].iter().all(|page| page.mapped)
    }

    /// MACHINE 6, row 10: whether no page of these is mapped.
    pub fn none_mapped(&self, pages: Range<usize>) -> bool {
        self.pages[pages].iter().all(|page| !page.mapped)
    }

    /// MACHINE 4.14: "the lowest gap that fits": the first page of the lowest `count`
    /// unmapped pages in a row.
    pub fn lowest_gap(&self, count: usize) -> Option<usize> {
        (0..=PAGES - count).find(|&first| self.none_mapped(first..first + count))
    }

    /// MACHINE 4.20: "the lowest page number at which the sandbox and its snapshot differ
    /// [...], and 64 if they nowhere differ".
    pub fn lowest_difference(&self, copy: &Pages) -> usize {
        let differs = |&at: &usize| !self.pages[at].agrees_with(&copy[at]);
        (0..PAGES).find(differs).unwrap_or(PAGES)
    }

    /// MACHINE 9.14: "the number of committed pages still mapped whose bytes differed from the
    /// snapshot": unmap takes the mark away, so that a committed page is still mapped.
    pub fn pages_to_put_back(&self, copy: &Pages) -> usize {
        let pages = self.pages.iter().zip(copy);
        pages.filter(|(page, kept)| page.committed && page.bytes != kept.bytes).count()
    }

    // What the calls do.

    /// MACHINE 9.6: "Open makes the sandbox open and stores the share."
    pub fn open(&mut self, share: usize) {
        self.open = true;
        self.share = share;
    }

    /// MACHINE 9.7: "Map makes the pages mapped and uncommitted, with backing, rights and
    /// bytes, zero or the image's." A back mark stays: it is the snapshot's.
    pub fn map(
        &mut self,
        pages: Range<usize>,
        first_backing: Backing,
        rights: u16,
        image: &[[u8; PAGE_BYTES]],
    ) {
        let first = pages.start;
        for at in pages {
            let page = &mut self.pages[at];
            page.mapped = true;
            page.committed = false;
            page.backing = first_backing.further(at - first);
            page.rights = rights;
            page.bytes = match page.backing {
                Backing::Anonymous => [0; PAGE_BYTES],
                Backing::Image(image_page) => image[image_page],
            };
        }
    }

    /// "An anonymous map at 64 takes" a run: "The first new pages get these frames as fronts".
    /// They are zero, as the pages' bytes are.
    pub fn take_run(&mut self, pages: Range<usize>) {
        let taken = self.runs.take(pages.len());
        self.pages[pages].iter_mut().take(taken).for_each(|page| page.front = true);
    }

    /// MACHINE 9.8 and 4.8: "Unmap takes away mapping, mark and front mark", and "passes over
    /// unmapped pages": such a page stays as it is. A back mark stays: it is the snapshot's.
    pub fn unmap(&mut self, pages: Range<usize>) {
        for page in self.pages[pages].iter_mut().filter(|page| page.mapped) {
            page.mapped = false;
            page.committed = false;
            page.front = false;
        }
    }

    /// MACHINE 9.9: "Protect stores the rights."
    pub fn protect(&mut self, pages: Range<usize>, rights: u16) {
        for page in &mut self.pages[pages] {
            page.rights = rights;
        }
    }

    /// MACHINE 9.10: "Write stores the byte and sets its page's front mark." And: "When a write
    /// would bring fronts, backs and kept frames above the share, one frame of the longest run is
    /// given up first".
    pub fn write(&mut self, page: usize, offset: usize, byte: u8) {
        if !self.pages[page].front && self.held() + 1 > self.share {
            self.runs.give_up();
        }
        self.pages[page].bytes[offset] = byte;
        self.pages[page].front = true;
    }

    /// MACHINE 9.11: "Snapshot commits every mapped page, turns front marks into back
    /// marks and copies all pages." Gives the "pages committed".
    pub fn snapshot(&mut self) -> usize {
        for page in &mut self.pages {
            page.committed = page.mapped;
            page.back = page.front;
            page.front = false;
        }
        self.copy = Some(Arc::new(self.pages));
        self.mapped_pages()
    }

    /// MACHINE 9.12: "Rewind puts the whole copy in place; a front mark stays only where
    /// the page was still committed." And: "At rewind, the frames of each uncommitted anonymous
    /// area, if any, are cleared and kept as one run". Gives the pages put back.
    pub fn rewind(&mut self, copy: &Pages) -> usize {
        let put_back = self.pages_to_put_back(copy);
        self.runs.keep(self.fronts_to_keep());
        for (page, kept) in self.pages.iter_mut().zip(copy) {
            let front = page.front && page.committed;
            *page = Page { front, ..*kept };
        }
        put_back
    }
}

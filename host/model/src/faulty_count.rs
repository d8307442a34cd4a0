//! The value of a wrong rewind: which pages it takes to have been put back.

use crate::fault::Fault;
use crate::page::{Backing, Page, Pages, PAGES, PAGE_BYTES};

/// What a wrong rewind finds: the pages as they were before it, the snapshot's, and the pages
/// written since the snapshot or the rewind before, one bit a page.
pub struct Found<'a> {
    pub pages: &'a Pages,
    pub copy: &'a Pages,
    pub image: &'a [[u8; PAGE_BYTES]],
    pub written: u64,
}

impl Found<'_> {
    /// Against MACHINE 9.14: how many pages a wrong rewind counts.
    pub fn wrong_count(&self, fault: Fault) -> usize {
        let pages = match fault {
            Fault::PutBackForgetsPage0 => 1..PAGES,
            Fault::PutBackForgetsPage63 => 0..PAGES - 1,
            _ => 0..PAGES,
        };
        let counted = pages.filter(|&at| self.counts(fault, at));
        match fault {
            Fault::PutBackAnswersZero => 0,
            Fault::PutBackAnswersOneAtMost | Fault::PutBackStopsAtPage => counted.count().min(1),
            Fault::PutBackCountsBytes => counted.map(|at| self.differing_bytes(at)).sum(),
            _ => counted.count(),
        }
    }

    /// Against MACHINE 4.13: whether a wrong rewind counts a page.
    fn counts(&self, fault: Fault, at: usize) -> bool {
        let (page, kept) = (&self.pages[at], &self.copy[at]);
        let other_bytes = page.bytes != kept.bytes;
        let right = page.committed && other_bytes;
        let with_front = page.committed && page.front;
        match fault {
            Fault::PutBackCountsFronts => with_front,
            Fault::PutBackCountsWritten => page.committed && self.written >> at & 1 == 1,
            Fault::PutBackCountsMappedAnew => page.mapped && kept.mapped && other_bytes,
            Fault::PutBackCountsNewPages => right || page.mapped && !kept.mapped,
            Fault::PutBackCountsUnmapped => right || !page.mapped && kept.mapped,
            Fault::PutBackCountsRights => right || page.committed && page.rights != kept.rights,
            Fault::PutBackForgetsProtected => right && page.rights == 3,
            Fault::PutBackLooksAtFirstByte => right && page.bytes[0] != kept.bytes[0],
            Fault::PutBackLooksAtLastByte => right && page.bytes[255] != kept.bytes[255],
            Fault::PutBackForgetsFirstByte => right && page.bytes[1..] != kept.bytes[1..],
            Fault::PutBackForgetsLastByte => right && page.bytes[..255] != kept.bytes[..255],
            Fault::PutBackForgetsBack => with_front && page.bytes != self.backing_bytes(kept),
            Fault::PutBackTakesImageForZero if !kept.back => {
                with_front && page.bytes != [0; PAGE_BYTES]
            }
            Fault::PutBackForgetsZeroed => {
                right && (kept.back || kept.backing != Backing::Anonymous)
            }
            Fault::PutBackForgetsImage => {
                right && (kept.back || kept.backing == Backing::Anonymous)
            }
            _ => right,
        }
    }

    /// Against MACHINE 4.13: what a rewind that stops too early leaves of its pages.
    pub fn leave_bytes(&self, fault: Fault, pages: &mut Pages) {
        let differing = (0..PAGES).filter(|&at| self.counts(Fault::None, at));
        let dirty = |at: usize| self.pages[at].bytes;
        match fault {
            Fault::PutBackStopsAtDifference => differing.for_each(|at| {
                let mut pairs = dirty(at).into_iter().zip(self.copy[at].bytes);
                let behind = 1 + pairs.position(|(byte, kept)| byte != kept).expect("they differ");
                pages[at].bytes[behind..].copy_from_slice(&dirty(at)[behind..]);
            }),
            Fault::PutBackStopsAtPage => {
                differing.skip(1).for_each(|at| pages[at].bytes = dirty(at));
            }
            _ => {}
        }
    }

    fn differing_bytes(&self, at: usize) -> usize {
        let pairs = self.pages[at].bytes.iter().zip(&self.copy[at].bytes);
        pairs.filter(|(byte, kept)| byte != kept).count()
    }

    /// What a snapshot page would hold without its back.
    fn backing_bytes(&self, kept: &Page) -> [u8; PAGE_BYTES] {
        match kept.backing {
            Backing::Anonymous => [0; PAGE_BYTES],
            Backing::Image(image_page) => self.image[image_page],
        }
    }
}

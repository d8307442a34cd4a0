//! One page, and how neighbouring pages form areas.

use std::ops::Range;

/// MACHINE 3.1: "frames of 256 bytes": a page has as many.
pub const PAGE_BYTES: usize = 256;
/// MACHINE 3.1: "Each has 64 pages".
pub const PAGES: usize = 64;

/// MACHINE 2.4: "Each area has a backing: anonymous, or image with its first image page."
/// For a single page that is the image page standing under it.
#[derive(Clone, Copy, PartialEq, Eq, Debug)]
pub enum Backing {
    Anonymous,
    Image(usize),
}

impl Backing {
    /// MACHINE 2.6: The backing of the page `distance` pages further on in the same area.
    pub fn further(self, distance: usize) -> Backing {
        match self {
            Backing::Anonymous => Backing::Anonymous,
            Backing::Image(first) => Backing::Image(first + distance),
        }
    }
}

/// MACHINE 9.2: "for each of 64 pages whether it is mapped, its backing, rights, mark,
/// 256 bytes, and two marks more, front and back".
#[derive(Clone, Copy, PartialEq, Eq, Debug)]
pub struct Page {
    pub mapped: bool,
    pub backing: Backing,
    /// "1 for read or 3 for read and write"; 0 on a page that was never mapped.
    pub rights: u16,
    /// The mark "committed or not".
    pub committed: bool,
    pub bytes: [u8; PAGE_BYTES],
    /// The page would have a front frame.
    pub front: bool,
    /// The page would have a back frame.
    pub back: bool,
}

impl Page {
    /// MACHINE 9.3: "nothing is mapped or marked".
    pub const FRESH: Page = Page {
        mapped: false,
        backing: Backing::Anonymous,
        rights: 0,
        committed: false,
        bytes: [0; PAGE_BYTES],
        front: false,
        back: false,
    };

    /// MACHINE 2.7: Both mapped, and "agree in rights, mark and backing (image pages
    /// running on)".
    fn same_area_as_next(&self, next: &Page) -> bool {
        self.mapped
            && next.mapped
            && self.rights == next.rights
            && self.committed == next.committed
            && self.backing.further(1) == next.backing
    }

    /// Of an "uncommitted anonymous area", whose frames a rewind keeps.
    pub fn is_spared(&self) -> bool {
        self.mapped && !self.committed && self.backing == Backing::Anonymous
    }

    /// MACHINE 4.20: Whether this page and the snapshot's of the same number do not "differ
    /// in being mapped, in rights or in bytes; a page unmapped in both agrees".
    pub fn agrees_with(&self, kept: &Page) -> bool {
        let both_mapped = self.mapped && kept.mapped;
        let neither_mapped = !self.mapped && !kept.mapped;
        neither_mapped || both_mapped && self.rights == kept.rights && self.bytes == kept.bytes
    }
}

/// MACHINE 9.2: The 64 pages of a sandbox, or of its snapshot.
pub type Pages = [Page; PAGES];

/// MACHINE 2.7: "Areas are the longest runs of neighbouring pages that agree": an area
/// begins at every mapped page that does not go on from the page before it, and ends with the
/// last page that does. In page order.
pub fn areas_of(pages: &Pages) -> Vec<Range<usize>> {
    let mut areas: Vec<Range<usize>> = Vec::new();
    for at in (0..PAGES).filter(|&at| pages[at].mapped) {
        match areas.last_mut() {
            Some(area) if area.end == at && pages[at - 1].same_area_as_next(&pages[at]) => {
                area.end += 1;
            }
            _ => areas.push(at..at + 1),
        }
    }
    areas
}

/// MACHINE 2.7: how many areas there are: as many as begin.
pub fn count_areas(pages: &Pages) -> usize {
    let goes_on = |at: usize| at > 0 && pages[at - 1].same_area_as_next(&pages[at]);
    (0..PAGES).filter(|&at| pages[at].mapped && !goes_on(at)).count()
}

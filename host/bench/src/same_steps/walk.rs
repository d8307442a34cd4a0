//! Areas walked along with the pages, so that no page is searched for from the first area
//! on.

use super::areas::{Area, Areas};
use super::page::{Attributes, PageNo};

/// The walk's area, and those behind it.
pub struct Walk<'a> {
    here: &'a Area,
    behind: &'a [Area],
}

impl<'a> Walk<'a> {
    /// The walk at page 0. Without areas it stays at the first place, which covers no page.
    pub fn along(areas: &'a Areas) -> Walk<'a> {
        let behind = areas.list[..usize::from(areas.count)].get(1..).unwrap_or_default();
        Walk { here: &areas.list[0], behind }
    }

    /// What stands at the walk's page; `None` where it is not mapped.
    pub fn slot(&self, page: PageNo) -> Option<Attributes> {
        let here = self.here;
        here.covers(page).then(|| here.attributes.advanced(page.0 - here.first.0))
    }

    /// The walk goes on to a page, the next one: to the next area, if this one has ended.
    pub fn go_on(&mut self, page: usize) {
        if let [next, behind @ ..] = self.behind {
            if self.here.end() <= page {
                (self.here, self.behind) = (next, behind);
            }
        }
    }
}

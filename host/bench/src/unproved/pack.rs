//! Areas packed anew: what stands at each page is changed, and the pages are pushed
//! from left to right.

use super::areas::{Area, Areas, MOST_AREAS};
use super::page::{Attributes, PageNo, PAGES};

/// What becomes of some pages.
#[derive(Clone, Copy)]
pub enum Change {
    /// Mapped, the first with these attributes.
    Map(Attributes),
    Unmap,
    Protect(u8),
    Commit,
}

impl Change {
    /// What the change makes of a page that is so many pages after its first.
    fn apply(self, pages: u8, old: Option<Attributes>) -> Option<Attributes> {
        match self {
            Change::Map(first) => Some(first.advanced(pages)),
            Change::Unmap => None,
            Change::Protect(rights) => old.map(|page| Attributes { rights, ..page }),
            Change::Commit => old.map(|page| Attributes { committed: true, ..page }),
        }
    }
}

impl Areas {
    /// The areas after a change of some pages; `None` where a ninth would be needed.
    pub fn changed(&self, first: PageNo, pages: u8, change: Change) -> Option<Areas> {
        let mut packed = Areas::EMPTY;
        for page in (0..PAGES as u8).map(PageNo) {
            let old = self.slot(page);
            let new = if (first.0..first.0 + pages).contains(&page.0) {
                change.apply(page.0 - first.0, old)
            } else {
                old
            };
            if let Some(attributes) = new {
                packed.push(page, attributes)?;
            }
        }
        Some(packed)
    }

    /// One mapped page more.
    fn push(&mut self, page: PageNo, attributes: Attributes) -> Option<()> {
        let count = usize::from(self.count);
        if let Some(last) = self.list[..count].last_mut() {
            if last.goes_on(page, attributes) {
                last.pages += 1;
                return Some(());
            }
        }
        if count == MOST_AREAS {
            return None;
        }
        self.list[count] = Area { first: page, pages: 1, attributes };
        self.count += 1;
        Some(())
    }
}

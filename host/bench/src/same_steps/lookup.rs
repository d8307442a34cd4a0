//! What stands at a page, where all 8 places are tried; and how many pages are mapped, by
//! the lengths in all 8 places.

use super::areas::Areas;
use super::page::{Attributes, PageNo};

impl Areas {
    /// What stands at a page; `None` where it is not mapped.
    pub fn slot(&self, page: PageNo) -> Option<Attributes> {
        let area = self.list.iter().find(|area| area.covers(page))?;
        Some(area.attributes.advanced(page.0 - area.first.0))
    }

    pub fn is_mapped(&self, page: PageNo) -> bool {
        self.list.iter().any(|area| area.covers(page))
    }

    pub fn mapped_pages(&self) -> usize {
        self.list.iter().map(|area| usize::from(area.pages)).sum()
    }

    pub fn uncommitted_pages(&self) -> usize {
        let uncommitted = self.list.iter().filter(|area| !area.attributes.committed);
        uncommitted.map(|area| usize::from(area.pages)).sum()
    }
}

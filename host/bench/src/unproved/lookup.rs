//! What stands at a page, and how many pages are mapped: only places that hold an area
//! are looked at, and pages are counted by the areas' lengths.

use super::areas::{Area, Areas};
use super::page::{Attributes, PageNo};

impl Areas {
    pub fn as_slice(&self) -> &[Area] {
        &self.list[..usize::from(self.count)]
    }

    /// What stands at a page; `None` where it is not mapped.
    pub fn slot(&self, page: PageNo) -> Option<Attributes> {
        let area = self.as_slice().iter().find(|area| area.covers(page))?;
        Some(area.attributes.advanced(page.0 - area.first.0))
    }

    pub fn is_mapped(&self, page: PageNo) -> bool {
        self.as_slice().iter().any(|area| area.covers(page))
    }

    pub fn mapped_pages(&self) -> usize {
        self.as_slice().iter().map(|area| usize::from(area.pages)).sum()
    }

    pub fn uncommitted_pages(&self) -> usize {
        let uncommitted = self.as_slice().iter().filter(|area| !area.attributes.committed);
        uncommitted.map(|area| usize::from(area.pages)).sum()
    }
}

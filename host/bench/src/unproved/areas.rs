//! A sandbox's mapped pages as at most 8 runs.

use super::page::{Attributes, Backing, ImagePageNo, PageNo, PAGES};

pub const MOST_AREAS: usize = 8;

#[derive(Clone, Copy, PartialEq, Eq, Debug)]
pub struct Area {
    pub first: PageNo,
    pub pages: u8,
    /// Those of the first page.
    pub attributes: Attributes,
}

/// The first `count` places hold areas, the others none.
#[derive(Clone, Copy, PartialEq, Eq, Debug)]
pub struct Areas {
    pub count: u8,
    pub list: [Area; MOST_AREAS],
}

impl Area {
    /// What stands in a place without an area.
    pub const NONE: Area = Area {
        first: PageNo(0),
        pages: 0,
        attributes: Attributes { rights: 0, committed: false, backing: Backing::Anonymous },
    };

    /// The page past the last.
    pub fn end(&self) -> usize {
        usize::from(self.first.0) + usize::from(self.pages)
    }

    pub fn covers(&self, page: PageNo) -> bool {
        self.first <= page && usize::from(page.0) < self.end()
    }

    /// Whether a page goes on where the area ends.
    pub fn goes_on(&self, page: PageNo, attributes: Attributes) -> bool {
        self.end() == usize::from(page.0) && self.attributes.advanced(self.pages) == attributes
    }

    /// Whether the area has a page, lies in 0 to 63, has rights 1 or 3, and its image
    /// pages exist.
    fn is_proper(&self, images: usize) -> bool {
        let images_exist = match self.attributes.backing {
            Backing::Anonymous => true,
            Backing::Image(ImagePageNo(first)) => {
                usize::from(first) + usize::from(self.pages) <= images
            }
        };
        self.pages != 0
            && self.end() <= PAGES
            && matches!(self.attributes.rights, 1 | 3)
            && images_exist
    }

    /// Whether the other area stands behind this one and does not go on where it ends.
    fn is_apart(&self, other: &Area) -> bool {
        self.end() <= usize::from(other.first.0) && !self.goes_on(other.first, other.attributes)
    }
}

impl Areas {
    pub const EMPTY: Areas = Areas { count: 0, list: [Area::NONE; MOST_AREAS] };

    pub fn all_mapped(&self, first: PageNo, pages: u8) -> bool {
        (first.0..first.0 + pages).all(|page| self.is_mapped(PageNo(page)))
    }

    pub fn none_mapped(&self, first: PageNo, pages: u8) -> bool {
        !(first.0..first.0 + pages).any(|page| self.is_mapped(PageNo(page)))
    }

    /// The lowest page from which so many unmapped pages run.
    pub fn lowest_gap(&self, pages: u8) -> Option<PageNo> {
        (0..=PAGES as u8 - pages).map(PageNo).find(|&first| self.none_mapped(first, pages))
    }

    /// "at most 8, with rights 1 or 3, lie in 0 to 63, ordered, apart and longest; image
    /// pages exist"; and no area behind the last.
    pub fn are_well_formed(&self, images: usize) -> bool {
        let Some((areas, rest)) = self.list.split_at_checked(usize::from(self.count)) else {
            return false;
        };
        areas.iter().all(|area| area.is_proper(images))
            && areas.windows(2).all(|pair| pair[0].is_apart(&pair[1]))
            && rest.iter().all(|area| *area == Area::NONE)
    }
}

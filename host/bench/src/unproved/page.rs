//! What a page of a sandbox is.

pub const PAGES: usize = 64;
pub const PAGE_BYTES: usize = 256;

/// Which of a sandbox's 64 pages.
#[derive(Clone, Copy, PartialEq, Eq, PartialOrd, Ord, Debug)]
pub struct PageNo(pub u8);

/// Which of the image's pages.
#[derive(Clone, Copy, PartialEq, Eq, Debug)]
pub struct ImagePageNo(pub u8);

/// Which of the pool's frames.
#[derive(Clone, Copy, PartialEq, Eq, Debug)]
pub struct FrameNo(pub u8);

/// What a page holds before the first write to it.
#[derive(Clone, Copy, PartialEq, Eq, Debug)]
pub enum Backing {
    Anonymous,
    Image(ImagePageNo),
}

impl Backing {
    /// The backing of the page that is so many pages on.
    pub fn advanced(self, pages: u8) -> Backing {
        match self {
            Backing::Anonymous => Backing::Anonymous,
            Backing::Image(first) => Backing::Image(ImagePageNo(first.0 + pages)),
        }
    }
}

/// What stands at a mapped page; rights are 1 for read, 3 for read and write.
#[derive(Clone, Copy, PartialEq, Eq, Debug)]
pub struct Attributes {
    pub rights: u8,
    pub committed: bool,
    pub backing: Backing,
}

impl Attributes {
    /// Those of a page of the same area, so many pages on.
    pub fn advanced(self, pages: u8) -> Attributes {
        Attributes { backing: self.backing.advanced(pages), ..self }
    }

    /// Whether a rewind keeps the frames of such an area: "each uncommitted anonymous area".
    pub fn is_spared(&self) -> bool {
        !self.committed && self.backing == Backing::Anonymous
    }
}

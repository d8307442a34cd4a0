//! The machine that a snapshot by copying would be: one sandbox in flat arrays, whose
//! snapshot copies all pages and mappings and whose rewind copies them all back and says how
//! many pages differed. It makes no test of soundness and reads no text.

use model::{PAGES, PAGE_BYTES};

#[derive(Clone, Copy)]
struct Mapping {
    mapped: bool,
    rights: u8,
    image_page: Option<u8>,
}

#[derive(Clone)]
struct Pages {
    mappings: [Mapping; PAGES],
    bytes: [[u8; PAGE_BYTES]; PAGES],
}

pub struct Copying {
    present: Box<Pages>,
    copy: Box<Pages>,
}

impl Default for Copying {
    fn default() -> Copying {
        Copying::new()
    }
}

impl Copying {
    /// A sandbox with all pages mapped and written.
    pub fn new() -> Copying {
        let mapping = Mapping { mapped: true, rights: 3, image_page: None };
        let pages = Pages { mappings: [mapping; PAGES], bytes: [[1; PAGE_BYTES]; PAGES] };
        Copying { present: Box::new(pages.clone()), copy: Box::new(pages) }
    }

    pub fn snapshot(&mut self) {
        self.copy.mappings.copy_from_slice(&self.present.mappings);
        self.copy.bytes.copy_from_slice(&self.present.bytes);
    }

    pub fn rewind(&mut self) -> usize {
        let pages = self.present.bytes.iter().zip(&self.copy.bytes);
        let differing = pages.filter(|(page, copy)| page != copy).count();
        self.present.mappings.copy_from_slice(&self.copy.mappings);
        self.present.bytes.copy_from_slice(&self.copy.bytes);
        differing
    }

    pub fn store(&mut self, page: usize, offset: usize, byte: u8) {
        self.present.bytes[page][offset] = byte;
    }

    /// A byte of a mapped page.
    pub fn byte(&self, page: usize, offset: usize) -> Option<u8> {
        let mapping = self.present.mappings[page];
        let readable = mapping.mapped && mapping.rights & 1 == 1 && mapping.image_page.is_none();
        readable.then(|| self.present.bytes[page][offset])
    }
}

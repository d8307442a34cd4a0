//! A call, the limits of its parameters, and why it may be refused.

use super::page::PAGES;

/// The table "Turned back"; the discriminant is the number answered.
#[derive(Clone, Copy, PartialEq, Eq, Debug)]
#[repr(u8)]
pub enum Refusal {
    Malformed = 1,
    NoSuchCall = 2,
    Unsound = 3,
    NotOpen = 4,
    AlreadyOpen = 5,
    OutsideLimits = 6,
    SnapshotTaken = 7,
    NoSnapshot = 8,
    NotMapped = 9,
    AlreadyMapped = 10,
    NoGap = 11,
    NotWritable = 12,
    ShareExceeded = 13,
    TooManyAreas = 14,
}

/// "map: p1 first page, or 64 for the lowest gap that fits"
pub const ANY_PAGE: u16 = 64;

/// A line's call, with a code not yet looked at.
#[derive(Clone, Copy, PartialEq, Eq, Debug)]
pub struct Request {
    pub code: u16,
    pub sandbox: u16,
    pub p1: u16,
    pub p2: u16,
    pub p3: u16,
    pub p4: u16,
    pub p5: u16,
}

impl Request {
    /// "An anonymous map at 64 takes the shortest run ..", of the calls with code 2.
    pub fn takes_run(&self) -> bool {
        self.p1 == ANY_PAGE && self.p3 == 0
    }

    /// Whether every parameter is within its limits, over an image of so many pages.
    pub fn is_within_limits(&self, images: usize) -> bool {
        let &Request { code, p1, p2, p3, p4, p5, .. } = self;
        match code {
            1 => (1..=128).contains(&p1) && [p2, p3, p4, p5] == [0; 4],
            2 => {
                let place = p1 == ANY_PAGE && (1..=64).contains(&p2) || are_pages(p1, p2);
                let backing = match p3 {
                    0 => p4 == 0,
                    1 => usize::from(p4) + usize::from(p2) <= images,
                    _ => false,
                };
                place && backing && are_rights(p5)
            }
            3 => are_pages(p1, p2) && [p3, p4, p5] == [0; 3],
            4 => are_pages(p1, p2) && are_rights(p3) && [p4, p5] == [0; 2],
            5 => p1 < 16384 && [p2, p3, p4, p5] == [0; 4],
            6 => p1 < 16384 && p2 < 256 && [p3, p4, p5] == [0; 3],
            _ => [p1, p2, p3, p4, p5] == [0; 5],
        }
    }
}

fn are_pages(first: u16, pages: u16) -> bool {
    first < PAGES as u16
        && (1..=PAGES as u16).contains(&pages)
        && usize::from(first) + usize::from(pages) <= PAGES
}

fn are_rights(rights: u16) -> bool {
    matches!(rights, 1 | 3)
}

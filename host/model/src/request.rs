//! The ten calls with their parameters inside their limits. Whatever is outside
//! them is refusal 6: "a parameter outside its limits, named pages past page 63
//! (64 in map names none), image pages past the image, an unused one not 0".

use crate::machine::Refusal;
use crate::page::{Backing, PAGES, PAGE_BYTES};
use std::ops::Range;

/// MACHINE 3.1: "Each has 64 pages, so addresses 0 to 16,383."
pub const ADDRESSES: usize = PAGES * PAGE_BYTES;

/// MACHINE 4.14: Where a map puts its pages: "p1 first page, or 64 for the lowest gap
/// that fits".
#[derive(Clone, PartialEq, Eq, Debug)]
pub enum Place {
    Named(usize),
    LowestGap,
}

/// MACHINE 4.4: the calls, with parameters inside their limits.
#[derive(Clone, PartialEq, Eq, Debug)]
pub enum Request {
    Open { share: usize },
    Map { place: Place, count: usize, backing: Backing, rights: u16 },
    Unmap { pages: Range<usize> },
    Protect { pages: Range<usize>, rights: u16 },
    Read { page: usize, offset: usize },
    Write { page: usize, offset: usize, byte: u8 },
    Snapshot,
    Rewind,
    Report,
    Compare,
}

impl Request {
    /// MACHINE 4.4 and 4.5: The request of a call whose code is 1 to 10.
    pub fn within_limits(
        code: u16,
        parameters: [u16; 5],
        image_pages: usize,
    ) -> Result<Request, Refusal> {
        // Wide numbers: a sum of two parameters must not wrap.
        let [p1, p2, p3, p4, p5] = parameters.map(usize::from);
        match code {
            1 => {
                unused(&[p2, p3, p4, p5])?;
                limit((1..=128).contains(&p1))?;
                Ok(Request::Open { share: p1 })
            }
            2 => {
                limit((1..=PAGES).contains(&p2))?;
                let place = if p1 == PAGES {
                    Place::LowestGap
                } else {
                    Place::Named(named_pages(p1, p2)?.start)
                };
                let backing = match p3 {
                    0 => {
                        limit(p4 == 0)?;
                        Backing::Anonymous
                    }
                    1 => {
                        limit(p4 + p2 <= image_pages)?;
                        Backing::Image(p4)
                    }
                    _ => return Err(Refusal::OutsideLimits),
                };
                Ok(Request::Map { place, count: p2, backing, rights: rights(p5)? })
            }
            3 => {
                unused(&[p3, p4, p5])?;
                Ok(Request::Unmap { pages: named_pages(p1, p2)? })
            }
            4 => {
                unused(&[p4, p5])?;
                Ok(Request::Protect { pages: named_pages(p1, p2)?, rights: rights(p3)? })
            }
            5 => {
                unused(&[p2, p3, p4, p5])?;
                let (page, offset) = address(p1)?;
                Ok(Request::Read { page, offset })
            }
            6 => {
                unused(&[p3, p4, p5])?;
                let (page, offset) = address(p1)?;
                let byte = u8::try_from(p2).map_err(|_| Refusal::OutsideLimits)?;
                Ok(Request::Write { page, offset, byte })
            }
            7..=10 => {
                unused(&[p1, p2, p3, p4, p5])?;
                Ok(match code {
                    7 => Request::Snapshot,
                    8 => Request::Rewind,
                    9 => Request::Report,
                    _ => Request::Compare,
                })
            }
            _ => Err(Refusal::UnknownCode),
        }
    }
}

/// MACHINE 6, row 6: what is outside a limit is refused.
fn limit(holds: bool) -> Result<(), Refusal> {
    if holds {
        Ok(())
    } else {
        Err(Refusal::OutsideLimits)
    }
}

/// MACHINE 4.3: "those unused must be 0".
fn unused(parameters: &[usize]) -> Result<(), Refusal> {
    limit(parameters.iter().all(|&parameter| parameter == 0))
}

/// MACHINE 4.4, unmap: "first page, 0 to 63; p2 pages, 1 to 64", and not "past page 63".
fn named_pages(first: usize, count: usize) -> Result<Range<usize>, Refusal> {
    limit(first < PAGES && (1..=PAGES).contains(&count) && first + count <= PAGES)?;
    Ok(first..first + count)
}

/// MACHINE 2.5: "rights, 1 for read or 3 for read and write".
fn rights(parameter: usize) -> Result<u16, Refusal> {
    match parameter {
        1 => Ok(1),
        3 => Ok(3),
        _ => Err(Refusal::OutsideLimits),
    }
}

/// MACHINE 3.1: An address is a page and an offset in it.
fn address(parameter: usize) -> Result<(usize, usize), Refusal> {
    limit(parameter < ADDRESSES)?;
    Ok((parameter / PAGE_BYTES, parameter % PAGE_BYTES))
}

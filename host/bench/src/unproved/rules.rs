//! The rows of "Turned back" from 4 on, in their order.

use super::areas::Areas;
use super::pack::Change;
use super::page::{Attributes, Backing, ImagePageNo, PageNo, PAGE_BYTES};
use super::request::{Refusal, Request, ANY_PAGE};
use super::sandbox::Sandbox;

/// What an accepted request leaves.
pub struct Accepted {
    pub areas: Areas,
    /// The first page that a map names or finds.
    pub place: Option<PageNo>,
}

/// What a request leaves, or why it is refused.
pub fn decide(
    sandbox: &Sandbox,
    frames: usize,
    images: usize,
    shares: usize,
    q: &Request,
) -> Result<Accepted, Refusal> {
    let present = &sandbox.present;
    refuse_if(q.code != 1 && !sandbox.open, Refusal::NotOpen)?;
    refuse_if(q.code == 1 && sandbox.open, Refusal::AlreadyOpen)?;
    refuse_if(!q.is_within_limits(images), Refusal::OutsideLimits)?;
    let (first, pages) = (PageNo(q.p1 as u8), q.p2 as u8);
    let unchanged = Accepted { areas: *present, place: None };
    let changed = |areas: Option<Areas>, place| {
        Ok(Accepted { areas: areas.ok_or(Refusal::TooManyAreas)?, place })
    };
    match q.code {
        1 => {
            refuse_if(shares + usize::from(q.p1) > frames, Refusal::ShareExceeded)?;
            Ok(unchanged)
        }
        2 => {
            let first = place_of(present, q)?;
            let charge = sandbox.charge() + usize::from(pages);
            refuse_if(charge > usize::from(sandbox.share), Refusal::ShareExceeded)?;
            changed(present.changed(first, pages, Change::Map(new_page(q))), Some(first))
        }
        // "Unmap now passes over unmapped pages".
        3 => changed(present.changed(first, pages, Change::Unmap), None),
        4 => {
            refuse_if(!present.all_mapped(first, pages), Refusal::NotMapped)?;
            changed(present.changed(first, pages, Change::Protect(q.p3 as u8)), None)
        }
        5 => {
            refuse_if(!present.is_mapped(page_at(q)), Refusal::NotMapped)?;
            Ok(unchanged)
        }
        6 => {
            let page = present.slot(page_at(q)).ok_or(Refusal::NotMapped)?;
            refuse_if(page.rights != 3, Refusal::NotWritable)?;
            Ok(unchanged)
        }
        7 => {
            refuse_if(sandbox.snapshot.is_some(), Refusal::SnapshotTaken)?;
            let charge = 2 * present.mapped_pages();
            refuse_if(charge > usize::from(sandbox.share), Refusal::ShareExceeded)?;
            changed(present.changed(PageNo(0), 64, Change::Commit), None)
        }
        8 => {
            let areas = sandbox.snapshot.ok_or(Refusal::NoSnapshot)?;
            Ok(Accepted { areas, place: None })
        }
        10 => {
            refuse_if(sandbox.snapshot.is_none(), Refusal::NoSnapshot)?;
            Ok(unchanged)
        }
        _ => Ok(unchanged),
    }
}

/// The first page of a map.
fn place_of(present: &Areas, q: &Request) -> Result<PageNo, Refusal> {
    if q.p1 == ANY_PAGE {
        return present.lowest_gap(q.p2 as u8).ok_or(Refusal::NoGap);
    }
    let first = PageNo(q.p1 as u8);
    refuse_if(!present.none_mapped(first, q.p2 as u8), Refusal::AlreadyMapped)?;
    Ok(first)
}

/// The page of a read's or write's address.
pub fn page_at(q: &Request) -> PageNo {
    PageNo((usize::from(q.p1) / PAGE_BYTES) as u8)
}

/// What a map makes of its first page.
fn new_page(q: &Request) -> Attributes {
    let backing = match q.p3 {
        0 => Backing::Anonymous,
        _ => Backing::Image(ImagePageNo(q.p4 as u8)),
    };
    Attributes { rights: q.p5 as u8, committed: false, backing }
}

fn refuse_if(applies: bool, refusal: Refusal) -> Result<(), Refusal> {
    if applies {
        Err(refusal)
    } else {
        Ok(())
    }
}

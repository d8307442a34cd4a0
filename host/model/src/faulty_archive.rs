//! The archive written by a wrong writer.
//!
//! The right writer is kept free of faults. Here its pages, its lines or its output are spoilt.

use crate::archive::{backing_byte, backing_fields, byte_of, line, Archive};
use crate::archive_fault::ArchiveFault as Fault;
use crate::machine::{Machine, Refusal, Reply};
use crate::page::{areas_of, Backing, Page, Pages, PAGES, PAGE_BYTES};
use crate::request::ADDRESSES;
use crate::roll::{call_line, Call, LINE_BYTES};
use crate::sandbox::Sandbox;
use std::ops::Range;

/// The shortest roll: an open and a snapshot.
const SHORTEST: usize = 2 * LINE_BYTES;

/// Against request A9: what a wrong writer answers, and what it makes of the output.
pub fn wrong_archive(fault: Fault, machine: &Machine, sandbox: u16, out: &mut [u8]) -> Reply {
    let too_short = (Refusal::OutputTooShort as u16, 0);
    if fault == Fault::AnswersFifteenFirst && out.len() < SHORTEST {
        return too_short;
    }
    let lines = match wrong_lines(fault, machine, sandbox) {
        Ok(lines) => lines,
        Err(refusal) => return (refusal as u16, 0),
    };
    let text: Vec<u8> = lines.iter().flat_map(|call| wrong_line(fault, call)).collect();
    let needed = match fault {
        Fault::RefusesExactFit => text.len() + 1,
        Fault::TakesOneByteShort => text.len() - 1,
        _ => text.len(),
    };
    if out.len() < needed {
        let fits = match fault {
            Fault::TouchedBeforeFifteen => out.len() / LINE_BYTES * LINE_BYTES,
            _ => 0,
        };
        out[..fits].copy_from_slice(&text[..fits]);
        if fault == Fault::FifteenClearsOutput {
            out.fill(0);
        }
        return too_short;
    }
    let put = text.len().min(out.len());
    out[..put].copy_from_slice(&text[..put]);
    if fault == Fault::ClearsPastLines {
        out[put..].fill(0);
    }
    let value = match fault {
        Fault::CountOneShort => lines.len() - 1,
        Fault::CountsBytes => text.len(),
        _ => lines.len(),
    };
    (0, value as u32)
}

/// The lines, or the refusal, but for the length of the output.
fn wrong_lines(fault: Fault, machine: &Machine, sandbox: u16) -> Result<Vec<Call>, Refusal> {
    let image = machine.image.as_deref().ok_or(Refusal::WrongLength)?;
    let number = if fault == Fault::SandboxModuloFour { sandbox % 4 } else { sandbox };
    let kept = machine.sandboxes.get(usize::from(number)).ok_or(Refusal::NoOpenSandbox)?;
    if !kept.open && fault != Fault::ClosedLacksSnapshot {
        return Err(Refusal::NoOpenSandbox);
    }
    let pages = wrong_pages(fault, kept)?;
    let share = match fault {
        Fault::OpensWithCharge => 2 * pages.iter().filter(|page| page.mapped).count(),
        Fault::OpensWithPool => machine.frames,
        _ => kept.share,
    };
    let number = if fault == Fault::NamesSandbox0 { 0 } else { number };
    let right = Archive::of(number, share, &pages, image);
    Ok(wrong_order(fault, wrong_parts(fault, right, &pages, image)))
}

/// The pages that are written.
fn wrong_pages(fault: Fault, kept: &Sandbox) -> Result<Pages, Refusal> {
    let present = &kept.pages;
    let Some(copy) = &kept.copy else {
        let written = fault == Fault::ArchivesWithoutSnapshot;
        return written.then_some(*present).ok_or(Refusal::NoSnapshot);
    };
    if fault == Fault::RefusesEmptySnapshot && copy.iter().all(|page| !page.mapped) {
        return Err(Refusal::NoSnapshot);
    }
    let mixed = |mix: fn(&Page, &Page) -> Page| {
        std::array::from_fn(|at| match present[at].mapped {
            true => mix(&copy[at], &present[at]),
            false => copy[at],
        })
    };
    Ok(match fault {
        Fault::ArchivesPresent => *present,
        Fault::PresentBytes => mixed(|kept, page| Page { bytes: page.bytes, ..*kept }),
        Fault::PresentRights => mixed(|kept, page| Page { rights: page.rights, ..*kept }),
        _ => **copy,
    })
}

/// The parts of the archive, some of them wrong.
fn wrong_parts(fault: Fault, right: Archive, pages: &Pages, image: &[[u8; PAGE_BYTES]]) -> Archive {
    let sandbox = right.open.sandbox;
    let areas = areas_of(pages);
    let single = |area: &Range<usize>| area.clone().map(|at| at..at + 1).collect::<Vec<_>>();
    let mapped = match fault {
        Fault::MapForEachPage => areas.iter().flat_map(single).collect(),
        Fault::ImagePagesMappedApart => {
            let split = |area: &Range<usize>| match pages[area.start].backing {
                Backing::Image(_) => single(area),
                Backing::Anonymous => vec![area.clone()],
            };
            areas.iter().flat_map(split).collect()
        }
        Fault::RightsDivideNoMap => areas_of(&pages.map(|page| Page { rights: 3, ..page })),
        _ => areas.clone(),
    };
    let map = |area: &Range<usize>| {
        let page = &pages[area.start];
        let (kind, image_page) = match (fault, backing_fields(page.backing)) {
            (Fault::MapsImageFromPage0, (kind, _)) => (kind, 0),
            (Fault::WritesImageOut, _) => (0, 0),
            (_, fields) => fields,
        };
        let first = if fault == Fault::MapsAtLowestGap { PAGES } else { area.start };
        let own_rights = fault == Fault::MapsWithOwnRights;
        let rights = if own_rights { usize::from(page.rights) } else { 3 };
        line(2, sandbox, [first, area.len(), kind, image_page, rights])
    };
    let read_only = |area: &&Range<usize>| pages[area.start].rights == 1;
    let protected: Vec<Range<usize>> = match fault {
        Fault::ProtectsEveryArea => areas.clone(),
        Fault::ProtectForEachPage => areas.iter().filter(read_only).flat_map(single).collect(),
        Fault::ProtectsJoined => joined(areas.iter().filter(read_only)),
        Fault::LeavesOutProtects => Vec::new(),
        _ => areas.iter().filter(read_only).cloned().collect(),
    };
    let protect = |area: &Range<usize>| {
        let rights = usize::from(pages[area.start].rights);
        line(4, sandbox, [area.start, area.len(), rights, 0, 0])
    };
    let written =
        (0..ADDRESSES).filter(|&at| is_written(fault, &pages[at / PAGE_BYTES], at, image));
    let write = |at: usize| {
        let byte = usize::from(byte_of(&pages[at / PAGE_BYTES], at));
        line(6, sandbox, [at, byte, 0, 0, 0])
    };
    Archive {
        maps: mapped.iter().map(map).collect(),
        writes: written.map(write).collect(),
        protects: protected.iter().map(protect).collect(),
        ..right
    }
}

/// Neighbouring ones made one.
fn joined<'a>(areas: impl Iterator<Item = &'a Range<usize>>) -> Vec<Range<usize>> {
    let mut joined: Vec<Range<usize>> = Vec::new();
    for area in areas {
        match joined.last_mut().filter(|before| before.end == area.start) {
            Some(before) => before.end = area.end,
            None => joined.push(area.clone()),
        }
    }
    joined
}

/// Whether a wrong writer writes the byte at an address on a page.
fn is_written(fault: Fault, page: &Page, address: usize, image: &[[u8; PAGE_BYTES]]) -> bool {
    let (byte, under) = (byte_of(page, address), backing_byte(page, address, image));
    let differs = byte != under;
    let wanted = match fault {
        Fault::ZeroUnderImagePage | Fault::WritesImageOut => byte != 0,
        Fault::WritesEqualBytes => differs || page.back,
        Fault::LeavesOutLastByte => differs && address % PAGE_BYTES != PAGE_BYTES - 1,
        Fault::LeavesOutLastPage => differs && address / PAGE_BYTES != PAGES - 1,
        Fault::LeavesOutZeros => differs && byte != 0,
        Fault::LeavesOutReadOnly => differs && page.rights == 3,
        _ => differs,
    };
    page.mapped && wanted
}

/// The lines in a wrong order, or not all of them.
fn wrong_order(fault: Fault, mut parts: Archive) -> Vec<Call> {
    match fault {
        Fault::MapsHighestFirst => parts.maps.reverse(),
        Fault::WritesHighestFirst => parts.writes.reverse(),
        Fault::ProtectsHighestFirst => parts.protects.reverse(),
        _ => {}
    }
    let Archive { open, maps, writes, protects, snapshot } = &parts;
    let mut lines = match fault {
        Fault::ProtectsBeforeWrites => [&[*open], &maps[..], protects, writes].concat(),
        Fault::WritesBehindEachMap => {
            let mut lines = vec![*open];
            for map in maps {
                let [first, pages, ..] = map.parameters.map(usize::from);
                let area = first * PAGE_BYTES..(first + pages) * PAGE_BYTES;
                let inside = |write: &&Call| area.contains(&usize::from(write.parameters[0]));
                lines.push(*map);
                lines.extend(writes.iter().filter(inside));
            }
            lines.extend(protects);
            lines
        }
        _ => [&[*open], &maps[..], writes, protects].concat(),
    };
    if fault != Fault::LeavesOutSnapshot {
        lines.push(*snapshot);
    }
    lines
}

/// A line's text.
fn wrong_line(fault: Fault, call: &Call) -> Vec<u8> {
    let mut text = call_line(call);
    if fault == Fault::LeadingZeros {
        text.iter_mut().filter(|byte| **byte == b' ').for_each(|byte| *byte = b'0');
    }
    text
}

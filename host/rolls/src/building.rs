//! What a sandbox is given before its snapshot: areas of each kind beside each other, bytes written
//! and written back, and rights that divide areas. Left to chance, a snapshot hardly ever has eight
//! areas, or a byte that was written as its page's zero or image byte.

use crate::prng::Prng;
use crate::steering::new_call;
use model::{Backing, Call, Machine, Page, Sandbox, AREAS, PAGES, PAGE_BYTES};

/// What the next call is for.
#[derive(Clone, Copy)]
enum Step {
    Map,
    Write,
    WriteBack,
    Protect,
    Snapshot,
}

/// A call before the snapshot; `None` where the sandbox is closed or its snapshot is taken.
pub(crate) fn call_of_building(prng: &mut Prng, machine: &Machine, number: usize) -> Option<Call> {
    let sandbox = machine.sandbox(number);
    if !sandbox.open || sandbox.copy.is_some() {
        return None;
    }
    let (areas, mapped) = (sandbox.areas(), sandbox.mapped_pages());
    let room = (sandbox.share / 2).min(PAGES).saturating_sub(mapped);
    let writable = writable_pages(sandbox);
    let changed = changed_addresses(machine, sandbox, &writable);
    let finished = areas == AREAS || room == 0;
    let weight = |wanted: bool, weight: usize| if wanted { weight } else { 0 };
    let step = prng.weighted(&[
        (weight(areas < AREAS && room > 0, 18), Step::Map),
        (weight(!writable.is_empty(), 12), Step::Write),
        (weight(!changed.is_empty(), 6), Step::WriteBack),
        (weight(mapped > 0 && areas < AREAS, 10), Step::Protect),
        (if finished { 8 } else { 1 }, Step::Snapshot),
    ]);
    Some(match step {
        Step::Map => map(prng, machine, number, room),
        Step::Write => {
            let page = prng.pick(&writable);
            let offset = prng.pick(&[0, 1, 44, 255]);
            let under = backing_byte(machine, &sandbox.pages[page], offset);
            let any = usize::from(prng.byte());
            let byte = prng.weighted(&[(6, any), (2, 0), (1, under)]);
            new_call(6, number, [page * PAGE_BYTES + offset, byte, 0, 0, 0])
        }
        Step::WriteBack => {
            let (address, under) = prng.pick(&changed);
            new_call(6, number, [address, under, 0, 0, 0])
        }
        Step::Protect => {
            let pages: Vec<usize> = (0..PAGES).filter(|&at| sandbox.pages[at].mapped).collect();
            let page = prng.pick(&pages);
            let rights = if sandbox.pages[page].rights == 3 { 1 } else { 3 };
            new_call(4, number, [page, 1, rights, 0, 0])
        }
        Step::Snapshot => new_call(7, number, [0; 5]),
    })
}

fn writable_pages(sandbox: &Sandbox) -> Vec<usize> {
    let writable = |&at: &usize| sandbox.pages[at].mapped && sandbox.pages[at].rights == 3;
    (0..PAGES).filter(writable).collect()
}

/// The byte that a page reads before it is written.
pub(crate) fn backing_byte(machine: &Machine, page: &Page, offset: usize) -> usize {
    usize::from(match page.backing {
        Backing::Anonymous => 0,
        Backing::Image(image_page) => machine.image()[image_page][offset],
    })
}

/// The addresses on these pages whose bytes are not those of the backing, with the backing's.
fn changed_addresses(machine: &Machine, sandbox: &Sandbox, pages: &[usize]) -> Vec<(usize, usize)> {
    let written = pages.iter().filter(|&&at| sandbox.pages[at].front);
    let addresses = written.flat_map(|at| at * PAGE_BYTES..(at + 1) * PAGE_BYTES);
    let with_backing = addresses.map(|address| {
        let page = &sandbox.pages[address / PAGE_BYTES];
        (address, backing_byte(machine, page, address % PAGE_BYTES))
    });
    let byte = |address: usize| sandbox.pages[address / PAGE_BYTES].bytes[address % PAGE_BYTES];
    with_backing.filter(|&(address, under)| usize::from(byte(address)) != under).collect()
}

/// A map of a few pages, mostly behind a mapped page: over the image pages that run on from its
/// own, over the same ones, over others, or anonymous.
fn map(prng: &mut Prng, machine: &Machine, number: usize, room: usize) -> Call {
    let sandbox = machine.sandbox(number);
    let pages = prng.weighted(&[(5, 1), (3, 2), (1, 3)]).min(room);
    let fits = |&first: &usize| first + pages <= PAGES && sandbox.none_mapped(first..first + pages);
    let places: Vec<usize> = (0..PAGES).filter(fits).collect();
    let before = |at: usize| at.checked_sub(1).map(|at| sandbox.pages[at]);
    let is_behind = |&at: &usize| before(at).is_some_and(|page| page.mapped);
    let behind: Vec<usize> = places.iter().copied().filter(is_behind).collect();
    let first = match (places.is_empty(), behind.is_empty()) {
        (true, _) => PAGES,
        (_, false) if prng.chance(65) => prng.pick(&behind),
        _ => prng.pick(&places),
    };
    let rights = prng.weighted(&[(5, 3), (2, 1)]);
    let last_start = machine.image().len().checked_sub(pages).filter(|_| prng.chance(60));
    let Some(last_start) = last_start else {
        return new_call(2, number, [first, pages, 0, 0, rights]);
    };
    let beside = match before(first).map(|page| (page.mapped, page.backing)) {
        Some((true, Backing::Image(image_page))) => [image_page + 1, image_page],
        _ => [0, last_start],
    };
    let any = prng.within(0..=last_start);
    let image_page = prng.weighted(&[(5, beside[0]), (2, beside[1]), (3, any)]).min(last_start);
    new_call(2, number, [first, pages, 1, image_page, rights])
}

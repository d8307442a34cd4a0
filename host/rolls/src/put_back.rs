//! Calls that bring a sandbox nearer to its snapshot. Left to chance, a page once changed hardly
//! ever agrees with the snapshot's again, and call 10 would meet no page that does.

use crate::prng::Prng;
use crate::steering::new_call;
use model::{Backing, Call, Machine, Page, PAGES, PAGE_BYTES};

/// With more bytes to write back than this, a page is unmapped, to be mapped anew.
const FEW: usize = 3;

/// A call that undoes something of a page that differs, mostly of the lowest; `None` where none
/// differs or there is no snapshot.
pub(crate) fn put_back(prng: &mut Prng, machine: &Machine, number: usize) -> Option<Call> {
    let sandbox = machine.sandbox(number);
    let copy = sandbox.copy.as_ref()?;
    let differs = |&at: &usize| !sandbox.pages[at].agrees_with(&copy[at]);
    let differing: Vec<usize> = (0..PAGES).filter(differs).collect();
    let any = prng.below(differing.len().max(1));
    let at = *differing.get(if prng.chance(70) { 0 } else { any })?;
    let (page, kept) = (&sandbox.pages[at], &copy[at]);
    let call = |code, parameters| new_call(code, number, parameters);
    let other: Vec<usize> =
        (0..PAGE_BYTES).filter(|&offset| page.bytes[offset] != kept.bytes[offset]).collect();
    Some(match (page.mapped, kept.mapped) {
        (false, _) => map_alike(prng, machine, number, at, kept),
        (true, false) => call(3, [at, 1, 0, 0, 0]),
        (true, true) if other.is_empty() => call(4, [at, 1, usize::from(kept.rights), 0, 0]),
        (true, true) if other.len() > FEW => call(3, [at, 1, 0, 0, 0]),
        (true, true) if page.rights == 1 => call(4, [at, 1, 3, 0, 0]),
        (true, true) => {
            let offset = prng.pick(&other);
            call(6, [at * PAGE_BYTES + offset, usize::from(kept.bytes[offset]), 0, 0, 0])
        }
    })
}

/// A map of a page that reads what the snapshot's page reads, often over another backing; over
/// the snapshot's own where none reads so.
pub(crate) fn map_alike(
    prng: &mut Prng,
    machine: &Machine,
    number: usize,
    at: usize,
    kept: &Page,
) -> Call {
    let image = machine.image().iter().enumerate();
    let zero = (kept.bytes == [0; PAGE_BYTES]).then_some(Backing::Anonymous);
    let same = image.filter(|(_, bytes)| **bytes == kept.bytes).map(|(at, _)| Backing::Image(at));
    let other: Vec<Backing> = zero.into_iter().chain(same).filter(|&b| b != kept.backing).collect();
    let chosen = match other.is_empty() || prng.chance(40) {
        true => kept.backing,
        false => prng.pick(&other),
    };
    let (backing, image_page) = match chosen {
        Backing::Anonymous => (0, 0),
        Backing::Image(page) => (1, page),
    };
    new_call(2, number, [at, 1, backing, image_page, usize::from(kept.rights)])
}

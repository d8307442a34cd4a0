//! What the wrong machine asks of pages.

use crate::page::{count_areas, Backing, Page};
use crate::sandbox::Sandbox;

/// MACHINE 9.7: the pages just mapped, with what they were.
pub fn newly_mapped<'a>(
    sandbox: &'a mut Sandbox,
    before: &'a Sandbox,
) -> impl Iterator<Item = (&'a mut Page, &'a Page)> {
    let pairs = sandbox.pages.iter_mut().zip(&before.pages);
    pairs.filter(|(page, was)| page.mapped && !was.mapped)
}

/// MACHINE 3.2: A page with neither front nor back, over an image page.
pub fn reads_image(page: &Page) -> bool {
    let framed = page.front || (page.committed && page.back);
    !framed && page.backing != Backing::Anonymous
}

/// MACHINE 4.13: a snapshot page without a back, over an image page.
pub fn reads_image_in_copy(page: &Page) -> bool {
    !page.back && page.backing != Backing::Anonymous
}

/// Against MACHINE 2.7: areas, if image pages never ran on.
pub fn areas_with_split_image(sandbox: &Sandbox) -> usize {
    let mut pages = sandbox.pages;
    for page in pages.iter_mut().filter(|page| page.backing != Backing::Anonymous) {
        page.backing = Backing::Image(0);
    }
    count_areas(&pages)
}

/// MACHINE 4.14: how many unmapped pages run from this one on.
pub fn unmapped_from(sandbox: &Sandbox, first: usize) -> usize {
    sandbox.pages[first..].iter().take_while(|page| !page.mapped).count()
}

/// MACHINE 4.16: The lowest run of pages mapped since the snapshot, which a rewind takes
/// away.
pub fn lowest_new_area(sandbox: &Sandbox) -> Option<(usize, usize)> {
    let new = |page: &Page| page.mapped && !page.committed;
    let start = sandbox.pages.iter().position(new)?;
    let length = sandbox.pages[start..].iter().take_while(|page| new(page)).count();
    Some((start, start + length))
}

//! The next call of a roll, chosen with the machine's state in view.
//!
//! Calls drawn blindly would nearly all be refused. Here most are accepted, or are
//! refused by one of the later rows of the table.

use crate::building::call_of_building;
use crate::gaps::{around, over_gaps, unmapped_or_inside};
use crate::mood::Mood;
use crate::prng::Prng;
use crate::put_back::{map_alike, put_back};
use crate::request::call_of_request;
use model::{Backing, Call, Machine, Page, Sandbox, AREAS, PAGES, PAGE_BYTES, SANDBOXES};

/// Offsets met again and again, so that reads meet what was written.
const OFFSETS: [usize; 4] = [0, 1, 44, 255];

/// The code of the call that asks whether the sandbox is still clean.
const COMPARE: u16 = 10;
/// No call's code: whatever brings the sandbox nearer to its snapshot.
const PUT_BACK: u16 = 0;

#[derive(Clone, Debug)]
pub struct Steering {
    pub prng: Prng,
    mood: Mood,
    /// After a rewind: the sandbox, and how many calls are still to look at it.
    looking: Option<(usize, usize)>,
    /// After a snapshot or a rewind: the sandbox, and how many calls are still to change it a
    /// little, compare it with its snapshot and put it back.
    comparing: Option<(usize, usize)>,
    /// After an unmap of a committed page: the sandbox and the page.
    gone: Option<(usize, usize)>,
}

pub(crate) fn new_call(code: u16, sandbox: usize, parameters: [usize; 5]) -> Call {
    let parameters = parameters.map(|parameter| parameter as u16);
    Call { code, sandbox: sandbox as u16, parameters }
}

fn unmap_of(number: usize, [first, count]: [usize; 2]) -> Call {
    new_call(3, number, [first, count, 0, 0, 0])
}

/// Whether calls are still to be spent on this sandbox; then there is one less.
fn one_less(spent_on: &mut Option<(usize, usize)>, sandbox: usize) -> bool {
    let still = matches!(spent_on, Some((at, _)) if *at == sandbox);
    if still {
        *spent_on = spent_on.map(|(at, left)| (at, left - 1)).filter(|&(_, left)| left > 0);
    }
    still
}

impl Steering {
    pub fn new(mut prng: Prng) -> Steering {
        let mood = Mood::random(&mut prng);
        Steering { prng, mood, looking: None, comparing: None, gone: None }
    }

    /// A call for a sandbox of its own choice.
    pub fn next_call(&mut self, machine: &Machine) -> Call {
        if let Some((sandbox, _)) = self.looking.or(self.comparing) {
            if self.prng.chance(85) {
                return self.call_for(machine, sandbox);
            }
        }
        let any = self.prng.chance(4);
        let mut sandbox = self.prng.below(if any { SANDBOXES } else { self.mood.sandboxes });
        if machine.shares() >= machine.frames() && self.prng.chance(95) {
            // Nothing is left for another open: turn to an open sandbox.
            let open = |number: &usize| machine.sandbox(*number).open;
            let open: Vec<usize> = (0..SANDBOXES).filter(open).collect();
            sandbox = if open.is_empty() { sandbox } else { self.prng.pick(&open) };
        }
        self.call_for(machine, sandbox)
    }

    pub fn call_for(&mut self, machine: &Machine, number: usize) -> Call {
        let sandbox = machine.sandbox(number);
        if !sandbox.open && self.prng.chance(88) {
            return self.open(machine, number);
        }
        if self.prng.chance(self.mood.requests) {
            let lowest_gap = self.mood.lowest_gap;
            let call = call_of_request(&mut self.prng, machine, number, lowest_gap);
            if let Some(call) = call {
                return call;
            }
        }
        if self.mood.building > 0 && self.prng.chance(self.mood.building) {
            if let Some(call) = call_of_building(&mut self.prng, machine, number) {
                return call;
            }
        }
        if let Some((_, page)) = self.gone.take_if(|(gone_from, _)| *gone_from == number) {
            match (self.prng.below(10), &sandbox.copy) {
                (0..3, _) => return self.map_at(machine, number, page, 1),
                (3..6, Some(copy)) => {
                    return map_alike(&mut self.prng, machine, number, page, &copy[page])
                }
                (6..9, _) if !sandbox.pages[page].mapped => {
                    return unmap_of(number, around(&mut self.prng, sandbox, page));
                }
                _ => {}
            }
        }
        let puts_back = sandbox.copy.is_some() && self.prng.chance(6);
        let code = if one_less(&mut self.looking, number) {
            self.prng.weighted(&[(12, 5), (4, 9), (4, 2), (3, 6), (1, 3), (1, 4), (3, COMPARE)])
        } else if one_less(&mut self.comparing, number) {
            let kinds = [(12, COMPARE), (12, PUT_BACK), (5, 6), (2, 4), (4, 3), (1, 2)];
            self.prng.weighted(&kinds)
        } else if puts_back {
            PUT_BACK
        } else {
            self.code(sandbox)
        };
        match code {
            PUT_BACK => put_back(&mut self.prng, machine, number)
                .unwrap_or_else(|| new_call(COMPARE, number, [0; 5])),
            1 => self.open(machine, number),
            2 => self.map(machine, number),
            3 => self.unmap(sandbox, number),
            4 => self.protect(sandbox, number),
            5 => new_call(5, number, [self.address(sandbox, 1), 0, 0, 0, 0]),
            6 => self.write(sandbox, number),
            7 | 8 => {
                let calls = Some((number, self.prng.within(1..=8)));
                if self.prng.chance(40) {
                    self.comparing = calls;
                } else if code == 8 {
                    self.looking = calls;
                }
                new_call(code, number, [0; 5])
            }
            _ => new_call(code, number, [0; 5]),
        }
    }

    /// A code that has something to do in the sandbox's state.
    fn code(&mut self, sandbox: &Sandbox) -> u16 {
        let (taken, mapped) = (sandbox.copy.is_some(), sandbox.mapped_pages());
        if !sandbox.open {
            return self.prng.within(1..=10) as u16;
        }
        if mapped == 0 && self.prng.chance(85) {
            return self.prng.weighted(&[(16, 2), (2, 7), (1, 3), (if taken { 8 } else { 0 }, 8)]);
        }
        let too_much_for_snapshot = !taken && 2 * mapped > sandbox.share;
        let map = if sandbox.charge() < sandbox.share { 20 } else { 4 };
        let unmap = if too_much_for_snapshot { 16 } else { 8 };
        let snapshot = if taken || too_much_for_snapshot { 1 } else { 7 };
        let rewind = if taken { 9 } else { 1 };
        let compare = if taken { 7 } else { 1 };
        self.prng.weighted(&[
            (1, 1),
            (map, 2),
            (unmap, 3),
            (9, 4),
            (18, 5),
            (28, 6),
            (snapshot, 7),
            (rewind, 8),
            (7, 9),
            (compare, COMPARE),
        ])
    }

    fn open(&mut self, machine: &Machine, number: usize) -> Call {
        let left = machine.frames().saturating_sub(machine.shares());
        // Room for many areas where they are wanted.
        let least = if self.mood.building > 0 { self.mood.share / 2 } else { 1 };
        let small = self.prng.within(least..=self.mood.share).min(left);
        let share =
            self.prng.weighted(&[(14, small), (5, left / 2), (3, left), (1, left + 1), (1, 128)]);
        new_call(1, number, [share, 0, 0, 0, 0])
    }

    fn map(&mut self, machine: &Machine, number: usize) -> Call {
        let sandbox = machine.sandbox(number);
        let few = if self.mood.scattered { 1 } else { 3 };
        let most = self.prng.weighted(&[(14, few), (4, 8), (1, PAGES)]);
        let mut count = self.prng.within(1..=most);
        if sandbox.areas() == AREAS && self.prng.chance(20) {
            // One page too many for the share: where it makes an area more, rows 13 and 14 apply.
            count = (sandbox.share - sandbox.charge() + 1).min(PAGES);
        }
        let place = if self.prng.chance(self.mood.lowest_gap) {
            PAGES
        } else {
            self.named_place(sandbox).min(PAGES - count)
        };
        self.map_at(machine, number, place, count)
    }

    fn map_at(&mut self, machine: &Machine, number: usize, place: usize, count: usize) -> Call {
        let (backing, image_page) = self.backing(machine, machine.sandbox(number), place, count);
        let rights = self.prng.weighted(&[(4, 3), (1, 1)]);
        new_call(2, number, [place, count, backing, image_page, rights])
    }

    /// A page for a map to name: where a snapshot page was unmapped, after or before
    /// a mapped page, or anywhere.
    fn named_place(&mut self, sandbox: &Sandbox) -> usize {
        let unmapped = |at: &usize| !sandbox.pages[*at].mapped;
        let snapshot_page = |at: &usize| sandbox.copy.as_ref().is_some_and(|copy| copy[*at].mapped);
        let beside_mapped = |at: &usize| {
            sandbox.pages[at.saturating_sub(1)].mapped
                || sandbox.pages[(at + 1).min(PAGES - 1)].mapped
        };
        let anew: Vec<usize> = (0..PAGES).filter(unmapped).filter(snapshot_page).collect();
        let beside: Vec<usize> = (0..PAGES).filter(unmapped).filter(beside_mapped).collect();
        if !anew.is_empty() && self.prng.chance(55) {
            self.prng.pick(&anew)
        } else if self.prng.chance(10) {
            // The last page, which a loop that ends too early forgets.
            PAGES - 1
        } else if self.mood.scattered && self.prng.chance(70) {
            2 * self.prng.below(12)
        } else if !beside.is_empty() && self.prng.chance(50) {
            self.prng.pick(&beside)
        } else {
            self.prng.below(PAGES)
        }
    }

    /// p3 and p4 of a map.
    fn backing(
        &mut self,
        machine: &Machine,
        sandbox: &Sandbox,
        place: usize,
        count: usize,
    ) -> (usize, usize) {
        let image_pages = machine.image().len();
        if count > image_pages || !self.prng.chance(self.mood.image) {
            return (0, 0);
        }
        // Often the image pages run on from those of the page before.
        let place = if place == PAGES { sandbox.lowest_gap(count) } else { Some(place) };
        let before = place.and_then(|at| at.checked_sub(1)).map(|at| &sandbox.pages[at]);
        match before {
            Some(Page { mapped: true, backing: Backing::Image(image_page), .. })
                if image_page + 1 + count <= image_pages && self.prng.chance(50) =>
            {
                (1, image_page + 1)
            }
            _ => (1, self.prng.within(0..=image_pages - count)),
        }
    }

    fn unmap(&mut self, sandbox: &Sandbox, number: usize) -> Call {
        if let Some(pages) = unmapped_or_inside(&mut self.prng, sandbox) {
            return unmap_of(number, pages);
        }
        let committed = self.prng.chance(60) && sandbox.pages.iter().any(|page| page.committed);
        let first = self.page(sandbox, |page| page.mapped && (page.committed || !committed));
        let count = self.count(sandbox, first);
        self.gone = Some((number, first)).filter(|_| sandbox.pages[first].committed);
        unmap_of(number, [first, count])
    }

    fn protect(&mut self, sandbox: &Sandbox, number: usize) -> Call {
        let [first, count] = if self.prng.chance(8) {
            over_gaps(&mut self.prng, sandbox)
        } else {
            let first = self.page(sandbox, |page| page.mapped);
            [first, self.count(sandbox, first)]
        };
        let other = if sandbox.pages[first].rights == 3 { 1 } else { 3 };
        let rights = self.prng.weighted(&[(4, other), (1, 3)]);
        new_call(4, number, [first, count, rights, 0, 0])
    }

    fn write(&mut self, sandbox: &Sandbox, number: usize) -> Call {
        let rights = self.prng.weighted(&[(9, 3), (1, 1)]);
        let address = self.address(sandbox, rights);
        let byte = usize::from(self.prng.byte());
        new_call(6, number, [address, byte, 0, 0, 0])
    }

    /// A page of the wanted kind; any page where there is none.
    fn page(&mut self, sandbox: &Sandbox, wanted: impl Fn(&Page) -> bool) -> usize {
        let pages: Vec<usize> = (0..PAGES).filter(|&at| wanted(&sandbox.pages[at])).collect();
        if pages.is_empty() || self.prng.chance(3) {
            self.prng.below(PAGES)
        } else {
            self.prng.pick(&pages)
        }
    }

    /// Pages from a first one on, mostly as far as they are mapped.
    fn count(&mut self, sandbox: &Sandbox, first: usize) -> usize {
        let run = sandbox.pages[first..].iter().take_while(|page| page.mapped).count();
        let some = self.prng.within(1..=run.max(1));
        self.prng.weighted(&[(8, 1), (3, some), (1, run.max(1)), (1, (run + 1).min(PAGES - first))])
    }

    /// An address, mostly on a mapped page with at least these rights.
    fn address(&mut self, sandbox: &Sandbox, rights: u16) -> usize {
        let page = if self.prng.chance(8) {
            self.page(sandbox, |page| page.mapped)
        } else {
            self.page(sandbox, |page| page.mapped && page.rights >= rights)
        };
        let anywhere = self.prng.below(PAGE_BYTES);
        let usual = self.prng.pick(&OFFSETS);
        page * PAGE_BYTES + self.prng.weighted(&[(9, usual), (1, anywhere)])
    }
}

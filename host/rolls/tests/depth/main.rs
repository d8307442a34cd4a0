//! How deep the random rolls reach: a roll that never gets anywhere tells nothing.

mod archive;
mod compare;
mod gaps;
mod put_back;
mod rewind_cases;
mod runs;

use model::{parse_line, Answering, Backing, Call, Machine, Sandbox, CODES, LINE_BYTES, SANDBOXES};
use rolls::Case;
use std::collections::{BTreeMap, BTreeSet};
use std::sync::Arc;

/// Not met by the player, which has 128.
const ONE_FRAME: &str = "roll with one frame";

#[derive(Default)]
struct Reach {
    /// Answers by code and number; code 0 stands for malformed lines and unknown codes.
    answers: BTreeMap<(u16, u16), usize>,
    events: BTreeMap<&'static str, usize>,
    /// Bytes of the images, and frames of the pools.
    images: BTreeSet<usize>,
    pools: BTreeSet<usize>,
}

impl Reach {
    fn saw(&mut self, event: &'static str, happened: bool) {
        *self.events.entry(event).or_default() += usize::from(happened);
    }

    fn measure(&mut self, case: &Case) {
        let mut machine = Machine::fresh(&case.image, case.frames);
        let mut rewinds = [0; SANDBOXES];
        self.images.insert(case.image.len());
        self.pools.insert(case.frames);
        for line in case.roll.chunks(LINE_BYTES) {
            let Some(call) = parse_line(line) else {
                *self.answers.entry((0, 1)).or_default() += 1;
                continue;
            };
            let before = named_sandbox(&machine, &call);
            let (number, _) = machine.answer(&call);
            let code = if number == 2 { 0 } else { call.code };
            *self.answers.entry((code, number)).or_default() += 1;
            if let (0, Some(before)) = (number, before) {
                let after = machine.sandbox(usize::from(call.sandbox));
                self.accepted(&call, &before, after);
                if call.code == 8 {
                    rewinds[usize::from(call.sandbox)] += 1;
                }
            }
        }
        let all_open = (0..SANDBOXES).all(|number| machine.sandbox(number).open);
        let snapshots = (0..SANDBOXES).filter(|&number| machine.sandbox(number).copy.is_some());
        self.saw("roll with four sandboxes open", all_open);
        self.saw("roll with two or more snapshots", snapshots.count() >= 2);
        self.saw("roll with five rewinds of a sandbox", rewinds.iter().any(|&count| count >= 5));
        self.saw("roll with the pool wholly shared out", machine.shares() == case.frames);
        self.saw(ONE_FRAME, case.frames == 1);
        self.saw("roll with a whole image of 64 pages", case.image.len() == 64 * 256);
        self.saw("roll with a short last line", !case.roll.len().is_multiple_of(LINE_BYTES));
    }

    fn accepted(&mut self, call: &Call, before: &Sandbox, after: &Sandbox) {
        let changed = |test: fn(&model::Page, &model::Page) -> bool| {
            before.pages.iter().zip(&after.pages).any(|(was, is)| test(was, is))
        };
        let on_image = |page: &model::Page| page.backing != Backing::Anonymous;
        let at = usize::from(call.parameters[0]) / 256;
        self.saw("sandbox with eight areas", after.areas() == 8);
        match call.code {
            2 => {
                let anew = changed(|was, is| is.back && is.mapped && !was.mapped);
                self.saw("map of a snapshot page's number, with its back kept", anew);
                let again = before.copy.as_ref().is_some_and(|copy| {
                    (0..64).any(|at| {
                        copy[at].mapped && !before.pages[at].mapped && after.pages[at].mapped
                    })
                });
                self.saw("map of a snapshot page's number", again);
                let at_64 = call.parameters[0] == 64;
                self.saw("map at 64 not at page 0", at_64 && before.pages[0].mapped);
                self.saw("map at 64 after a snapshot", at_64 && before.copy.is_some());
                self.saw("map that fills the share", after.charge() == after.share);
                self.saw("map that joins areas", after.areas() < before.areas());
                let joins_image = after.areas() == before.areas() && call.parameters[2] == 1;
                self.saw("map that prolongs an image area", joins_image);
            }
            3 => {
                self.saw(
                    "unmap of a committed page",
                    changed(|was, is| was.committed && !is.committed),
                );
                self.saw("unmap of a dirty page", changed(|was, is| was.front && !is.front));
                self.saw("unmap that splits an area", after.areas() > before.areas());
            }
            4 => {
                self.saw("protect that splits an area", after.areas() > before.areas());
                self.saw("protect that joins areas", after.areas() < before.areas());
            }
            6 => {
                let first = !before.pages[at].front;
                self.saw("first write to an image page", first && on_image(&before.pages[at]));
                self.saw("first write to a committed page", first && before.pages[at].committed);
            }
            7 => {
                self.saw("snapshot of dirty pages", changed(|_, is| is.back));
                self.saw("snapshot of no pages", after.mapped_pages() == 0);
                self.saw("snapshot that fills the share", after.charge() == after.share);
            }
            8 => {
                self.saw(
                    "rewind that undoes bytes",
                    changed(|was, is| is.front && was.bytes != is.bytes),
                );
                self.saw("rewind that keeps a front", changed(|_, is| is.front));
                self.saw("rewind that frees a front", changed(|was, is| was.front && !is.front));
                self.saw(
                    "rewind of rights",
                    changed(|was, is| was.committed && was.rights != is.rights),
                );
                self.saw("rewind of an unmap", changed(|was, is| !was.mapped && is.mapped));
                self.saw("rewind of a map", changed(|was, is| was.mapped && !is.mapped));
                let anew = changed(|was, is| was.mapped && !was.committed && is.mapped);
                self.saw("rewind of a page mapped anew", anew);
                let anew = changed(|was, is| was.front && !was.committed && is.mapped);
                self.saw("rewind of a dirty page mapped anew", anew);
            }
            _ => {}
        }
    }
}

fn named_sandbox(machine: &Machine, call: &Call) -> Option<Arc<Sandbox>> {
    let number = usize::from(call.sandbox);
    (number < SANDBOXES).then(|| machine.sandbox(number).clone())
}

fn measured(case_of: fn(u64) -> Case, rolls: u64) -> Reach {
    let mut reach = Reach::default();
    for seed in 0..rolls {
        reach.measure(&case_of(seed));
    }
    println!("{:#?}\n{:?}", reach.events, reach.answers);
    reach
}

/// Every answer that the table allows a code, refusal 3 among them.
fn possible_answers() -> Vec<(u16, u16)> {
    let numbers: [&[u16]; 11] = [
        &[1, 2],
        &[0, 3, 4, 5, 6, 13],
        &[0, 3, 4, 6, 10, 11, 13, 14],
        &[0, 3, 4, 6, 14],
        &[0, 3, 4, 6, 9, 14],
        &[0, 3, 4, 6, 9],
        &[0, 3, 4, 6, 9, 12],
        &[0, 3, 4, 6, 7, 13],
        &[0, 3, 4, 6, 8],
        &[0, 3, 4, 6],
        &[0, 3, 4, 6, 8],
    ];
    let of_code = |(code, numbers): (usize, &&[u16])| {
        numbers.iter().map(|&number| (code as u16, number)).collect::<Vec<_>>()
    };
    numbers.iter().enumerate().flat_map(of_code).collect()
}

/// Nothing else is answered, and everything is met at least `enough` times.
fn assert_deep(reach: &Reach, enough: usize) {
    let seen: Vec<(u16, u16)> = reach.answers.keys().copied().collect();
    assert_eq!(seen, possible_answers());
    for (&(code, number), &count) in &reach.answers {
        // Images of a wrong length are rare.
        assert!(count >= if number == 3 { 4 } else { enough }, "{number} to {code}: {count}");
    }
    for (event, &count) in reach.events.iter().filter(|(event, _)| **event != ONE_FRAME) {
        assert!(count >= enough, "{event}: {count}");
    }
    let accepted: usize = CODES.map(|code| reach.answers[&(code, 0)]).sum();
    let all: usize = reach.answers.values().sum();
    assert!(2 * accepted > all, "{accepted} of {all} calls accepted");
}

#[test]
fn random_rolls_reach_every_answer_and_every_state() {
    let reach = measured(Case::random, 2_000);
    assert_deep(&reach, 40);
    assert!(reach.events[ONE_FRAME] >= 10);
    // Images of every size, one too large, and some not of whole pages.
    assert!((0..=65).all(|pages| reach.images.contains(&(256 * pages))), "{:?}", reach.images);
    assert!(reach.images.iter().any(|bytes| !bytes.is_multiple_of(256)));
    // Nearly all numbers of frames, and none that is wrong.
    assert!(reach.pools.len() >= 120, "{:?}", reach.pools);
    assert!(reach.pools.iter().all(|frames| (1..=128).contains(frames)));
}

#[test]
fn rolls_for_the_player_do_so_too() {
    assert_deep(&measured(Case::for_player, 1_000), 20);
}

#[test]
fn rolls_of_200_lines_do_so_too() {
    assert_deep(&measured(|seed| Case::of_lines(seed, 200), 1_000), 20);
}

#[test]
fn a_seed_gives_the_same_case_again() {
    for seed in 0..50 {
        assert_eq!(Case::random(seed), Case::random(seed));
        assert_ne!(Case::random(seed), Case::random(seed + 1));
    }
}

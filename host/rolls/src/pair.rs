//! "Two lists are compared so: up to and with an accepted snapshot of the sandbox
//! they are the same; each goes on with calls of its own up to an accepted rewind of
//! that sandbox; after it, the calls naming that sandbox are the same in the same
//! order, with any calls of others between them."

use crate::case::{random_frames, random_whole_image};
use crate::prng::Prng;
use crate::spoil::{boundary_call, wild_call};
use crate::steering::Steering;
use model::{Answering, Call, Machine, Reply, Sandbox, SANDBOXES};
use std::sync::Arc;

/// One of the two lists, with the places of the snapshot and of the rewind in it.
#[derive(Clone, Debug)]
pub struct List {
    pub calls: Vec<Call>,
    pub snapshot: usize,
    pub rewind: usize,
}

#[derive(Clone, Debug)]
pub struct Pair {
    pub sandbox: u16,
    pub image: Vec<u8>,
    pub frames: usize,
    pub lists: [List; 2],
}

/// A list in the making, with the machine that has played it so far.
#[derive(Clone)]
struct Making {
    machine: Machine,
    calls: Vec<Call>,
    steering: Steering,
}

impl Making {
    fn push(&mut self, call: Call) -> Reply {
        self.calls.push(call);
        self.machine.answer(&call)
    }

    /// Calls of the steering's choice, but for those that are not wanted.
    fn go_on(&mut self, count: usize, wanted: impl Fn(&Call) -> bool) {
        for _ in 0..count {
            let chosen = self.steering.next_call(&self.machine);
            let call = sometimes_spoilt(&mut self.steering.prng, chosen);
            if wanted(&call) {
                self.push(call);
            }
        }
    }
}

impl Pair {
    /// The pair of a seed.
    pub fn random(seed: u64) -> Pair {
        let mut prng = Prng::new(seed);
        let (image, frames) = (random_whole_image(&mut prng), random_frames(&mut prng));
        let sandbox = prng.below(SANDBOXES);
        let share = prng.within(1..=frames.min(48));
        let plain =
            |code, p1, p2| Call { code, sandbox: sandbox as u16, parameters: [p1, p2, 0, 0, 0] };

        // Alike up to and with an accepted snapshot.
        let machine = Machine::fresh(&image, frames);
        let mut common = Making { machine, calls: Vec::new(), steering: Steering::new(prng) };
        common.push(plain(1, share as u16, 0));
        let count = common.steering.prng.within(4..=40);
        common.go_on(count, |call| (call.code, call.sandbox) != (7, sandbox as u16));
        while common.push(plain(7, 0, 0)).0 != 0 {
            // The share does not suffice for it yet.
            let lowest = common.machine.sandbox(sandbox).pages.iter().position(|page| page.mapped);
            common.push(plain(3, lowest.expect("no page, no refusal") as u16, 1));
        }
        let snapshot = common.calls.len() - 1;

        // Calls of its own for each list, up to an accepted rewind.
        let mut making = [common.clone(), common];
        let mut rewind = [0; 2];
        for (which, list) in making.iter_mut().enumerate() {
            list.steering = Steering::new(Prng::new(2 * seed + which as u64));
            let count = list.steering.prng.within(0..=40);
            list.go_on(count, |_| true);
            rewind[which] = list.calls.len();
            assert_eq!(list.push(plain(8, 0, 0)).0, 0, "a rewind after a snapshot");
        }

        // The same calls naming the sandbox, with others' calls between them.
        let count = making[0].steering.prng.within(5..=30);
        for _ in 0..count {
            for list in &mut making {
                let others = list.steering.prng.below(4);
                list.go_on(others, |call| usize::from(call.sandbox) != sandbox);
            }
            let [first, second] = &mut making;
            let chosen = first.steering.call_for(&first.machine, sandbox);
            let call = sometimes_spoilt(&mut first.steering.prng, chosen);
            let call = Call { sandbox: sandbox as u16, ..call };
            first.push(call);
            second.push(call);
        }
        let mut rewinds = rewind.into_iter();
        let lists = making.map(|list| List {
            calls: list.calls,
            snapshot,
            rewind: rewinds.next().expect("one for each list"),
        });
        Pair { sandbox: sandbox as u16, image, frames, lists }
    }

    /// What the plain machine keeps for the sandbox just before the rewind of a list:
    /// where the two differ, the rewind has something to hide.
    pub fn before_rewind(&self, which: usize) -> Arc<Sandbox> {
        let list = &self.lists[which];
        let mut machine = Machine::fresh(&self.image, self.frames);
        for call in &list.calls[..list.rewind] {
            machine.answer(call);
        }
        machine.sandbox(usize::from(self.sandbox)).clone()
    }

    /// A machine's answers to the calls of a list that are compared; `None` where it
    /// refuses the snapshot or the rewind, so that nothing is claimed.
    pub fn compared(&self, list: &List, machine: &mut dyn Answering) -> Option<Vec<(Call, Reply)>> {
        let replies: Vec<Reply> = list.calls.iter().map(|call| machine.answer(call)).collect();
        self.compared_of(list, &replies)
    }

    /// The same of answers already given, one for each call of the list.
    pub fn compared_of(&self, list: &List, replies: &[Reply]) -> Option<Vec<(Call, Reply)>> {
        if replies[list.snapshot].0 != 0 || replies[list.rewind].0 != 0 {
            return None;
        }
        let after = list.calls.iter().copied().zip(replies.iter().copied()).skip(list.rewind + 1);
        Some(after.filter(|(call, _)| call.sandbox == self.sandbox).collect())
    }
}

/// "apart from the value of an accepted report": that value is struck out.
pub fn without_report_values(answers: &[(Call, Reply)]) -> Vec<(Call, Reply)> {
    let strike = |&(call, (number, value)): &(Call, Reply)| match (call.code, number) {
        (9, 0) => (call, (0, 0)),
        _ => (call, (number, value)),
    };
    answers.iter().map(strike).collect()
}

fn sometimes_spoilt(prng: &mut Prng, call: Call) -> Call {
    match prng.below(50) {
        0 => wild_call(prng),
        1 | 2 => boundary_call(prng, &call),
        _ => call,
    }
}

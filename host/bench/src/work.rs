//! What is measured: a roll played by one of the machines, or its calls made one at a time,
//! or an archive written, or one step of the copying machine, or a bare copy or comparison.

use crate::copying::Copying;
use crate::roll::text;
use crate::states::State;
use crate::{same_steps, unproved};
use model::PAGE_BYTES;
use std::hint::black_box;
use std::sync::atomic::{compiler_fence, Ordering};

const FRAMES: usize = 128;

/// Which machine plays a roll.
#[derive(Clone, Copy, PartialEq, Eq, Debug)]
pub enum Player {
    Proved,
    /// The unproved machine without its test of soundness.
    Trusting,
    Unproved,
    /// The unproved machine with the steps that the proved one had while it tested before
    /// every line.
    SameSteps,
    /// The trusting machine with a rewind that frees every front.
    Dropping,
    /// The trusting machine without runs of kept frames.
    KeepingNothing,
}

/// Which machine writes an archive.
#[derive(Clone, Copy, PartialEq, Eq, Debug)]
pub enum Writer {
    Proved,
    Unproved,
}

/// A machine as some calls leave it, ready to write archives.
#[derive(Clone, Debug)]
pub enum Left {
    Proved(gazhuppin::Machine),
    Unproved(Box<unproved::Left>),
}

impl Writer {
    /// The machine after these calls, over the common image.
    pub fn left(self, calls: &[model::Call]) -> Left {
        let image = crate::roll::image();
        if self == Writer::Unproved {
            let left = unproved::Left::after(&text(calls), &image, FRAMES);
            return Left::Unproved(Box::new(left));
        }
        let mut machine = gazhuppin::Machine::start(image, FRAMES).expect("right lengths");
        for &model::Call { code, sandbox, parameters } in calls {
            let told = machine.answer(&gazhuppin::Call { code, sandbox, parameters });
            assert!(told.is_ok(), "a measured call is refused");
        }
        Left::Proved(machine)
    }
}

impl Left {
    /// A sandbox's archive, to the start of `out`: number and value.
    pub fn archive(&mut self, sandbox: u16, out: &mut [u8]) -> (u32, u32) {
        match self {
            Left::Unproved(machine) => machine.archive(sandbox, out),
            Left::Proved(machine) => {
                let (state, pool, table) = (machine.state(), machine.pool(), machine.table());
                let image = machine.image();
                let told = gazhuppin::archive(state, pool, table, image, sandbox, out);
                (told.number, told.value)
            }
        }
    }
}

/// A piece of work. Each can be done again and again, and is the same each time.
#[derive(Clone, Debug)]
pub enum Work {
    Play {
        player: Player,
        roll: Vec<u8>,
        image: Vec<u8>,
    },
    /// A start of the proved machine and these calls, one at a time.
    Calls {
        calls: Vec<gazhuppin::Call>,
        image: Vec<u8>,
    },
    /// A sandbox's archive, in output of so many bytes.
    Archive {
        left: Left,
        sandbox: u16,
        room: usize,
    },
    /// The copying machine's snapshot: all 64 pages and their mappings.
    CopyingSnapshot,
    /// The copying machine's rewind: all 64 pages, compared and copied, and their mappings.
    CopyingRewind,
    /// So many pages copied, one after the other.
    BareCopy {
        pages: usize,
    },
    /// So many pages compared with equal ones, one after the other.
    BareComparison {
        pages: usize,
    },
}

/// What a played roll leaves.
pub struct Played {
    pub pool: Vec<u8>,
    pub table: Vec<u16>,
    pub out: Vec<u8>,
}

impl Work {
    pub fn play(player: Player, roll: Vec<u8>) -> Work {
        Work::Play { player, roll, image: crate::roll::image() }
    }

    pub fn calls(calls: &[model::Call]) -> Work {
        let number = |call: &model::Call| {
            let model::Call { code, sandbox, parameters } = *call;
            gazhuppin::Call { code, sandbox, parameters }
        };
        Work::Calls { calls: calls.iter().map(number).collect(), image: crate::roll::image() }
    }

    /// The work, ready to be done: nothing is allocated or prepared within it.
    pub fn prepared(&self) -> Box<dyn FnMut() + '_> {
        match self {
            Work::Play { player, roll, image } => {
                let (mut pool, mut table, mut out) = lent(roll);
                Box::new(move || {
                    let lines = player.play(roll, image, &mut pool, &mut table, &mut out);
                    black_box(lines);
                })
            }
            Work::Calls { calls, image } => {
                let (mut pool, mut table, _) = lent(&[]);
                let mut state = vec![0; gazhuppin::state_bytes()];
                Box::new(move || {
                    let started = gazhuppin::start(&mut state, &mut pool, &mut table, image);
                    let _ = black_box(started);
                    for call in calls {
                        let told = gazhuppin::call(&mut state, &mut pool, &mut table, image, call);
                        black_box(told);
                    }
                })
            }
            Work::Archive { left, sandbox, room } => {
                let (mut machine, mut out) = (left.clone(), vec![0; *room]);
                Box::new(move || {
                    black_box(machine.archive(*sandbox, black_box(&mut out)));
                })
            }
            Work::CopyingSnapshot => {
                let mut machine = Copying::new();
                Box::new(move || black_box(&mut machine).snapshot())
            }
            Work::CopyingRewind => {
                let mut machine = Copying::new();
                machine.snapshot();
                Box::new(move || {
                    black_box(black_box(&mut machine).rewind());
                })
            }
            Work::BareCopy { pages } => {
                let from = vec![1u8; pages * PAGE_BYTES];
                let mut to = vec![2u8; pages * PAGE_BYTES];
                Box::new(move || copy_pages(black_box(&from), black_box(&mut to)))
            }
            Work::BareComparison { pages } => {
                let (here, there) = (vec![1u8; pages * PAGE_BYTES], vec![1u8; pages * PAGE_BYTES]);
                Box::new(move || {
                    black_box(are_same_pages(black_box(&here), black_box(&there)));
                })
            }
        }
    }
}

/// Page by page: without the fence, which is no instruction, the compiler would make one copy of
/// all pages, as if dirty pages always lay side by side.
fn copy_pages(from: &[u8], to: &mut [u8]) {
    for (to, from) in to.chunks_exact_mut(PAGE_BYTES).zip(from.chunks_exact(PAGE_BYTES)) {
        to.copy_from_slice(from);
        compiler_fence(Ordering::SeqCst);
    }
}

fn are_same_pages(here: &[u8], there: &[u8]) -> bool {
    here.chunks_exact(PAGE_BYTES).zip(there.chunks_exact(PAGE_BYTES)).all(|(a, b)| a == b)
}

/// A pool, a table and room for the replies of a roll.
fn lent(roll: &[u8]) -> (Vec<u8>, Vec<u16>, Vec<u8>) {
    let lines = roll.len().div_ceil(model::LINE_BYTES);
    (vec![0; FRAMES * PAGE_BYTES], vec![0; 512], vec![0; 19 * lines])
}

impl Player {
    pub fn play(
        self,
        roll: &[u8],
        image: &[u8],
        pool: &mut [u8],
        table: &mut [u16],
        out: &mut [u8],
    ) -> usize {
        match self {
            Player::Proved => gazhuppin::play(roll, image, pool, table, out).unwrap_or(0),
            Player::Trusting => unproved::play_trusting(roll, image, pool, table, out),
            Player::Unproved => unproved::play(roll, image, pool, table, out),
            Player::SameSteps => same_steps::play(roll, image, pool, table, out),
            Player::Dropping => unproved::play_dropping(roll, image, pool, table, out),
            Player::KeepingNothing => unproved::play_keeping_nothing(roll, image, pool, table, out),
        }
    }

    /// Plays a roll over the common image, for what it leaves.
    pub fn played(self, roll: &[u8]) -> Played {
        let (mut pool, mut table, mut out) = lent(roll);
        let lines = self.play(roll, &crate::roll::image(), &mut pool, &mut table, &mut out);
        assert_eq!(lines, roll.len() / model::LINE_BYTES);
        Played { pool, table, out }
    }

    /// How many fronts the call of a line sets in sandbox 0, where it takes none away.
    pub fn fronts_set(self, calls: &[model::Call], line: usize) -> usize {
        let fronts = |lines: usize| self.played(&text(&calls[..lines])).fronts();
        fronts(line + 1) - fronts(line)
    }
}

impl Played {
    /// Asserts that the last `lines` were answered with this number, and all before them
    /// accepted.
    pub fn expect_last(&self, lines: usize, number: u32) {
        let last = self.out.len() / 19 - lines;
        for line in 0..self.out.len() / 19 {
            let told = self.reply(line).0;
            let expected = if line < last { State::before(line, told) } else { number };
            assert_eq!(told, expected, "line {line} of a measured roll");
        }
    }

    /// How many fronts sandbox 0 has.
    pub fn fronts(&self) -> usize {
        self.table[..64].iter().filter(|&&entry| entry != 0).count()
    }

    /// How many frames the entries of sandbox 0 name.
    pub fn named(&self) -> usize {
        self.table[..128].iter().filter(|&&entry| entry != 0).count()
    }

    /// The number and value of a line's reply, from 0 on.
    pub fn reply(&self, line: usize) -> (u32, u32) {
        let field = |at: usize| {
            let columns = &self.out[19 * line + at..19 * line + at + 6];
            let text = std::str::from_utf8(columns).expect("replies are text");
            text.trim().parse().expect("a reply has numbers")
        };
        (field(6), field(12))
    }
}

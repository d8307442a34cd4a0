//! The plain machine with frames: a pool, a table and runs kept after its marks. Without a
//! fault it leaves what the checks ask for; with one, something that no reply need
//! show and the checks of memory must.

use crate::difference::{Place, Side};
use crate::frames::Frames;
use crate::played::{filled_pool, filled_table, Lengths};
use gazhuppin::Played;
use model::{parse_line, reply_line, Answering, Call, Machine, Page, Sandbox};
use model::{LINES, LINE_BYTES, PAGES, PAGE_BYTES, SANDBOXES};
use rolls::Case;

#[derive(Clone, Copy, PartialEq, Eq, Debug)]
pub enum MemoryFault {
    None,
    /// A start does not clear the pool.
    StartLeavesPool,
    /// A start does not clear the last entry of the table.
    StartLeavesLastEntry,
    /// A start clears pool and table though a lent length is wrong.
    WrongLengthClears,
    /// An unmap frees a front but does not clear its frame.
    UnmapLeavesBytes,
    /// A rewind frees a front but does not clear its frame.
    RewindLeavesBytes,
    /// An unmap clears a front's frame but leaves the entry.
    UnmapLeavesEntry,
    /// An unmap frees all its fronts, but clears frames only as far as the first gap.
    UnmapLeavesBytesBehindGap,
    /// An unmap clears the back frame of a page that it passes over.
    UnmapClearsBackInGap,
    /// A snapshot enters the front's frame as back, but leaves it as front as well.
    SnapshotLeavesFront,
    /// The first write to a committed page goes into its back frame.
    WritesIntoBack,
    /// A rewind restores all bytes of a front but the last.
    RewindForgetsLastByte,
    /// A write stores its byte in the next frame of the pool too.
    WriteSpills,
    /// A rewind keeps a frame but does not clear it.
    KeepsUncleared,
    /// A rewind keeps a frame but leaves the entry that names it.
    KeptStaysNamed,
    /// A write takes a frame that a run keeps.
    WriteTakesKept,
    /// The frames that a map takes stay in their run.
    TakenStaysKept,
    /// The first new pages get the run's greatest frame numbers.
    GreatestFrameFirst,
    /// A map of two runs alike takes the newer.
    MapTakesNewer,
    /// Of two longest runs the newer gives up a frame.
    GivesUpNewer,
    /// Of nine runs the oldest of the shortest goes.
    OlderGoes,
    /// A new run takes the place of one as long.
    NewcomerWinsTie,
    /// Of one rewind's runs the higher page is older.
    HigherPageOlder,
    /// A surplus stays kept, but as the newest run.
    SurplusBecomesNewest,
}

impl MemoryFault {
    /// Every fault, without `None`.
    pub const ALL: [MemoryFault; 23] = [
        MemoryFault::StartLeavesPool,
        MemoryFault::StartLeavesLastEntry,
        MemoryFault::WrongLengthClears,
        MemoryFault::UnmapLeavesBytes,
        MemoryFault::RewindLeavesBytes,
        MemoryFault::UnmapLeavesEntry,
        MemoryFault::UnmapLeavesBytesBehindGap,
        MemoryFault::UnmapClearsBackInGap,
        MemoryFault::SnapshotLeavesFront,
        MemoryFault::WritesIntoBack,
        MemoryFault::RewindForgetsLastByte,
        MemoryFault::WriteSpills,
        MemoryFault::KeepsUncleared,
        MemoryFault::KeptStaysNamed,
        MemoryFault::WriteTakesKept,
        MemoryFault::TakenStaysKept,
        MemoryFault::GreatestFrameFirst,
        MemoryFault::MapTakesNewer,
        MemoryFault::GivesUpNewer,
        MemoryFault::OlderGoes,
        MemoryFault::NewcomerWinsTie,
        MemoryFault::HigherPageOlder,
        MemoryFault::SurplusBecomesNewest,
    ];

    /// Whether it is a fault of kept frames: as of `Fault`, a roll that tells it is longer.
    pub fn is_near_runs(self) -> bool {
        self as usize >= MemoryFault::KeepsUncleared as usize
    }
}

pub struct WithFrames {
    pub(crate) machine: Machine,
    pool: Vec<u8>,
    pub(crate) frames: Frames,
    pub(crate) fault: MemoryFault,
}

impl WithFrames {
    /// Play a case, in memory filled as it is for the proved machine.
    pub fn play(case: &Case, fault: MemoryFault) -> Played {
        let mut program = WithFrames::start(case, fault);
        let mut replies = Vec::new();
        for (index, line) in case.roll.chunks(LINE_BYTES).take(LINES).enumerate() {
            let (number, value) = match parse_line(line) {
                Some(call) => program.answer(&call),
                None => (1, 0),
            };
            replies.extend(reply_line(index + 1, number, value));
        }
        Played { replies, pool: program.pool, table: program.frames.table }
    }

    pub(crate) fn start(case: &Case, fault: MemoryFault) -> WithFrames {
        let machine = Machine::fresh(&case.image, case.frames);
        let lengths = Lengths::of(case);
        let (mut pool, mut table) = (filled_pool(lengths.pool), filled_table(lengths.table));
        if machine.lengths_are_right() || fault == MemoryFault::WrongLengthClears {
            if fault != MemoryFault::StartLeavesPool {
                pool.fill(0);
            }
            let left = usize::from(fault == MemoryFault::StartLeavesLastEntry);
            let cleared = table.len() - left;
            table[..cleared].fill(0);
        }
        let frames = Frames { table, rows: Default::default() };
        WithFrames { machine, pool, frames, fault }
    }

    pub(crate) fn answer(&mut self, call: &Call) -> model::Reply {
        let sandbox = usize::from(call.sandbox);
        let before = (sandbox < SANDBOXES).then(|| self.machine.sandbox(sandbox).clone());
        let reply = self.machine.answer(call);
        if let (0, Some(before)) = (reply.0, before) {
            self.follow(call, reply.1, &before);
        }
        reply
    }

    /// Take, fill, move, clear and free frames as the marks of an accepted call say.
    fn follow(&mut self, call: &Call, value: u32, before: &Sandbox) {
        let sandbox = usize::from(call.sandbox);
        match call.code {
            2 => self.grant(call, value as usize),
            8 => self.keep(sandbox, before),
            _ => {}
        }
        for at in 0..PAGES {
            let (was, now) = (&before.pages[at], self.machine.sandbox(sandbox).pages[at]);
            let place = |side| Place { sandbox, page: at, side }.index();
            let (front, back) = (place(Side::Front), place(Side::Back));
            if call.code == 7 {
                self.frames.table[back] = self.frames.table[front];
                if self.fault != MemoryFault::SnapshotLeavesFront {
                    self.frames.table[front] = 0;
                }
            } else if now.front {
                if self.frames.table[front] == 0 {
                    self.give_up(sandbox, before);
                    let into_back = self.fault == MemoryFault::WritesIntoBack && now.committed;
                    let kept = self.frames.table[back];
                    self.frames.table[front] =
                        if into_back && kept != 0 { kept } else { self.take() };
                }
                self.store(call, at, &now, self.frames.table[front]);
            } else if was.front {
                let kept = call.code == 8 && was.is_spared();
                let left = match self.fault {
                    MemoryFault::KeepsUncleared => kept,
                    MemoryFault::UnmapLeavesBytes => call.code == 3,
                    MemoryFault::RewindLeavesBytes => call.code == 8,
                    MemoryFault::UnmapLeavesBytesBehindGap => {
                        let first = usize::from(call.parameters[0]);
                        call.code == 3 && !before.all_mapped(first..at)
                    }
                    _ => false,
                };
                if !left {
                    self.frame(self.frames.table[front]).fill(0);
                }
                let leaves_entry = match self.fault {
                    MemoryFault::UnmapLeavesEntry => call.code == 3,
                    MemoryFault::KeptStaysNamed => kept,
                    _ => false,
                };
                if !leaves_entry {
                    self.frames.table[front] = 0;
                }
            } else if self.fault == MemoryFault::UnmapClearsBackInGap && call.code == 3 {
                let [first, count, ..] = call.parameters.map(usize::from);
                let passed_over = (first..first + count).contains(&at) && !was.mapped;
                if passed_over && self.frames.table[back] != 0 {
                    self.frame(self.frames.table[back]).fill(0);
                }
            }
        }
    }

    /// The entry of a frame that no entry names and no run keeps.
    fn take(&self) -> u16 {
        let frames = self.pool.len() / PAGE_BYTES;
        let mut held = self.frames.held();
        if self.fault == MemoryFault::WriteTakesKept {
            self.frames.rows.iter().flatten().for_each(|run| held &= !run);
        }
        let unheld = (0..frames).rev().find(|frame| held >> frame & 1 == 0);
        // Only a wrong machine runs out of frames.
        unheld.map_or(1, |frame| frame as u16 + 1)
    }

    fn store(&mut self, call: &Call, at: usize, page: &Page, entry: u16) {
        let forgets = self.fault == MemoryFault::RewindForgetsLastByte && call.code == 8;
        let restored = PAGE_BYTES - usize::from(forgets);
        self.frame(entry)[..restored].copy_from_slice(&page.bytes[..restored]);
        let written = call.code == 6 && usize::from(call.parameters[0]) / PAGE_BYTES == at;
        let next = usize::from(entry) * PAGE_BYTES + usize::from(call.parameters[0]) % PAGE_BYTES;
        if self.fault == MemoryFault::WriteSpills && written && next < self.pool.len() {
            self.pool[next] = call.parameters[1] as u8;
        }
    }

    fn frame(&mut self, entry: u16) -> &mut [u8] {
        &mut self.pool[(usize::from(entry) - 1) * PAGE_BYTES..][..PAGE_BYTES]
    }
}

//! A snapshot written as a roll that rebuilds it (request A9). The lines are counted first, since
//! nothing is to be touched where the output is too short; then they are printed.

use super::areas::{Area, Areas};
use super::machine::Machine;
use super::memory::Memory;
use super::page::{Backing, PageNo, PAGE_BYTES};
use super::request::Refusal;
use super::text::{parse, print_field, COLUMNS, LINE_BYTES};

/// "output memory shorter than the roll": of an archive, and of no call.
const OUTPUT_TOO_SHORT: u32 = 15;

/// A machine with memory of its own, as a roll leaves it.
#[derive(Clone, Debug)]
pub struct Left {
    machine: Machine<true, true, true>,
    pool: Vec<u8>,
    table: Vec<u16>,
    image: Vec<u8>,
}

impl Left {
    /// Plays a roll of well-formed lines from a start.
    pub fn after(roll: &[u8], image: &[u8], frames: usize) -> Left {
        let (mut pool, mut table) = (vec![0; frames * PAGE_BYTES], vec![0; 512]);
        let mut memory = Memory { pool: &mut pool, table: &mut table, image };
        let mut machine = Machine::start(&mut memory);
        for request in roll.chunks(LINE_BYTES).filter_map(parse) {
            let _ = machine.call(&mut memory, &request);
        }
        Left { machine, pool, table, image: image.to_vec() }
    }

    /// The archive of a sandbox's snapshot, to the start of `out`: number and value.
    pub fn archive(&mut self, sandbox: u16, out: &mut [u8]) -> (u32, u32) {
        let Left { machine, pool, table, image } = self;
        let memory = Memory { pool, table, image };
        match machine.archived(&memory, sandbox) {
            Ok(archived) => archived.write(out),
            Err(refusal) => (refusal as u32, 0),
        }
    }
}

/// What is to be written.
struct Archived<'a> {
    memory: &'a Memory<'a>,
    sandbox: u16,
    share: u8,
    areas: &'a Areas,
}

impl Machine<true, true, true> {
    fn archived<'a>(&'a self, memory: &'a Memory, sandbox: u16) -> Result<Archived<'a>, Refusal> {
        if !self.is_sound(memory) {
            return Err(Refusal::Unsound);
        }
        let kept = self.sandboxes.get(usize::from(sandbox)).filter(|kept| kept.open);
        let kept = kept.ok_or(Refusal::NotOpen)?;
        let areas = kept.snapshot.as_ref().ok_or(Refusal::NoSnapshot)?;
        Ok(Archived { memory, sandbox, share: kept.share, areas })
    }
}

impl Archived<'_> {
    fn write(&self, out: &mut [u8]) -> (u32, u32) {
        let areas = self.areas.as_slice();
        let read_only = || areas.iter().filter(|area| area.attributes.rights == 1);
        let changed = areas.iter().flat_map(|area| self.changed(area));
        let differing = changed.map(|(_, bytes, under)| {
            bytes.iter().zip(under).filter(|(byte, under)| byte != under).count()
        });
        let writes: usize = differing.sum();
        let lines = 2 + areas.len() + writes + read_only().count();
        if out.len() < lines * LINE_BYTES {
            return (OUTPUT_TOO_SHORT, 0);
        }
        let mut rest = out.chunks_exact_mut(LINE_BYTES);
        let mut put = |code: u16, parameters: [u16; 5]| {
            if let Some(line) = rest.next() {
                print_line(line, code, self.sandbox, parameters);
            }
        };
        put(1, [u16::from(self.share), 0, 0, 0, 0]);
        for area in areas {
            let (kind, image_page) = match area.attributes.backing {
                Backing::Anonymous => (0, 0),
                Backing::Image(first) => (1, u16::from(first.0)),
            };
            put(2, [u16::from(area.first.0), u16::from(area.pages), kind, image_page, 3]);
        }
        for (page, bytes, under) in areas.iter().flat_map(|area| self.changed(area)) {
            let first = usize::from(page.0) * PAGE_BYTES;
            for (offset, (byte, under)) in bytes.iter().zip(under).enumerate() {
                if byte != under {
                    put(6, [(first + offset) as u16, u16::from(*byte), 0, 0, 0]);
                }
            }
        }
        for area in read_only() {
            put(4, [u16::from(area.first.0), u16::from(area.pages), 1, 0, 0]);
        }
        put(7, [0; 5]);
        (0, lines as u32)
    }

    /// The pages of an area that have a back, with its bytes and those of the backing; the others
    /// are as their backing is.
    fn changed<'a>(&'a self, area: &'a Area) -> impl Iterator<Item = (PageNo, &'a [u8], &'a [u8])> {
        (0..area.pages).filter_map(|further| {
            let page = PageNo(area.first.0 + further);
            let back = self.memory.back(usize::from(self.sandbox), page)?;
            let backing = area.attributes.backing.advanced(further);
            let under = self.memory.bytes(None, backing);
            Some((page, self.memory.bytes(Some(back), backing), under))
        })
    }
}

/// "7 fields of 6 columns and a line feed".
fn print_line(out: &mut [u8], code: u16, sandbox: u16, [p1, p2, p3, p4, p5]: [u16; 5]) {
    let fields = [code, sandbox, p1, p2, p3, p4, p5];
    for (columns, field) in out.chunks_exact_mut(COLUMNS).zip(fields) {
        print_field(columns, u32::from(field));
    }
    out[LINE_BYTES - 1] = b'\n';
}

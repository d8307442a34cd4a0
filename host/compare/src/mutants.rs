//! Wrong machines, and the roll that tells each of them.

use crate::archives::check_writer;
use crate::check::{check, Expected};
use crate::difference::Difference;
use crate::played::{play, Lengths};
use crate::stepwise::Kept;
use crate::with_frames::{MemoryFault, WithFrames};
use gazhuppin::Played;
use model::{parse_line, play_on, Answering, ArchiveFault, Fault, Faulty, Machine};
use model::{LINES, LINE_BYTES, SANDBOXES};
use rolls::{shrink, Case, PLAYER_FRAMES};
use std::cell::OnceCell;
use std::fmt;

#[derive(Clone, Copy, PartialEq, Eq, Debug)]
pub enum Mutant {
    /// The proved machine is compared with a wrong plain machine.
    Machine(Fault),
    /// The plain machine with frames, wrong in its memory, is compared with the right
    /// plain machine.
    Memory(MemoryFault),
    /// The archives of the proved machine are compared with those of a wrong writer.
    Archive(ArchiveFault),
}

impl Mutant {
    pub fn all() -> impl Iterator<Item = Mutant> {
        let machines = Fault::ALL.into_iter().map(Mutant::Machine);
        let memories = MemoryFault::ALL.into_iter().map(Mutant::Memory);
        machines.chain(memories).chain(ArchiveFault::ALL.into_iter().map(Mutant::Archive))
    }

    /// What the comparison says of the mutant on this case; nothing if it is not told.
    pub fn difference(self, case: &Case) -> Option<Difference> {
        self.difference_on(&Known::of(case))
    }

    fn difference_on(self, known: &Known) -> Option<Difference> {
        let case = known.case;
        match self {
            Mutant::Machine(fault) => {
                let mut faulty = Faulty::fresh(&case.image, case.frames, fault);
                let replies = play_on(&case.roll, &mut faulty);
                let expected = Expected { replies, machine: faulty.machine().clone() };
                check(known.played(), &expected).err()
            }
            Mutant::Memory(fault) => {
                let whole = check(&WithFrames::play(case, fault), known.expected());
                // Numbers of frames and ages of runs show only from one call to the next.
                whole.and_then(|()| WithFrames::in_step(case, fault)).err()
            }
            Mutant::Archive(fault) => {
                let (kept, machine) = known.left();
                let written =
                    |sandbox| check_writer(kept, machine, &case.image, sandbox, fault).err();
                (0..=SANDBOXES as u16).find_map(written)
            }
        }
    }
}

impl fmt::Display for Mutant {
    fn fmt(&self, to: &mut fmt::Formatter) -> fmt::Result {
        match self {
            Mutant::Machine(fault) => write!(to, "{fault:?}"),
            Mutant::Memory(fault) => write!(to, "{fault:?}"),
            Mutant::Archive(fault) => write!(to, "{fault:?}"),
        }
    }
}

/// A case, with what the right machines make of it: made where it is first asked for, and the
/// same for every mutant.
pub struct Known<'a> {
    case: &'a Case,
    played: OnceCell<Played>,
    expected: OnceCell<Expected>,
    left: OnceCell<(Kept, Machine)>,
}

impl Known<'_> {
    pub fn of(case: &Case) -> Known<'_> {
        Known { case, played: OnceCell::new(), expected: OnceCell::new(), left: OnceCell::new() }
    }

    /// What the proved machine answers and leaves.
    fn played(&self) -> &Played {
        self.played.get_or_init(|| play(self.case, Lengths::of(self.case)))
    }

    /// What the plain machine answers and keeps.
    fn expected(&self) -> &Expected {
        self.expected.get_or_init(|| Expected::of(self.case, Lengths::of(self.case)))
    }

    /// What both keep after all calls.
    fn left(&self) -> &(Kept, Machine) {
        self.left.get_or_init(|| {
            let Case { roll, image, frames } = self.case;
            let mut kept = Kept::filled(Lengths::of(self.case));
            let mut machine = Machine::fresh(image, *frames);
            kept.start(image);
            for call in roll.chunks(LINE_BYTES).take(LINES).filter_map(parse_line) {
                kept.call(image, &call);
                machine.answer(&call);
            }
            (kept, machine)
        })
    }
}

/// A mutant with the first seed whose roll tells it, and that roll shrunk.
#[derive(Clone, Debug)]
pub struct Told {
    pub mutant: Mutant,
    pub seed: usize,
    /// The first seed whose replies differ, whatever is in memory.
    pub seed_by_replies: Option<usize>,
    pub shrunk: Case,
    pub difference: Difference,
}

/// Look for a roll that tells the mutant among those of the first seeds, which are given.
pub fn tell(mutant: Mutant, seeds: &[Known]) -> Option<Told> {
    let told = |seed: &usize| mutant.difference_on(&seeds[*seed]);
    let seed = (0..seeds.len()).find(|seed| told(seed).is_some())?;
    let by_reply = |seed: &usize| matches!(told(seed), Some(Difference::Reply { .. }));
    let seed_by_replies = match mutant {
        Mutant::Machine(_) => (seed..seeds.len()).find(by_reply),
        // It answers as the right machine does.
        Mutant::Memory(_) | Mutant::Archive(_) => None,
    };
    let shrunk = shrink(seeds[seed].case, |case| mutant.difference(case).is_some());
    let difference = mutant.difference(&shrunk)?;
    Some(Told { mutant, seed, seed_by_replies, shrunk, difference })
}

impl Told {
    pub fn lines(&self) -> usize {
        self.shrunk.roll.len().div_ceil(LINE_BYTES)
    }

    fn row(&self) -> String {
        let by_replies = self.seed_by_replies.map_or("none".to_string(), |seed| seed.to_string());
        let (seed, lines) = (self.seed, self.lines());
        let difference = without_columns(&self.difference.to_string());
        format!("| {} | {seed} | {by_replies} | {lines} | {difference} |\n", self.mutant)
    }

    /// The shrunk roll in the document's short form: call, sandbox, parameters, with
    /// the zeros at the end left out.
    fn roll_row(&self) -> String {
        let Case { roll, image, frames } = &self.shrunk;
        let mut parts: Vec<_> = roll.chunks(LINE_BYTES).map(short_line).collect();
        if parts.is_empty() {
            parts.push("no line".to_string());
        }
        if !image.is_empty() {
            parts.push(format!("with an image of {} bytes", image.len()));
        }
        if *frames != PLAYER_FRAMES {
            parts.push(format!("with {frames} frames"));
        }
        format!("| {} | {} |\n", self.mutant, parts.join(", "))
    }
}

fn short_line(line: &[u8]) -> String {
    if parse_line(line).is_none() {
        return "a malformed line".to_string();
    }
    let text = String::from_utf8_lossy(line);
    let mut fields: Vec<&str> = text.split_whitespace().collect();
    while fields.len() > 2 && fields.last() == Some(&"0") {
        fields.pop();
    }
    format!("`{}`", fields.join(" "))
}

/// Replies stand between backquotes; their columns are not kept in the table.
fn without_columns(text: &str) -> String {
    let part = |(index, part): (usize, &str)| match index % 2 {
        0 => part.to_string(),
        _ => part.split_whitespace().collect::<Vec<_>>().join(" "),
    };
    text.split('`').enumerate().map(part).collect::<Vec<_>>().join("`")
}

/// The table of the mutants as Markdown, and their rolls.
pub fn table(told: &[Told]) -> String {
    let mut text = String::from(
        "| fault | seed | seed by replies alone | lines of the shrunk roll | what told it |\n\
         |---|---|---|---|---|\n",
    );
    told.iter().for_each(|told| text += &told.row());
    text += "\n| fault | the shrunk roll |\n|---|---|\n";
    told.iter().for_each(|told| text += &told.roll_row());
    text
}

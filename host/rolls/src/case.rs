//! A random roll with its image and its number of frames.

use crate::count::Count;
use crate::prng::Prng;
use crate::spoil::{boundary_call, malformed_line, wild_call};
use crate::steering::Steering;
use model::{call_line, parse_line, play_on, Answering, Fault, Faulty, Machine, PAGE_BYTES};

/// The player plays "with 128 frames".
pub const PLAYER_FRAMES: usize = 128;

#[derive(Clone, PartialEq, Eq, Debug)]
pub struct Case {
    pub roll: Vec<u8>,
    /// Mostly whole pages and at most 64; rarely a wrong length.
    pub image: Vec<u8>,
    pub frames: usize,
}

/// What becomes of the call that the steering chose.
#[derive(Clone, Copy)]
enum Line {
    AsChosen,
    Boundary,
    Wild,
    Malformed,
}

impl Case {
    /// The case of a seed, with 1 to 128 frames.
    pub fn random(seed: u64) -> Case {
        let mut prng = Prng::new(seed);
        let frames = random_frames(&mut prng);
        Case::with_frames(prng, frames, None)
    }

    /// The case of a seed, with 1 to 128 frames and this many lines.
    pub fn of_lines(seed: u64, lines: usize) -> Case {
        let mut prng = Prng::new(seed);
        let frames = random_frames(&mut prng);
        Case::with_frames(prng, frames, Some(lines))
    }

    /// The case of a seed for the player.
    pub fn for_player(seed: u64) -> Case {
        Case::with_frames(Prng::new(seed), PLAYER_FRAMES, None)
    }

    fn with_frames(mut prng: Prng, frames: usize, lines: Option<usize>) -> Case {
        let image = random_image(&mut prng);
        let mut machine = Machine::fresh(&image, frames);
        let (fewest, most) = match machine.lengths_are_right() {
            true => prng.weighted(&[(1, (0, 12)), (6, (30, 150)), (1, (150, 400))]),
            // Of a wrong length: every line is refused.
            false => (0, 80),
        };
        // From numbers of its own, so that the lines before it are the same without it.
        let mut count = Count::random(Prng::new(prng.clone().number()));
        let drawn = prng.within(fewest..=most);
        let lines = lines.unwrap_or(drawn + count.lines);
        let cut = if prng.chance(15) { prng.within(1..=42) } else { 0 };
        let mut steering = Steering::new(prng);
        let mut roll = Vec::new();
        for at in 0..lines {
            let counted = if at + count.lines < lines { None } else { count.next_line(&machine) };
            let line = counted.unwrap_or_else(|| random_line(&mut steering, &machine));
            if let Some(call) = parse_line(&line) {
                machine.answer(&call);
            }
            roll.extend(line);
        }
        // Sometimes the last line is short.
        roll.truncate(roll.len().saturating_sub(cut));
        Case { roll, image, frames }
    }

    /// What the right machine prints.
    pub fn printed(&self) -> Vec<u8> {
        self.printed_with(Fault::None)
    }

    /// What a machine with a fault prints.
    pub fn printed_with(&self, fault: Fault) -> Vec<u8> {
        play_on(&self.roll, &mut Faulty::fresh(&self.image, self.frames, fault))
    }
}

fn random_line(steering: &mut Steering, machine: &Machine) -> Vec<u8> {
    let call = steering.next_call(machine);
    let prng = &mut steering.prng;
    let kinds = [(90, Line::AsChosen), (6, Line::Boundary), (2, Line::Wild), (2, Line::Malformed)];
    match prng.weighted(&kinds) {
        Line::AsChosen => call_line(&call),
        Line::Boundary => call_line(&boundary_call(prng, &call)),
        Line::Wild => call_line(&wild_call(prng)),
        Line::Malformed => malformed_line(prng, &call),
    }
}

pub(crate) fn random_frames(prng: &mut Prng) -> usize {
    let (fewest, most) =
        prng.weighted(&[(4, (128, 128)), (4, (1, 128)), (3, (8, 64)), (1, (1, 8))]);
    prng.within(fewest..=most)
}

fn random_image(prng: &mut Prng) -> Vec<u8> {
    let whole = |prng: &mut Prng| random_pages(prng) * PAGE_BYTES;
    let length = match prng.below(50) {
        // Not whole pages, or too many.
        0 => whole(prng) + prng.within(1..=255),
        1 => prng.within(65..=70) * PAGE_BYTES,
        _ => whole(prng),
    };
    image_of(prng, length)
}

/// Bytes of any kind, but in some images pages of zeros and pages alike: over these a page reads
/// the same with another backing.
fn image_of(prng: &mut Prng, length: usize) -> Vec<u8> {
    let mut image: Vec<u8> = (0..length).map(|_| prng.byte()).collect();
    let pages = length / PAGE_BYTES;
    let plain = if prng.chance(50) { pages } else { 0 };
    for at in 0..plain {
        let page = at * PAGE_BYTES..(at + 1) * PAGE_BYTES;
        let earlier = prng.below(at + 1) * PAGE_BYTES;
        match prng.below(4) {
            0 => image[page].fill(0),
            1 => image.copy_within(earlier..earlier + PAGE_BYTES, page.start),
            _ => {}
        }
    }
    image
}

/// An image of a right length.
pub(crate) fn random_whole_image(prng: &mut Prng) -> Vec<u8> {
    let length = random_pages(prng) * PAGE_BYTES;
    image_of(prng, length)
}

fn random_pages(prng: &mut Prng) -> usize {
    let (fewest, most) = prng.weighted(&[(2, (0, 0)), (4, (1, 6)), (4, (0, 64)), (1, (64, 64))]);
    prng.within(fewest..=most)
}

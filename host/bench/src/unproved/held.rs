//! Marks of frames, one bit a frame: of those that entries name, or of those of one run.

use super::page::FrameNo;

const WORD_BITS: usize = u64::BITS as usize;

#[derive(Clone, Copy, PartialEq, Eq, Debug)]
pub struct Held {
    words: [u64; 2],
}

impl Held {
    pub const NONE: Held = Held { words: [0; 2] };

    /// The marks of the frames that entries name; `None` where an entry names no frame
    /// of the pool, or a frame is named twice.
    pub fn named_by(entries: &[u16], frames: usize) -> Option<Held> {
        let mut held = Held::NONE;
        for &entry in entries.iter().filter(|&&entry| entry != 0) {
            if usize::from(entry) > frames {
                return None;
            }
            let frame = FrameNo((entry - 1) as u8);
            if held.contains(frame) {
                return None;
            }
            held.insert(frame);
        }
        Some(held)
    }

    pub fn contains(&self, frame: FrameNo) -> bool {
        let frame = usize::from(frame.0);
        self.words[frame / WORD_BITS] >> (frame % WORD_BITS) & 1 == 1
    }

    pub fn insert(&mut self, frame: FrameNo) {
        let frame = usize::from(frame.0);
        self.words[frame / WORD_BITS] |= 1 << (frame % WORD_BITS);
    }

    pub fn remove(&mut self, frame: FrameNo) {
        let frame = usize::from(frame.0);
        self.words[frame / WORD_BITS] &= !(1 << (frame % WORD_BITS));
    }

    pub fn count(&self) -> u32 {
        self.words.iter().map(|word| word.count_ones()).sum()
    }

    /// Whether no frame is marked in both.
    pub fn is_apart(&self, other: &Held) -> bool {
        self.words[0] & other.words[0] == 0 && self.words[1] & other.words[1] == 0
    }

    /// The frames marked in either.
    pub fn with_all(self, other: &Held) -> Held {
        Held { words: [self.words[0] | other.words[0], self.words[1] | other.words[1]] }
    }

    /// Whether a pool of so many frames has all the marked ones.
    pub fn is_of_pool(&self, frames: usize) -> bool {
        (0..2).all(|word| self.words[word] & !pool_marks(frames, word) == 0)
    }

    /// The greatest frame of a pool of so many frames that is not held.
    pub fn greatest_free(&self, frames: usize) -> Option<FrameNo> {
        (0..2).rev().find_map(|word| {
            let free = !self.words[word] & pool_marks(frames, word);
            let place = free.checked_ilog2()?;
            Some(FrameNo((word * WORD_BITS) as u8 + place as u8))
        })
    }

    /// The smallest marked frame, which is then no longer marked.
    pub fn take_least(&mut self) -> Option<FrameNo> {
        let word = self.words.iter().position(|&word| word != 0)?;
        let place = self.words[word].trailing_zeros();
        self.words[word] &= self.words[word] - 1;
        Some(FrameNo((word * WORD_BITS) as u8 + place as u8))
    }

    /// The marked frames, the smallest first.
    pub fn frames(mut self) -> impl Iterator<Item = FrameNo> {
        std::iter::from_fn(move || self.take_least())
    }
}

impl FromIterator<FrameNo> for Held {
    fn from_iter<Frames: IntoIterator<Item = FrameNo>>(frames: Frames) -> Held {
        let mut held = Held::NONE;
        frames.into_iter().for_each(|frame| held.insert(frame));
        held
    }
}

/// The marks, in a word, of all frames of a pool of so many.
fn pool_marks(frames: usize, word: usize) -> u64 {
    let places = frames.saturating_sub(word * WORD_BITS).min(WORD_BITS);
    u64::MAX.checked_shr((WORD_BITS - places) as u32).unwrap_or(0)
}

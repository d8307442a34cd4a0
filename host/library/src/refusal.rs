//! Why a call is refused, and what a call tells.

use std::fmt;

/// The rows of document 01's table "Turned back", and row 15, which request A9 adds; the
/// discriminant is the number answered.
///
/// A refused call changes nothing. Where several rows apply, the lowest is answered.
///
/// ```
/// use gazhuppin::{Machine, Refusal};
/// let mut machine = Machine::start([], 8).unwrap();
/// let refusal = machine.report(0).unwrap_err();
/// assert_eq!((refusal, refusal.number()), (Refusal::NotOpen, 4));
/// assert_eq!(refusal.to_string(), "refused 4: there is no such sandbox, or it is not open");
/// ```
#[derive(Clone, Copy, PartialEq, Eq, PartialOrd, Ord, Hash, Debug)]
pub enum Refusal {
    /// A line of a roll is malformed. A call is never refused so.
    Malformed = 1,
    /// The call's code is not 1 to 10.
    NoSuchCall = 2,
    /// A lent length is wrong, or the state is unsound.
    Unsound = 3,
    /// The sandbox is above 3, or, but for open, not open.
    NotOpen = 4,
    /// Open of an open sandbox.
    AlreadyOpen = 5,
    /// A parameter outside its limits, pages past page 63, image pages past the image.
    OutsideLimits = 6,
    /// The sandbox's snapshot was already taken.
    SnapshotTaken = 7,
    /// Rewind, compare or an archive without a snapshot.
    NoSnapshot = 8,
    /// Protect, read or write meets an unmapped page. (Unmap passes over it.)
    NotMapped = 9,
    /// Map at a named page meets a mapped page.
    AlreadyMapped = 10,
    /// Map at the lowest gap, and no gap is long enough.
    NoGap = 11,
    /// Write without the write right.
    NotWritable = 12,
    /// The shares would exceed the pool, or the charge the share.
    ShareExceeded = 13,
    /// More than 8 areas would result.
    TooManyAreas = 14,
    /// The memory for an archive is shorter than its lines. A call is never refused so.
    OutputTooShort = 15,
}

impl Refusal {
    /// Every refusal, in the order of the numbers.
    ///
    /// ```
    /// use gazhuppin::Refusal;
    /// assert!(Refusal::ALL.iter().map(|refusal| refusal.number()).eq(1..=15));
    /// ```
    pub const ALL: [Refusal; 15] = [
        Refusal::Malformed,
        Refusal::NoSuchCall,
        Refusal::Unsound,
        Refusal::NotOpen,
        Refusal::AlreadyOpen,
        Refusal::OutsideLimits,
        Refusal::SnapshotTaken,
        Refusal::NoSnapshot,
        Refusal::NotMapped,
        Refusal::AlreadyMapped,
        Refusal::NoGap,
        Refusal::NotWritable,
        Refusal::ShareExceeded,
        Refusal::TooManyAreas,
        Refusal::OutputTooShort,
    ];

    /// The number that document 01 gives it.
    ///
    /// ```
    /// assert_eq!(gazhuppin::Refusal::Unsound.number(), 3);
    /// ```
    pub fn number(self) -> u32 {
        self as u32
    }

    /// The refusal of a number; `None` for 0, which is no refusal, and for numbers above 15.
    ///
    /// ```
    /// use gazhuppin::Refusal;
    /// assert_eq!(Refusal::of(12), Some(Refusal::NotWritable));
    /// assert_eq!((Refusal::of(0), Refusal::of(16)), (None, None));
    /// ```
    pub fn of(number: u32) -> Option<Refusal> {
        Refusal::ALL.into_iter().find(|refusal| refusal.number() == number)
    }

    fn words(self) -> &'static str {
        match self {
            Refusal::Malformed => "the line is malformed",
            Refusal::NoSuchCall => "there is no call of this code",
            Refusal::Unsound => "a lent length is wrong, or the state is unsound",
            Refusal::NotOpen => "there is no such sandbox, or it is not open",
            Refusal::AlreadyOpen => "the sandbox is already open",
            Refusal::OutsideLimits => "a parameter is outside its limits",
            Refusal::SnapshotTaken => "the snapshot was already taken",
            Refusal::NoSnapshot => "there is no snapshot",
            Refusal::NotMapped => "a page is not mapped",
            Refusal::AlreadyMapped => "a page is already mapped",
            Refusal::NoGap => "no gap is long enough",
            Refusal::NotWritable => "the page may not be written",
            Refusal::ShareExceeded => "the pool or the share does not suffice",
            Refusal::TooManyAreas => "more than 8 areas would result",
            Refusal::OutputTooShort => "the output is shorter than the archive",
        }
    }
}

impl fmt::Display for Refusal {
    fn fmt(&self, formatter: &mut fmt::Formatter) -> fmt::Result {
        write!(formatter, "refused {}: {}", self.number(), self.words())
    }
}

impl std::error::Error for Refusal {}

/// What a call tells: the refusal's number or 0, and the value, which is 0 where it is refused.
///
/// ```
/// use gazhuppin::{Refusal, Told};
/// assert_eq!(Told { number: 0, value: 7 }.result(), Ok(7));
/// assert_eq!(Told { number: 4, value: 0 }.result(), Err(Refusal::NotOpen));
/// ```
#[repr(C)]
#[derive(Clone, Copy, PartialEq, Eq, Debug)]
pub struct Told {
    pub number: u32,
    pub value: u32,
}

impl Told {
    /// The value, or the refusal.
    ///
    /// # Panics
    /// If the number is above 15, which neither a call nor an archive answers.
    ///
    /// ```
    /// assert_eq!(gazhuppin::Told { number: 0, value: 255 }.result(), Ok(255));
    /// ```
    pub fn result(self) -> Result<u32, Refusal> {
        match self.number {
            0 => Ok(self.value),
            number => Err(Refusal::of(number).expect("the machine answers 0 to 15")),
        }
    }
}

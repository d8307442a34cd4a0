//! The calls: their words, and the numbers that cross to the machine.

use crate::PAGES;
use std::ops::Range;

/// A call in numbers, as a line of a roll has it. Any numbers may stand in it: what is no
/// call, or outside its limits, is refused.
///
/// ```
/// use gazhuppin::{Call, Machine};
/// let mut machine = Machine::start([], 8).unwrap();
/// let open = Call { code: 1, sandbox: 0, parameters: [8, 0, 0, 0, 0] };
/// assert_eq!(machine.answer(&open), Ok(0));
/// ```
#[derive(Clone, Copy, PartialEq, Eq, Hash, Debug)]
#[repr(C)]
pub struct Call {
    pub code: u16,
    pub sandbox: u16,
    /// p1 to p5; those unused must be 0.
    pub parameters: [u16; 5],
}

/// The rights of an area.
///
/// ```
/// use gazhuppin::Rights;
/// assert_eq!([Rights::Read as u16, Rights::ReadWrite as u16], [1, 3]);
/// ```
#[derive(Clone, Copy, PartialEq, Eq, Hash, Debug)]
pub enum Rights {
    Read = 1,
    ReadWrite = 3,
}

/// What a page reads before it is written.
///
/// ```
/// use gazhuppin::{Address, Backing, Machine, Place, Rights};
/// let mut machine = Machine::start([7; 2 * 256], 8).unwrap();
/// machine.open(0, 8).unwrap();
/// // Page 0 reads zero, page 1 the image's page 1.
/// machine.map(0, Place::At(0), 1, Backing::Anonymous, Rights::Read).unwrap();
/// machine.map(0, Place::At(1), 1, Backing::Image(1), Rights::Read).unwrap();
/// let read = [0, 1].map(|page| machine.read(0, Address::of(page, 9)));
/// assert_eq!(read, [Ok(0), Ok(7)]);
/// ```
#[derive(Clone, Copy, PartialEq, Eq, Hash, Debug)]
pub enum Backing {
    /// Zero bytes.
    Anonymous,
    /// The image, from this page of it on.
    Image(u8),
}

/// Where new pages are mapped.
///
/// ```
/// use gazhuppin::{Backing, Machine, Place, Refusal, Rights};
/// let mut machine = Machine::start([], 8).unwrap();
/// machine.open(0, 8).unwrap();
/// let mut map = |place| machine.map(0, place, 2, Backing::Anonymous, Rights::Read);
/// assert_eq!((map(Place::At(1)), map(Place::LowestGap)), (Ok(1), Ok(3)));
/// assert_eq!(map(Place::At(64)), Err(Refusal::OutsideLimits));
/// ```
#[derive(Clone, Copy, PartialEq, Eq, Hash, Debug)]
pub enum Place {
    /// From the first page of the lowest gap that is long enough.
    LowestGap,
    /// From this page on, 0 to 63.
    At(u8),
}

/// The address of a byte, 0 to 16,383.
///
/// ```
/// use gazhuppin::Address;
/// assert_eq!(Address::of(2, 5), Address(517));
/// ```
#[derive(Clone, Copy, PartialEq, Eq, PartialOrd, Ord, Hash, Debug)]
pub struct Address(pub u16);

impl Address {
    /// The address of a byte of a page, 0 to 63.
    ///
    /// ```
    /// use gazhuppin::Address;
    /// assert_eq!(Address::of(63, 255), Address(16_383));
    /// ```
    pub fn of(page: u8, offset: u8) -> Address {
        Address(u16::from_be_bytes([page, offset]))
    }
}

impl Call {
    pub(crate) fn open(sandbox: u16, share: u8) -> Call {
        Call::with(1, sandbox, [u16::from(share), 0, 0, 0, 0])
    }

    pub(crate) fn map(
        sandbox: u16,
        place: Place,
        pages: u8,
        backing: Backing,
        rights: Rights,
    ) -> Call {
        let first = match place {
            Place::LowestGap => PAGES,
            // 64 stands for the lowest gap, so a page 64 is handed on as the next wrong one.
            Place::At(page) if u16::from(page) == PAGES => PAGES + 1,
            Place::At(page) => u16::from(page),
        };
        let (kind, image_page) = match backing {
            Backing::Anonymous => (0, 0),
            Backing::Image(page) => (1, u16::from(page)),
        };
        Call::with(2, sandbox, [first, u16::from(pages), kind, image_page, rights as u16])
    }

    pub(crate) fn unmap(sandbox: u16, pages: Range<u8>) -> Call {
        let [first, count] = first_and_count(pages);
        Call::with(3, sandbox, [first, count, 0, 0, 0])
    }

    pub(crate) fn protect(sandbox: u16, pages: Range<u8>, rights: Rights) -> Call {
        let [first, count] = first_and_count(pages);
        Call::with(4, sandbox, [first, count, rights as u16, 0, 0])
    }

    pub(crate) fn read(sandbox: u16, address: Address) -> Call {
        Call::with(5, sandbox, [address.0, 0, 0, 0, 0])
    }

    pub(crate) fn write(sandbox: u16, address: Address, byte: u8) -> Call {
        Call::with(6, sandbox, [address.0, u16::from(byte), 0, 0, 0])
    }

    pub(crate) fn snapshot(sandbox: u16) -> Call {
        Call::with(7, sandbox, [0; 5])
    }

    pub(crate) fn rewind(sandbox: u16) -> Call {
        Call::with(8, sandbox, [0; 5])
    }

    pub(crate) fn report(sandbox: u16) -> Call {
        Call::with(9, sandbox, [0; 5])
    }

    pub(crate) fn compare(sandbox: u16) -> Call {
        Call::with(10, sandbox, [0; 5])
    }

    fn with(code: u16, sandbox: u16, parameters: [u16; 5]) -> Call {
        Call { code, sandbox, parameters }
    }
}

/// A range without a page has count 0, which is outside the limits.
fn first_and_count(pages: Range<u8>) -> [u16; 2] {
    [u16::from(pages.start), pages.len() as u16]
}

//! A machine that owns its memory.

use crate::{
    Address, Backing, Call, FRAME_BYTES, MOST_FRAMES, PAGES, Place, Refusal, Rights, TABLE_ENTRIES,
};
use crate::{call, start, state_bytes};
use std::fmt;
use std::ops::Range;

/// Four sandboxes over a pool of frames and an image. State, pool and table are its own:
/// others may look at them and cannot write them, so that every call gets them as the last
/// one left them, and the same image.
///
/// ```
/// use gazhuppin::{Address, Backing, Machine, Place, Rights};
/// let mut machine = Machine::start([], 8)?;
/// machine.open(0, 8)?;
/// let page = machine.map(0, Place::LowestGap, 2, Backing::Anonymous, Rights::ReadWrite)?;
/// let address = Address::of(page, 5);
/// machine.write(0, address, 7)?;
/// machine.snapshot(0)?;
/// machine.write(0, address, 9)?;
/// machine.rewind(0)?;
/// assert_eq!(machine.read(0, address)?, 7);
/// # Ok::<(), gazhuppin::Refusal>(())
/// ```
#[derive(Clone, PartialEq, Eq)]
pub struct Machine {
    state: Vec<u8>,
    pool: Vec<u8>,
    table: Vec<u16>,
    image: Vec<u8>,
}

impl Machine {
    /// Start a machine: four closed sandboxes over an image of 0 to 64 pages of 256 bytes and
    /// a pool of 1 to 128 frames. Other lengths are refused (3).
    ///
    /// ```
    /// use gazhuppin::{Machine, Refusal};
    /// assert!(Machine::start([], 128).is_ok());
    /// assert_eq!(Machine::start([], 129).unwrap_err(), Refusal::Unsound);
    /// assert_eq!(Machine::start([0; 255], 128).unwrap_err(), Refusal::Unsound);
    /// ```
    pub fn start(image: impl Into<Vec<u8>>, frames: usize) -> Result<Machine, Refusal> {
        // One frame too many is refused as any greater number is, and is soon made.
        let frames = frames.min(MOST_FRAMES + 1);
        let mut machine = Machine {
            state: vec![0; state_bytes()],
            pool: vec![0; FRAME_BYTES * frames],
            table: vec![0; TABLE_ENTRIES],
            image: image.into(),
        };
        let Machine { state, pool, table, image } = &mut machine;
        start(state, pool, table, image)?;
        Ok(machine)
    }

    /// Any call, in numbers. Gives its value.
    ///
    /// ```
    /// use gazhuppin::{Call, Machine, Refusal};
    /// let mut machine = Machine::start([], 8).unwrap();
    /// let unknown = Call { code: 0, sandbox: 0, parameters: [0; 5] };
    /// assert_eq!(machine.answer(&unknown), Err(Refusal::NoSuchCall));
    /// ```
    pub fn answer(&mut self, asked: &Call) -> Result<u32, Refusal> {
        let Machine { state, pool, table, image } = self;
        call(state, pool, table, image, asked).result()
    }

    /// Open a sandbox, 0 to 3, with a share of the pool, 1 to 128 frames.
    ///
    /// ```
    /// # let mut machine = gazhuppin::Machine::start([], 8)?;
    /// machine.open(3, 8)?;
    /// # Ok::<(), gazhuppin::Refusal>(())
    /// ```
    pub fn open(&mut self, sandbox: u16, share: u8) -> Result<(), Refusal> {
        self.answer(&Call::open(sandbox, share)).map(|_| ())
    }

    /// Map so many new pages. Gives the first.
    ///
    /// ```
    /// # use gazhuppin::{Backing, Machine, Place, Rights};
    /// # let mut machine = Machine::start([], 8)?;
    /// # machine.open(0, 8)?;
    /// let first = machine.map(0, Place::At(60), 4, Backing::Anonymous, Rights::Read)?;
    /// assert_eq!(first, 60);
    /// # Ok::<(), gazhuppin::Refusal>(())
    /// ```
    pub fn map(
        &mut self,
        sandbox: u16,
        place: Place,
        pages: u8,
        backing: Backing,
        rights: Rights,
    ) -> Result<u8, Refusal> {
        // Its value is a page number, 0 to 63.
        self.answer(&Call::map(sandbox, place, pages, backing, rights)).map(|page| page as u8)
    }

    /// Unmap pages. Their frames are freed and cleared. Pages that are not mapped are passed
    /// over, so that a whole range can be released whatever is in it; where none is mapped,
    /// nothing changes.
    ///
    /// ```
    /// # use gazhuppin::{Address, Backing, Machine, Place, Rights};
    /// # let mut machine = Machine::start([], 8)?;
    /// # machine.open(0, 8)?;
    /// machine.map(0, Place::At(0), 4, Backing::Anonymous, Rights::Read)?;
    /// machine.unmap(0, 1..3)?;
    /// assert!(machine.read(0, Address::of(1, 0)).is_err());
    /// machine.unmap(0, 0..64)?; // pages 0 and 3, and 62 that are not mapped
    /// assert!(machine.read(0, Address::of(3, 0)).is_err());
    /// # Ok::<(), gazhuppin::Refusal>(())
    /// ```
    pub fn unmap(&mut self, sandbox: u16, pages: Range<u8>) -> Result<(), Refusal> {
        self.answer(&Call::unmap(sandbox, pages)).map(|_| ())
    }

    /// Give pages other rights.
    ///
    /// ```
    /// # use gazhuppin::{Address, Backing, Machine, Place, Refusal, Rights};
    /// # let mut machine = Machine::start([], 8)?;
    /// # machine.open(0, 8)?;
    /// machine.map(0, Place::At(0), 4, Backing::Anonymous, Rights::ReadWrite)?;
    /// machine.protect(0, 0..2, Rights::Read)?;
    /// assert_eq!(machine.write(0, Address(0), 1), Err(Refusal::NotWritable));
    /// # Ok::<(), gazhuppin::Refusal>(())
    /// ```
    pub fn protect(
        &mut self,
        sandbox: u16,
        pages: Range<u8>,
        rights: Rights,
    ) -> Result<(), Refusal> {
        self.answer(&Call::protect(sandbox, pages, rights)).map(|_| ())
    }

    /// The byte at an address.
    ///
    /// ```
    /// # use gazhuppin::{Address, Backing, Machine, Place, Rights};
    /// # let mut machine = Machine::start([], 8)?;
    /// # machine.open(0, 8)?;
    /// machine.map(0, Place::At(63), 1, Backing::Anonymous, Rights::Read)?;
    /// assert_eq!(machine.read(0, Address(16_383))?, 0);
    /// # Ok::<(), gazhuppin::Refusal>(())
    /// ```
    pub fn read(&mut self, sandbox: u16, address: Address) -> Result<u8, Refusal> {
        // Its value is a byte.
        self.answer(&Call::read(sandbox, address)).map(|byte| byte as u8)
    }

    /// Store a byte at an address.
    ///
    /// ```
    /// # use gazhuppin::{Address, Backing, Machine, Place, Rights};
    /// # let mut machine = Machine::start([], 8)?;
    /// # machine.open(0, 8)?;
    /// machine.map(0, Place::At(0), 1, Backing::Anonymous, Rights::ReadWrite)?;
    /// machine.write(0, Address(5), 255)?;
    /// assert_eq!(machine.read(0, Address(5))?, 255);
    /// # Ok::<(), gazhuppin::Refusal>(())
    /// ```
    pub fn write(&mut self, sandbox: u16, address: Address, byte: u8) -> Result<(), Refusal> {
        self.answer(&Call::write(sandbox, address, byte)).map(|_| ())
    }

    /// Take the sandbox's snapshot, once. Gives the number of its pages.
    ///
    /// ```
    /// # let mut machine = gazhuppin::Machine::start([], 8)?;
    /// # machine.open(0, 8)?;
    /// assert_eq!(machine.snapshot(0)?, 0);
    /// # Ok::<(), gazhuppin::Refusal>(())
    /// ```
    pub fn snapshot(&mut self, sandbox: u16) -> Result<u32, Refusal> {
        self.answer(&Call::snapshot(sandbox))
    }

    /// Return to the sandbox's snapshot: its mappings, rights and bytes. The frames of anonymous
    /// areas mapped since are cleared and kept, within the share, for maps at the lowest gap.
    ///
    /// Gives the number of pages put back: those of the snapshot that were mapped all the while,
    /// since it or the last rewind, and whose bytes differed. A page written back is not counted,
    /// nor one that was unmapped, even if its number was mapped anew; rights do not count.
    ///
    /// ```
    /// # use gazhuppin::{Address, Backing, Machine, Place, Rights};
    /// # let mut machine = Machine::start([], 8)?;
    /// # machine.open(0, 8)?;
    /// machine.map(0, Place::At(0), 3, Backing::Anonymous, Rights::ReadWrite)?;
    /// machine.snapshot(0)?;
    /// machine.write(0, Address::of(0, 5), 7)?;
    /// machine.write(0, Address::of(1, 5), 7)?;
    /// assert_eq!(machine.rewind(0)?, 2);
    /// assert_eq!(machine.rewind(0)?, 0); // nothing was disturbed since
    /// # Ok::<(), gazhuppin::Refusal>(())
    /// ```
    pub fn rewind(&mut self, sandbox: u16) -> Result<u32, Refusal> {
        self.answer(&Call::rewind(sandbox))
    }

    /// How many frames the sandbox holds: those of its pages, those of its snapshot, and those it
    /// keeps from finished requests. Of all answers after a rewind only this one may tell of the
    /// request that was rewound.
    ///
    /// ```
    /// # use gazhuppin::{Address, Backing, Machine, Place, Refusal, Rights};
    /// # let mut machine = Machine::start([], 8)?;
    /// # machine.open(0, 8)?;
    /// # machine.snapshot(0)?;
    /// machine.map(0, Place::LowestGap, 2, Backing::Anonymous, Rights::ReadWrite)?;
    /// machine.write(0, Address(0), 7)?;
    /// machine.rewind(0)?;
    /// assert_eq!(machine.report(0)?, 1); // the frame is kept, and zero
    /// # Ok::<(), Refusal>(())
    /// ```
    pub fn report(&mut self, sandbox: u16) -> Result<u32, Refusal> {
        self.answer(&Call::report(sandbox))
    }

    /// Whether the sandbox is still clean: the lowest page at which it and its snapshot differ in
    /// being mapped, in rights or in bytes; `None` where they nowhere differ. Changes nothing.
    ///
    /// The machine says 64 where nothing differs, which is no page. Here that is `None`, so that
    /// it is never taken for a page, and a clean sandbox is asked for by name: `is_none()`.
    ///
    /// ```
    /// # use gazhuppin::{Address, Backing, Machine, Place, Refusal, Rights};
    /// # let mut machine = Machine::start([], 8)?;
    /// # machine.open(0, 8)?;
    /// machine.map(0, Place::At(5), 2, Backing::Anonymous, Rights::ReadWrite)?;
    /// assert_eq!(machine.compare(0), Err(Refusal::NoSnapshot));
    /// machine.snapshot(0)?;
    /// assert_eq!(machine.compare(0)?, None);
    /// machine.write(0, Address::of(6, 0), 1)?;
    /// assert_eq!(machine.compare(0)?, Some(6));
    /// // Written back, it agrees again.
    /// machine.write(0, Address::of(6, 0), 0)?;
    /// assert_eq!(machine.compare(0)?, None);
    /// # Ok::<(), gazhuppin::Refusal>(())
    /// ```
    pub fn compare(&mut self, sandbox: u16) -> Result<Option<u8>, Refusal> {
        // Its value is a page number, 0 to 63, or the number after the last page.
        let page = self.answer(&Call::compare(sandbox))?;
        Ok((page < u32::from(PAGES)).then_some(page as u8))
    }

    /// The state's bytes.
    ///
    /// ```
    /// let machine = gazhuppin::Machine::start([], 8).unwrap();
    /// assert_eq!(machine.state().len(), gazhuppin::state_bytes());
    /// ```
    ///
    /// They can be looked at, and not written:
    ///
    /// ```compile_fail
    /// let mut machine = gazhuppin::Machine::start([], 8).unwrap();
    /// machine.state()[0] = 1;
    /// ```
    pub fn state(&self) -> &[u8] {
        &self.state
    }

    /// The pool: frame f is `pool()[256 * f..][..256]`.
    ///
    /// ```
    /// let machine = gazhuppin::Machine::start([], 8).unwrap();
    /// assert_eq!(machine.pool(), [0; 8 * 256]);
    /// ```
    pub fn pool(&self) -> &[u8] {
        &self.pool
    }

    /// The page table: for sandbox s and page i the front entry is `table()[128 * s + i]` and
    /// the back entry `table()[128 * s + 64 + i]`, each 0 or a frame number plus one.
    ///
    /// ```
    /// let machine = gazhuppin::Machine::start([], 8).unwrap();
    /// assert_eq!(machine.table(), [0; 512]);
    /// ```
    pub fn table(&self) -> &[u16] {
        &self.table
    }

    /// The image that every call gets.
    ///
    /// ```
    /// let machine = gazhuppin::Machine::start([7; 256], 8).unwrap();
    /// assert_eq!(machine.image(), [7; 256]);
    /// ```
    pub fn image(&self) -> &[u8] {
        &self.image
    }
}

impl fmt::Debug for Machine {
    /// Its size alone: the memory would be pages of numbers.
    fn fmt(&self, formatter: &mut fmt::Formatter) -> fmt::Result {
        let (frames, image) = (self.pool.len() / FRAME_BYTES, self.image.len() / FRAME_BYTES);
        let mut shown = formatter.debug_struct("Machine");
        shown.field("frames", &frames).field("image_pages", &image).finish_non_exhaustive()
    }
}

//! A snapshot as a roll that rebuilds it.

use crate::{LINE_BYTES, MOST_ARCHIVE_LINES, Machine, Refusal, Told, c};

/// Write the archive of a sandbox's snapshot to the start of `out`: a roll that rebuilds it. Its
/// value is the number of lines, 43 bytes each, and bytes past them stay as they are. It is no
/// call: nothing but `out` changes.
///
/// The lines are an open with the sandbox's share; a map for each area of the snapshot; a write
/// for each byte that differs from its page's zero or image byte; a protect for each area with
/// rights 1; and a snapshot. Played from a start with the same image and as many frames, every
/// line is accepted, and the sandbox of the same number then has this snapshot, in its present
/// pages too.
///
/// It is refused where a lent length is wrong or the state is unsound (3), where the sandbox is
/// above 3 or not open (4), where it has no snapshot (8), and where `out` is shorter than the
/// lines (15). Then `out` stays as it is. `MOST_ARCHIVE_LINES` lines always suffice.
///
/// ```
/// use gazhuppin::{Call, LINE_BYTES, Refusal, Told};
/// let mut state = vec![0; gazhuppin::state_bytes()];
/// let (mut pool, mut table) = ([0; 8 * 256], [0; 512]);
/// gazhuppin::start(&mut state, &mut pool, &mut table, &[]).unwrap();
/// for (code, p1) in [(1, 8), (7, 0)] {
///     let call = Call { code, sandbox: 0, parameters: [p1, 0, 0, 0, 0] };
///     gazhuppin::call(&mut state, &mut pool, &mut table, &[], &call).result().unwrap();
/// }
/// let mut out = [b'x'; 2 * LINE_BYTES + 1];
/// let told = gazhuppin::archive(&state, &pool, &table, &[], 0, &mut out);
/// assert_eq!(told, Told { number: 0, value: 2 });
/// assert!(out.starts_with(b"     1     0     8     0     0     0     0\n     7     0"));
/// assert_eq!(out[2 * LINE_BYTES], b'x');
/// let short = gazhuppin::archive(&state, &pool, &table, &[], 0, &mut out[..85]);
/// assert_eq!(short.result(), Err(Refusal::OutputTooShort));
/// ```
pub fn archive(
    state: &[u8],
    pool: &[u8],
    table: &[u16],
    image: &[u8],
    sandbox: u16,
    out: &mut [u8],
) -> Told {
    // SAFETY: every pointer comes from a slice, so it is aligned, not null even for
    // length 0, and good for the length beside it; the one slice that is written is
    // borrowed as `&mut`, so it overlaps nothing. The function keeps no pointer.
    unsafe {
        c::gazhuppin_archive(
            state.as_ptr(),
            state.len(),
            pool.as_ptr(),
            pool.len(),
            table.as_ptr(),
            table.len(),
            image.as_ptr(),
            image.len(),
            sandbox,
            out.as_mut_ptr(),
            out.len(),
        )
    }
}

impl Machine {
    /// The archive of a sandbox's snapshot: a roll that rebuilds it, lines of 43 bytes. Nothing
    /// changes. It is refused where the sandbox is not open or has no snapshot.
    ///
    /// ```
    /// # use gazhuppin::{Address, Backing, Machine, Place, Refusal, Rights};
    /// let mut machine = Machine::start([], 8)?;
    /// machine.open(0, 8)?;
    /// machine.map(0, Place::At(3), 2, Backing::Anonymous, Rights::ReadWrite)?;
    /// machine.write(0, Address::of(3, 5), 7)?;
    /// assert_eq!(machine.archive(0), Err(Refusal::NoSnapshot));
    /// machine.snapshot(0)?;
    /// let roll = machine.archive(0)?;
    /// assert_eq!(roll.len(), 4 * gazhuppin::LINE_BYTES); // open, map, write, snapshot
    /// let played = gazhuppin::play_fresh(&roll, &[], 8);
    /// assert!(played.replies.ends_with(b"     4     0     2\n"));
    /// # Ok::<(), Refusal>(())
    /// ```
    pub fn archive(&self, sandbox: u16) -> Result<Vec<u8>, Refusal> {
        let mut out = vec![0; LINE_BYTES * MOST_ARCHIVE_LINES];
        let told =
            archive(self.state(), self.pool(), self.table(), self.image(), sandbox, &mut out);
        out.truncate(LINE_BYTES * told.result()? as usize);
        // Most archives are far shorter than the longest.
        out.shrink_to_fit();
        Ok(out)
    }
}

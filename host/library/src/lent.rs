//! A start and a call at a time, over memory that the caller keeps and lends.

use crate::{Call, Refusal, Told, c};

/// How many bytes a state has.
///
/// ```
/// let state = vec![0; gazhuppin::state_bytes()];
/// assert_eq!(state.len(), 932);
/// ```
pub fn state_bytes() -> usize {
    // SAFETY: the function takes nothing and gives a number; it uses no memory.
    unsafe { c::gazhuppin_state_bytes() }
}

/// Start a machine in the lent memory: a fresh state is written, pool and table cleared.
///
/// The state has `state_bytes()` bytes, the pool is 1 to 128 frames of 256 bytes, the table
/// 512 entries, the image 0 to 64 pages of 256 bytes. Where one of these lengths is wrong
/// the start is refused (3), and pool and table stay as they are; so does the state where
/// its own length is wrong, else it becomes a fresh one.
///
/// ```
/// let (mut pool, mut table) = ([7; 256], [7; 512]);
/// let mut state = vec![7; gazhuppin::state_bytes()];
/// gazhuppin::start(&mut state, &mut pool, &mut table, &[]).unwrap();
/// assert_eq!((pool, table), ([0; 256], [0; 512]));
/// ```
pub fn start(
    state: &mut [u8],
    pool: &mut [u8],
    table: &mut [u16],
    image: &[u8],
) -> Result<(), Refusal> {
    // SAFETY: as in `call`.
    let number = unsafe {
        c::gazhuppin_start(
            state.as_mut_ptr(),
            state.len(),
            pool.as_mut_ptr(),
            pool.len(),
            table.as_mut_ptr(),
            table.len(),
            image.as_ptr(),
            image.len(),
        )
    };
    Told { number, value: 0 }.result().map(|_| ())
}

/// One call on the machine in the lent memory.
///
/// Whatever is lent, the call ends, and a refused call leaves every byte as it was. The
/// answers are those of document 01's plain machine if state, pool and table come from a
/// start that was not refused, each call gets them as the last one left them, and every
/// call gets the same image. `Machine` sees to that by itself.
///
/// ```
/// use gazhuppin::{Call, Refusal};
/// let mut state = vec![0; gazhuppin::state_bytes()];
/// let (mut pool, mut table) = ([0; 8 * 256], [0; 512]);
/// gazhuppin::start(&mut state, &mut pool, &mut table, &[]).unwrap();
/// let open = Call { code: 1, sandbox: 0, parameters: [8, 0, 0, 0, 0] };
/// let mut call = || gazhuppin::call(&mut state, &mut pool, &mut table, &[], &open).result();
/// assert_eq!((call(), call()), (Ok(0), Err(Refusal::AlreadyOpen)));
/// ```
pub fn call(
    state: &mut [u8],
    pool: &mut [u8],
    table: &mut [u16],
    image: &[u8],
    call: &Call,
) -> Told {
    // SAFETY: every pointer comes from a slice, so it is aligned, not null even for
    // length 0, and good for the length beside it; the three slices that are written
    // are borrowed as `&mut`, so they overlap nothing. The function keeps no pointer.
    unsafe {
        c::gazhuppin_call(
            state.as_mut_ptr(),
            state.len(),
            pool.as_mut_ptr(),
            pool.len(),
            table.as_mut_ptr(),
            table.len(),
            image.as_ptr(),
            image.len(),
            *call,
        )
    }
}

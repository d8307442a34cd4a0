//! A map that takes a run of kept frames stores nothing in the pool: it is made while the pool is
//! read-only, where a store would end the process.

use gazhuppin::{Call, FRAME_BYTES, MOST_FRAMES};
use std::alloc::{alloc_zeroed, dealloc, Layout};
use std::env;
use std::ffi::{c_int, c_void};
use std::os::unix::process::ExitStatusExt;
use std::process::Command;

unsafe extern "C" {
    fn mprotect(address: *mut c_void, bytes: usize, protection: c_int) -> c_int;
}

const PROTECT_READ: c_int = 1;
const PROTECT_WRITE: c_int = 2;
const SIGSEGV: i32 = 11;
const POOL_BYTES: usize = MOST_FRAMES * FRAME_BYTES;
/// The pool fills whole pages of the processor, so that nothing else is protected with it.
const LAYOUT: Layout = match Layout::from_size_align(POOL_BYTES, 4096) {
    Ok(layout) => layout,
    Err(_) => panic!("a power of two"),
};

/// A started machine whose pool can be made read-only.
struct Guarded {
    state: Vec<u8>,
    pool: *mut u8,
    table: Vec<u16>,
}

impl Guarded {
    fn start() -> Guarded {
        // SAFETY: the layout is not of size 0.
        let pool = unsafe { alloc_zeroed(LAYOUT) };
        assert!(!pool.is_null());
        let mut state = vec![0; gazhuppin::state_bytes()];
        let mut table = vec![0; gazhuppin::TABLE_ENTRIES];
        // SAFETY: the memory is the machine's own, and has so many bytes.
        let lent = unsafe { std::slice::from_raw_parts_mut(pool, POOL_BYTES) };
        gazhuppin::start(&mut state, lent, &mut table, &[]).expect("right lengths");
        Guarded { state, pool, table }
    }

    fn protect(&mut self, protection: c_int) {
        // SAFETY: whole pages of the machine's own memory.
        assert_eq!(unsafe { mprotect(self.pool.cast(), POOL_BYTES, protection) }, 0);
    }

    /// The value of an accepted call.
    fn call(&mut self, code: u16, parameters: [u16; 5]) -> u32 {
        // SAFETY: as in `start`; where it is read-only a store ends the process.
        let pool = unsafe { std::slice::from_raw_parts_mut(self.pool, POOL_BYTES) };
        let call = Call { code, sandbox: 0, parameters };
        let told = gazhuppin::call(&mut self.state, pool, &mut self.table, &[], &call);
        told.result().expect("accepted")
    }

    fn fronts(&self) -> usize {
        self.table[..64].iter().filter(|&&entry| entry != 0).count()
    }

    /// A snapshot of no page, and a request that wrote so many pages and was rewound.
    fn after_request(pages: u16) -> Guarded {
        let mut machine = Guarded::start();
        machine.call(1, [128, 0, 0, 0, 0]);
        machine.call(7, [0; 5]);
        machine.call(2, [64, pages, 0, 0, 3]);
        for page in 0..pages {
            machine.call(6, [256 * page, 1, 0, 0, 0]);
        }
        machine.call(8, [0; 5]);
        machine
    }
}

impl Drop for Guarded {
    fn drop(&mut self) {
        self.protect(PROTECT_READ | PROTECT_WRITE);
        // SAFETY: allocated with this layout.
        unsafe { dealloc(self.pool, LAYOUT) };
    }
}

#[test]
fn a_map_that_takes_a_run_stores_nothing_in_the_pool() {
    for pages in [1, 8, 16, 64] {
        let mut machine = Guarded::after_request(pages);
        assert_eq!((machine.fronts(), machine.call(9, [0; 5])), (0, u32::from(pages)));
        machine.protect(PROTECT_READ);
        assert_eq!(machine.call(2, [64, pages, 0, 0, 3]), 0);
        assert_eq!(machine.fronts(), usize::from(pages));
        assert_eq!(machine.call(9, [0; 5]), u32::from(pages));
    }
}

/// So that the test above is one: this one runs itself again, to be ended by a write.
#[test]
fn a_store_to_the_read_only_pool_ends_the_process() {
    const NAME: &str = "a_store_to_the_read_only_pool_ends_the_process";
    if env::var_os(NAME).is_some() {
        let mut machine = Guarded::after_request(1);
        machine.call(2, [64, 1, 0, 0, 3]);
        machine.protect(PROTECT_READ);
        machine.call(6, [0, 1, 0, 0, 0]);
        return;
    }
    let program = env::current_exe().expect("the test's program");
    let test = format!("kept::{NAME}");
    let output = Command::new(program).args([&test, "--exact"]).env(NAME, "1").output();
    assert_eq!(output.expect("it runs").status.signal(), Some(SIGSEGV));
}

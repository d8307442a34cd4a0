//! The functions of the proved library, as `include/gazhuppin.h` declares them: a slice crosses
//! as a pointer and a length, a call as a struct of seven numbers.

use crate::{Call, Told};

unsafe extern "C" {
    pub fn gazhuppin_lines(roll_bytes: usize) -> usize;
    pub fn gazhuppin_play(
        roll: *const u8,
        roll_bytes: usize,
        image: *const u8,
        image_bytes: usize,
        pool: *mut u8,
        pool_bytes: usize,
        table: *mut u16,
        table_entries: usize,
        out: *mut u8,
        out_bytes: usize,
    ) -> usize;
    pub fn gazhuppin_state_bytes() -> usize;
    pub fn gazhuppin_start(
        state: *mut u8,
        state_bytes: usize,
        pool: *mut u8,
        pool_bytes: usize,
        table: *mut u16,
        table_entries: usize,
        image: *const u8,
        image_bytes: usize,
    ) -> u32;
    pub fn gazhuppin_call(
        state: *mut u8,
        state_bytes: usize,
        pool: *mut u8,
        pool_bytes: usize,
        table: *mut u16,
        table_entries: usize,
        image: *const u8,
        image_bytes: usize,
        request: Call,
    ) -> Told;
    pub fn gazhuppin_archive(
        state: *const u8,
        state_bytes: usize,
        pool: *const u8,
        pool_bytes: usize,
        table: *const u16,
        table_entries: usize,
        image: *const u8,
        image_bytes: usize,
        sandbox: u16,
        out: *mut u8,
        out_bytes: usize,
    ) -> Told;
}

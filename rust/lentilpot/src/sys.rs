//! The library's functions as `include/lentilpot.h` declares them, on slices of any lengths. All that
//! is unsafe here is inside: a slice is a valid pointer and length, and a `&mut` one overlaps no
//! other, which is what the library asks; it keeps no pointer past a call.
#![allow(clippy::too_many_arguments)]

#[cfg(feature = "desk")]
mod build;
#[cfg(feature = "desk")]
mod desk;
#[cfg(feature = "desk")]
pub use build::*;
#[cfg(feature = "desk")]
pub use desk::*;

mod raw {
    extern "C" {
        pub fn lp_session_size() -> u32;
        pub fn lp_set_up(
            table: *mut u8,
            table_len: usize,
            bank: *const u8,
            bank_len: usize,
            software: *const u8,
            software_len: usize,
            floor: u32,
            k: u64,
            v: u64,
            holidays: *const u32,
            holidays_len: usize,
        ) -> u32;
        pub fn lp_add(
            table: *mut u8,
            table_len: usize,
            today: u32,
            who: *const u8,
            who_len: usize,
            part1: u64,
            part2: u64,
            check: u32,
            generation: u32,
            types: u32,
            agreed: u32,
            leave: u32,
            length_given: u32,
            length: u32,
        ) -> u32;
        pub fn lp_enter(
            table: *mut u8,
            table_len: usize,
            today: u32,
            who: *const u8,
            who_len: usize,
            part1: u64,
            part2: u64,
            check: u32,
            generation: u32,
        ) -> u32;
        pub fn lp_order(
            table: *mut u8,
            table_len: usize,
            today: u32,
            who: *const u8,
            who_len: usize,
            clock: u64,
        ) -> u32;
        pub fn lp_open(
            table: *mut u8,
            table_len: usize,
            session: *mut u8,
            session_len: usize,
            today: u32,
            time: u32,
            data_type: u32,
            clock: u64,
        ) -> u32;
        pub fn lp_read(
            table: *mut u8,
            table_len: usize,
            session: *mut u8,
            session_len: usize,
            input: *const u8,
            input_len: usize,
            reply: *mut u8,
            reply_len: usize,
        ) -> u64;
        pub fn lp_end(
            table: *mut u8,
            table_len: usize,
            session: *mut u8,
            session_len: usize,
            reply: *mut u8,
            reply_len: usize,
        ) -> u64;
    }
}

/// How many bytes a session takes.
pub fn lp_session_size() -> u32 {
    // SAFETY: it takes nothing.
    unsafe { raw::lp_session_size() }
}

/// Sets up a table; 0 or the refusal.
pub fn lp_set_up(table: &mut [u8], bank: &[u8], software: &[u8], floor: u32, k: u64, v: u64, holidays: &[u32]) -> u32 {
    // SAFETY: pointers and lengths are slices'.
    unsafe {
        raw::lp_set_up(
            table.as_mut_ptr(),
            table.len(),
            bank.as_ptr(),
            bank.len(),
            software.as_ptr(),
            software.len(),
            floor,
            k,
            v,
            holidays.as_ptr(),
            holidays.len(),
        )
    }
}

/// Adds a customer; 0 or the refusal.
pub fn lp_add(
    table: &mut [u8],
    today: u32,
    who: &[u8],
    part1: u64,
    part2: u64,
    check: u32,
    generation: u32,
    types: u32,
    agreed: u32,
    leave: u32,
    length_given: u32,
    length: u32,
) -> u32 {
    // SAFETY: pointers and lengths are slices'.
    unsafe {
        raw::lp_add(
            table.as_mut_ptr(),
            table.len(),
            today,
            who.as_ptr(),
            who.len(),
            part1,
            part2,
            check,
            generation,
            types,
            agreed,
            leave,
            length_given,
            length,
        )
    }
}

/// Enters a transport key; 0 or the refusal.
pub fn lp_enter(table: &mut [u8], today: u32, who: &[u8], part1: u64, part2: u64, check: u32, generation: u32) -> u32 {
    // SAFETY: pointers and lengths are slices'.
    unsafe {
        raw::lp_enter(table.as_mut_ptr(), table.len(), today, who.as_ptr(), who.len(), part1, part2, check, generation)
    }
}

/// Orders a working key; 0 or the refusal.
pub fn lp_order(table: &mut [u8], today: u32, who: &[u8], clock: u64) -> u32 {
    // SAFETY: pointers and lengths are slices'.
    unsafe { raw::lp_order(table.as_mut_ptr(), table.len(), today, who.as_ptr(), who.len(), clock) }
}

/// Opens a file; 0 or the refusal.
pub fn lp_open(table: &mut [u8], session: &mut [u8], today: u32, time: u32, data_type: u32, clock: u64) -> u32 {
    // SAFETY: pointers and lengths are slices'.
    unsafe {
        raw::lp_open(
            table.as_mut_ptr(),
            table.len(),
            session.as_mut_ptr(),
            session.len(),
            today,
            time,
            data_type,
            clock,
        )
    }
}

/// Takes bytes of the file; an answer for `taken`, `reply_length`, `finished` and `refusal`.
pub fn lp_read(table: &mut [u8], session: &mut [u8], input: &[u8], reply: &mut [u8]) -> u64 {
    // SAFETY: pointers and lengths are slices'.
    unsafe {
        raw::lp_read(
            table.as_mut_ptr(),
            table.len(),
            session.as_mut_ptr(),
            session.len(),
            input.as_ptr(),
            input.len(),
            reply.as_mut_ptr(),
            reply.len(),
        )
    }
}

/// Signals the file's end; an answer as `lp_read` gives.
pub fn lp_end(table: &mut [u8], session: &mut [u8], reply: &mut [u8]) -> u64 {
    // SAFETY: pointers and lengths are slices'.
    unsafe {
        raw::lp_end(
            table.as_mut_ptr(),
            table.len(),
            session.as_mut_ptr(),
            session.len(),
            reply.as_mut_ptr(),
            reply.len(),
        )
    }
}

/// Bytes of the input taken: bits 0 to 39 of an answer.
pub fn taken(answer: u64) -> usize {
    (answer & 0xFF_FFFF_FFFF) as usize
}

/// Bytes of the reply, 0 where there is none: bits 40 to 55.
pub fn reply_length(answer: u64) -> usize {
    (answer >> 40 & 0xFFFF) as usize
}

/// Whether the file is finished: bit 56.
pub fn finished(answer: u64) -> bool {
    answer >> 56 & 1 == 1
}

/// The refusal, 0 where the call was served: bits 57 to 63.
pub fn refusal(answer: u64) -> u32 {
    (answer >> 57) as u32
}

//! The desk's functions: the archive `libdesk_edge.a`.

mod raw {
    extern "C" {
        pub fn lp_held_size() -> u32;
        pub fn lp_sent_size() -> u32;
        pub fn lp_held_open(
            held: *mut u8,
            held_len: usize,
            own: *const u8,
            own_len: usize,
            bank: *const u8,
            bank_len: usize,
            part1: u64,
            part2: u64,
            check: u32,
            generation: u32,
        ) -> u32;
        pub fn lp_held_enter(
            held: *mut u8,
            held_len: usize,
            part1: u64,
            part2: u64,
            check: u32,
            generation: u32,
        ) -> u32;
        pub fn lp_held_values(held: *const u8, held_len: usize, values: *mut u32, values_len: usize) -> u32;
        pub fn lp_sent_of(
            first: *const u8,
            first_len: usize,
            closing: *const u8,
            closing_len: usize,
            sent: *mut u8,
            sent_len: usize,
        ) -> u32;
        pub fn lp_check_esi(
            held: *mut u8,
            held_len: usize,
            sent: *const u8,
            sent_len: usize,
            reply: *const u8,
            reply_len: usize,
            word: *mut u32,
            word_len: usize,
        ) -> u32;
        pub fn lp_check_pte(
            held: *mut u8,
            held_len: usize,
            sent: *const u8,
            sent_len: usize,
            reply: *const u8,
            reply_len: usize,
            word: *mut u32,
            word_len: usize,
        ) -> u32;
    }
}

/// How many bytes a desk takes.
pub fn lp_held_size() -> u32 {
    // SAFETY: it takes nothing.
    unsafe { raw::lp_held_size() }
}

/// How many bytes what was sent takes.
pub fn lp_sent_size() -> u32 {
    // SAFETY: it takes nothing.
    unsafe { raw::lp_sent_size() }
}

/// Opens a desk; 0 or the refusal.
pub fn lp_held_open(
    held: &mut [u8],
    own: &[u8],
    bank: &[u8],
    part1: u64,
    part2: u64,
    check: u32,
    generation: u32,
) -> u32 {
    // SAFETY: pointers and lengths are slices'.
    unsafe {
        raw::lp_held_open(
            held.as_mut_ptr(),
            held.len(),
            own.as_ptr(),
            own.len(),
            bank.as_ptr(),
            bank.len(),
            part1,
            part2,
            check,
            generation,
        )
    }
}

/// Enters the next transport key; 0 or the refusal.
pub fn lp_held_enter(held: &mut [u8], part1: u64, part2: u64, check: u32, generation: u32) -> u32 {
    // SAFETY: pointers and lengths are slices'.
    unsafe { raw::lp_held_enter(held.as_mut_ptr(), held.len(), part1, part2, check, generation) }
}

/// The current keys' generations and check values: transport, then working; 0 or the refusal.
pub fn lp_held_values(held: &[u8], values: &mut [u32]) -> u32 {
    // SAFETY: pointers and lengths are slices'.
    unsafe { raw::lp_held_values(held.as_ptr(), held.len(), values.as_mut_ptr(), values.len()) }
}

/// What was sent: of an ESI, given twice, or of a SUO and its VAR; 0 or the refusal.
pub fn lp_sent_of(first: &[u8], closing: &[u8], sent: &mut [u8]) -> u32 {
    // SAFETY: pointers and lengths are slices'.
    unsafe {
        raw::lp_sent_of(first.as_ptr(), first.len(), closing.as_ptr(), closing.len(), sent.as_mut_ptr(), sent.len())
    }
}

/// Checks a bank's ESI; 0 where all pass, the finding, or the refusal.
pub fn lp_check_esi(held: &mut [u8], sent: &[u8], reply: &[u8], word: &mut [u32]) -> u32 {
    // SAFETY: pointers and lengths are slices'.
    unsafe {
        raw::lp_check_esi(
            held.as_mut_ptr(),
            held.len(),
            sent.as_ptr(),
            sent.len(),
            reply.as_ptr(),
            reply.len(),
            word.as_mut_ptr(),
            word.len(),
        )
    }
}

/// Checks a PTE; 0 where all pass, the finding, or the refusal. No bytes are a PTE that never came.
pub fn lp_check_pte(held: &mut [u8], sent: &[u8], reply: &[u8], word: &mut [u32]) -> u32 {
    // SAFETY: pointers and lengths are slices'.
    unsafe {
        raw::lp_check_pte(
            held.as_mut_ptr(),
            held.len(),
            sent.as_ptr(),
            sent.len(),
            reply.as_ptr(),
            reply.len(),
            word.as_mut_ptr(),
            word.len(),
        )
    }
}

//! The builder's functions: in the archive `libdesk_edge.a`, with the desk's.

mod raw {
    extern "C" {
        pub fn lp_batch_size() -> u32;
        pub fn lp_build_esi(
            held: *const u8,
            held_len: usize,
            software: *const u8,
            software_len: usize,
            stamp: *const u8,
            stamp_len: usize,
            request: u32,
            text: *mut u8,
            text_len: usize,
            sent: *mut u8,
            sent_len: usize,
        ) -> u32;
        pub fn lp_build_suo(
            held: *const u8,
            held_len: usize,
            maker: *mut u64,
            maker_len: usize,
            clock: u64,
            software: *const u8,
            software_len: usize,
            method: *const u8,
            method_len: usize,
            stamp: *const u8,
            stamp_len: usize,
            area: u32,
            text: *mut u8,
            text_len: usize,
            batch: *mut u8,
            batch_len: usize,
        ) -> u32;
        pub fn lp_add_record(batch: *mut u8, batch_len: usize, record: *const u8, record_len: usize) -> u32;
        pub fn lp_build_var(
            batch: *const u8,
            batch_len: usize,
            request: u32,
            text: *mut u8,
            text_len: usize,
            sent: *mut u8,
            sent_len: usize,
        ) -> u32;
    }
}

/// How many bytes a batch on its way takes.
pub fn lp_batch_size() -> u32 {
    // SAFETY: it takes nothing.
    unsafe { raw::lp_batch_size() }
}

/// Builds an ESI; 0 or the refusal.
pub fn lp_build_esi(held: &[u8], software: &[u8], stamp: &[u8], request: u32, text: &mut [u8], sent: &mut [u8]) -> u32 {
    // SAFETY: pointers and lengths are slices'.
    unsafe {
        raw::lp_build_esi(
            held.as_ptr(),
            held.len(),
            software.as_ptr(),
            software.len(),
            stamp.as_ptr(),
            stamp.len(),
            request,
            text.as_mut_ptr(),
            text.len(),
            sent.as_mut_ptr(),
            sent.len(),
        )
    }
}

/// Builds a SUO and begins a batch; 0 or the refusal.
#[allow(clippy::too_many_arguments)]
pub fn lp_build_suo(
    held: &[u8],
    maker: &mut [u64],
    clock: u64,
    software: &[u8],
    method: &[u8],
    stamp: &[u8],
    area: u32,
    text: &mut [u8],
    batch: &mut [u8],
) -> u32 {
    // SAFETY: pointers and lengths are slices'.
    unsafe {
        raw::lp_build_suo(
            held.as_ptr(),
            held.len(),
            maker.as_mut_ptr(),
            maker.len(),
            clock,
            software.as_ptr(),
            software.len(),
            method.as_ptr(),
            method.len(),
            stamp.as_ptr(),
            stamp.len(),
            area,
            text.as_mut_ptr(),
            text.len(),
            batch.as_mut_ptr(),
            batch.len(),
        )
    }
}

/// Adds a record to a batch; 0 or the refusal.
pub fn lp_add_record(batch: &mut [u8], record: &[u8]) -> u32 {
    // SAFETY: pointers and lengths are slices'.
    unsafe { raw::lp_add_record(batch.as_mut_ptr(), batch.len(), record.as_ptr(), record.len()) }
}

/// Builds the VAR that closes a batch; 0 or the refusal.
pub fn lp_build_var(batch: &[u8], request: u32, text: &mut [u8], sent: &mut [u8]) -> u32 {
    // SAFETY: pointers and lengths are slices'.
    unsafe {
        raw::lp_build_var(
            batch.as_ptr(),
            batch.len(),
            request,
            text.as_mut_ptr(),
            text.len(),
            sent.as_mut_ptr(),
            sent.len(),
        )
    }
}

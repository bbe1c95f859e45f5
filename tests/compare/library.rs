//! `hub_run` of librun.a, `hub_operate` of liboperate.a and `latch_run` of liblatchrun.a, as Rust sees
//! them.

// whoever links one of them calls no other
#![allow(dead_code)]

mod linked {
    extern "C" {
        pub fn hub_run(
            opening: *const u8,
            opening_len: usize,
            calls: *const u8,
            calls_len: usize,
            out: *mut u8,
            out_len: usize,
        ) -> u8;

        pub fn hub_operate(
            opening: *const u8,
            opening_len: usize,
            operations: *const u8,
            operations_len: usize,
            out: *mut u8,
            out_len: usize,
        ) -> u8;

        pub fn latch_run(
            count: u8,
            parties: u8,
            calls: *const u8,
            calls_len: usize,
            out: *mut u8,
            out_len: usize,
        ) -> u8;
    }
}

/// The opening is a frame, as in a line.
pub fn hub_run(opening: &[u8], calls: &[u8], out: &mut [u8]) -> u8 {
    // SAFETY: each address goes with the length of what it points to.
    unsafe {
        linked::hub_run(
            opening.as_ptr(),
            opening.len(),
            calls.as_ptr(),
            calls.len(),
            out.as_mut_ptr(),
            out.len(),
        )
    }
}

/// The opening is a frame, as in a line.
pub fn hub_operate(opening: &[u8], operations: &[u8], out: &mut [u8]) -> u8 {
    // SAFETY: each address goes with the length of what it points to.
    unsafe {
        linked::hub_operate(
            opening.as_ptr(),
            opening.len(),
            operations.as_ptr(),
            operations.len(),
            out.as_mut_ptr(),
            out.len(),
        )
    }
}

pub fn latch_run(count: u8, parties: u8, calls: &[u8], out: &mut [u8]) -> u8 {
    // SAFETY: each address goes with the length of what it points to.
    unsafe {
        linked::latch_run(count, parties, calls.as_ptr(), calls.len(), out.as_mut_ptr(), out.len())
    }
}

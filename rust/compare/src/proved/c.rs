//! The calls that write, through the C interface: it takes numbers of sheets that the safe crate can't be given.
#![allow(unsafe_code)]

/// A call: words, a sheet's number, a table and an output, to the refusal's number and the words written.
pub type Call = fn(&[u32], u32, &[u8], &mut [u32]) -> u64;

macro_rules! writes {
    ($($call:ident = $symbol:ident;)*) => {
        unsafe extern "C" {
            $(fn $symbol(
                words: *const u32,
                count: usize,
                number: u32,
                facts: *const u8,
                bytes: usize,
                out: *mut u32,
                room: usize,
            ) -> u64;)*
        }
        $(pub fn $call(words: &[u32], number: u32, facts: &[u8], out: &mut [u32]) -> u64 {
            let room = out.len();
            // SAFETY: each pointer comes from a slice with that slice's length; the proved call reads and writes no further.
            unsafe {
                $symbol(
                    words.as_ptr(),
                    words.len(),
                    number,
                    facts.as_ptr(),
                    facts.len(),
                    out.as_mut_ptr(),
                    room,
                )
            }
        })*
    };
}

writes! {
    evaluate = vierskof_evaluate;
    partial_evaluate = vierskof_partial_evaluate;
    narrow_residual = vierskof_narrow_residual;
    complete_residual = vierskof_complete_residual;
    partial_evaluate_in_order = vierskof_partial_evaluate_in_order;
    narrow_residual_in_order = vierskof_narrow_residual_in_order;
}

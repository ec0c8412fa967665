//! The C interface, and every unsafe block of the crate.
//!
//! Each call returns one number: that of its refusal, or 0, in the upper half, and its value in the lower one.
#![allow(unsafe_code)]

use crate::Date;

/// Calls that write a record: words, a sheet's number, a table and an output. The value is the count of words written.
macro_rules! writes {
    ($($call:ident = $symbol:ident;)*) => {
        unsafe extern "C" {
            $(fn $symbol(
                words: *const u32,
                count: usize,
                number: u32,
                facts: *const u8,
                bytes: usize,
                out: *mut u32,
                room: usize,
            ) -> u64;)*
        }
        $(pub fn $call(words: &[u32], number: u16, facts: &[u8], out: &mut [u32]) -> u64 {
            let room = out.len();
            // SAFETY: each pointer comes from a slice with that slice's length; the proved call reads and writes no further.
            unsafe {
                $symbol(
                    words.as_ptr(),
                    words.len(),
                    u32::from(number),
                    facts.as_ptr(),
                    facts.len(),
                    out.as_mut_ptr(),
                    room,
                )
            }
        })*
    };
}

/// Calls that write a record by an outcome table: its levels and bytes, then as above.
macro_rules! writes_by {
    ($($call:ident = $symbol:ident;)*) => {
        unsafe extern "C" {
            $(fn $symbol(
                levels: u32,
                outcomes: *const u8,
                outcome_bytes: usize,
                words: *const u32,
                count: usize,
                number: u32,
                facts: *const u8,
                bytes: usize,
                out: *mut u32,
                room: usize,
            ) -> u64;)*
        }
        $(pub fn $call(
            levels: u32,
            outcomes: &[u8],
            words: &[u32],
            number: u16,
            facts: &[u8],
            out: &mut [u32],
        ) -> u64 {
            let room = out.len();
            // SAFETY: as for the calls that write.
            unsafe {
                $symbol(
                    levels,
                    outcomes.as_ptr(),
                    outcomes.len(),
                    words.as_ptr(),
                    words.len(),
                    u32::from(number),
                    facts.as_ptr(),
                    facts.len(),
                    out.as_mut_ptr(),
                    room,
                )
            }
        })*
    };
}

/// Calls that join tables: two tables and an output. The value is the count of bytes written.
macro_rules! joins {
    ($($call:ident = $symbol:ident;)*) => {
        unsafe extern "C" {
            $(fn $symbol(
                one: *const u8,
                one_bytes: usize,
                two: *const u8,
                two_bytes: usize,
                out: *mut u8,
                room: usize,
            ) -> u64;)*
        }
        $(pub fn $call(one: &[u8], two: &[u8], out: &mut [u8]) -> u64 {
            let room = out.len();
            // SAFETY: as for the calls that write.
            unsafe {
                $symbol(
                    one.as_ptr(),
                    one.len(),
                    two.as_ptr(),
                    two.len(),
                    out.as_mut_ptr(),
                    room,
                )
            }
        })*
    };
}

/// Calls that pack: words and an output of bytes. The value is the count of bytes written.
macro_rules! packs {
    ($($call:ident = $symbol:ident;)*) => {
        unsafe extern "C" {
            $(fn $symbol(words: *const u32, count: usize, out: *mut u8, room: usize) -> u64;)*
        }
        $(pub fn $call(words: &[u32], out: &mut [u8]) -> u64 {
            let room = out.len();
            // SAFETY: as for the calls that write.
            unsafe { $symbol(words.as_ptr(), words.len(), out.as_mut_ptr(), room) }
        })*
    };
}

/// Calls that unpack: bytes and an output of words. The value is the count of words written.
macro_rules! unpacks {
    ($($call:ident = $symbol:ident;)*) => {
        unsafe extern "C" {
            $(fn $symbol(bytes: *const u8, count: usize, out: *mut u32, room: usize) -> u64;)*
        }
        $(pub fn $call(bytes: &[u8], out: &mut [u32]) -> u64 {
            let room = out.len();
            // SAFETY: as for the calls that write.
            unsafe { $symbol(bytes.as_ptr(), bytes.len(), out.as_mut_ptr(), room) }
        })*
    };
}

/// Calls that name facts: words and sixteen numbers. The value is the count of facts.
macro_rules! names {
    ($($call:ident = $symbol:ident;)*) => {
        unsafe extern "C" {
            $(fn $symbol(words: *const u32, count: usize, set: *mut u64, numbers: usize) -> u64;)*
        }
        $(pub fn $call(words: &[u32], set: &mut [u64; 16]) -> u64 {
            // SAFETY: as for the calls that write.
            unsafe { $symbol(words.as_ptr(), words.len(), set.as_mut_ptr(), set.len()) }
        })*
    };
}

/// Questions about a record. The value is 1 for yes.
macro_rules! asks {
    ($($call:ident = $symbol:ident;)*) => {
        unsafe extern "C" {
            $(fn $symbol(words: *const u32, count: usize) -> u64;)*
        }
        $(pub fn $call(words: &[u32]) -> u64 {
            // SAFETY: as for the calls that write.
            unsafe { $symbol(words.as_ptr(), words.len()) }
        })*
    };
}

writes! {
    evaluate = vierskof_evaluate;
    partial_evaluate = vierskof_partial_evaluate;
    narrow_residual = vierskof_narrow_residual;
    complete_residual = vierskof_complete_residual;
    partial_evaluate_in_order = vierskof_partial_evaluate_in_order;
    narrow_residual_in_order = vierskof_narrow_residual_in_order;
}

writes_by! {
    evaluate_by_levels = vierskof_evaluate_by_levels;
    partial_evaluate_by_levels = vierskof_partial_evaluate_by_levels;
    narrow_residual_by_levels = vierskof_narrow_residual_by_levels;
    complete_residual_by_levels = vierskof_complete_residual_by_levels;
    partial_evaluate_in_order_by_levels = vierskof_partial_evaluate_in_order_by_levels;
    narrow_residual_in_order_by_levels = vierskof_narrow_residual_in_order_by_levels;
}

joins! {
    join_tables = vierskof_join_tables;
}

packs! {
    pack_sheet = vierskof_pack_sheet;
    pack_record = vierskof_pack_record;
}

unpacks! {
    unpack_sheet = vierskof_unpack_sheet;
    unpack_record = vierskof_unpack_record;
}

names! {
    required_facts = vierskof_required_facts;
    required_residual_facts = vierskof_required_residual_facts;
}

asks! {
    is_permit_constant = vierskof_is_permit_constant;
    is_deny_constant = vierskof_is_deny_constant;
    carries_obligation = vierskof_carries_obligation;
}

unsafe extern "C" {
    fn vierskof_sheet_in_force(entries: *const u32, words: usize, group: u32, day: u32) -> u64;
}

/// The register's call. The value is a sheet's number, or the number after the last for none.
pub fn sheet_in_force(entries: &[u32], group: u32, day: u32) -> u64 {
    // SAFETY: as for the calls that write.
    unsafe { vierskof_sheet_in_force(entries.as_ptr(), entries.len(), group, day) }
}

unsafe extern "C" {
    fn vierskof_apply_windows(
        windows: *const u32,
        words: usize,
        year: u32,
        month: u32,
        day: u32,
        today_year: u32,
        today_month: u32,
        today_day: u32,
        facts: *const u8,
        bytes: usize,
        out: *mut u8,
        room: usize,
    ) -> u64;
}

/// Sets facts by age: the words of windows, two dates, a table and an output. The value is the count of bytes written.
pub fn apply_windows(
    windows: &[u32],
    reading: Date,
    today: Date,
    facts: &[u8],
    out: &mut [u8],
) -> u64 {
    let room = out.len();
    // SAFETY: as for the calls that write a record.
    unsafe {
        vierskof_apply_windows(
            windows.as_ptr(),
            windows.len(),
            reading.year,
            reading.month,
            reading.day,
            today.year,
            today.month,
            today.day,
            facts.as_ptr(),
            facts.len(),
            out.as_mut_ptr(),
            room,
        )
    }
}

unsafe extern "C" {
    fn vierskof_evaluate_batch(
        entries: *const u32,
        entry_words: usize,
        sheets: *const u32,
        sheet_words: usize,
        requests: *const u32,
        request_words: usize,
        allowance: u32,
        replies: *mut u64,
        places: usize,
        out: *mut u32,
        room: usize,
    ) -> u64;
    fn vierskof_evaluate_batch_by_levels(
        levels: u32,
        outcomes: *const u8,
        outcome_bytes: usize,
        entries: *const u32,
        entry_words: usize,
        sheets: *const u32,
        sheet_words: usize,
        requests: *const u32,
        request_words: usize,
        allowance: u32,
        replies: *mut u64,
        places: usize,
        out: *mut u32,
        room: usize,
    ) -> u64;
}

/// A batch: a register, sheets, requests, an allowance, places for the replies and an output. The value is the count of words written.
pub fn evaluate_batch(
    entries: &[u32],
    sheets: &[u32],
    requests: &[u32],
    allowance: u16,
    replies: &mut [u64],
    out: &mut [u32],
) -> u64 {
    let (places, room) = (replies.len(), out.len());
    // SAFETY: as for the calls that write.
    unsafe {
        vierskof_evaluate_batch(
            entries.as_ptr(),
            entries.len(),
            sheets.as_ptr(),
            sheets.len(),
            requests.as_ptr(),
            requests.len(),
            u32::from(allowance),
            replies.as_mut_ptr(),
            places,
            out.as_mut_ptr(),
            room,
        )
    }
}

/// A batch by an outcome table: its levels and bytes, then as above.
#[allow(clippy::too_many_arguments, reason = "those of the C interface")]
pub fn evaluate_batch_by_levels(
    levels: u32,
    outcomes: &[u8],
    entries: &[u32],
    sheets: &[u32],
    requests: &[u32],
    allowance: u16,
    replies: &mut [u64],
    out: &mut [u32],
) -> u64 {
    let (places, room) = (replies.len(), out.len());
    // SAFETY: as for the calls that write.
    unsafe {
        vierskof_evaluate_batch_by_levels(
            levels,
            outcomes.as_ptr(),
            outcomes.len(),
            entries.as_ptr(),
            entries.len(),
            sheets.as_ptr(),
            sheets.len(),
            requests.as_ptr(),
            requests.len(),
            u32::from(allowance),
            replies.as_mut_ptr(),
            places,
            out.as_mut_ptr(),
            room,
        )
    }
}

//! The functions of the static library `screen`, and the only unsafe code: one call of each.
//!
//! A Rattle slice, such as `&[u8]` or `&mut [u32]`, is passed as a pointer and a length in entries.
//! `tests/declarations.rs` holds these declarations and those of the C header to the Rattle source
//! `crates/screen/src/lib.rt`.
//!
//! None of the functions has a `requires`, so each is proved to keep within what is lent and to
//! return, for whatever bytes, entries and lengths are lent.

#![allow(unsafe_code)]

extern "C" {
    fn gaugeviolet_read(file: *const u8, file_len: usize) -> u64;
    fn gaugeviolet_rewrite(file: *const u8, file_len: usize, out: *mut u8, out_len: usize) -> u64;
    fn gaugeviolet_check(
        file: *const u8,
        file_len: usize,
        timetable: *const u8,
        timetable_len: usize,
    ) -> u64;
    fn gaugeviolet_solve(file: *const u8, file_len: usize, out: *mut u8, out_len: usize) -> u64;
    fn gaugeviolet_walk_length(file: *const u8, file_len: usize) -> u64;
    fn gaugeviolet_export(
        file: *const u8,
        file_len: usize,
        timetable: *const u8,
        timetable_len: usize,
        out: *mut u8,
        out_len: usize,
    ) -> u64;
    fn gaugeviolet_import(
        file: *const u8,
        file_len: usize,
        stop_times: *const u8,
        stop_times_len: usize,
        out: *mut u8,
        out_len: usize,
    ) -> u64;
    fn gaugeviolet_starts(
        file: *const u8,
        file_len: usize,
        train: u32,
        minutes: *const u16,
        minutes_len: usize,
        totals: *mut u32,
        totals_len: usize,
    ) -> u64;
}

pub(crate) fn read(file: &[u8]) -> u64 {
    // SAFETY: pointer and length are those of one slice, which is lent, unchanged, until the call
    // returns; the function only reads it. An empty slice's pointer is not null, and no byte is read.
    unsafe { gaugeviolet_read(file.as_ptr(), file.len()) }
}

pub(crate) fn rewrite(file: &[u8], out: &mut [u8]) -> u64 {
    // SAFETY: as for `read`; and `out` is lent for writing to this call alone, so it does not overlap
    // `file`, as Rattle asks of a `&mut` slice. All its bytes hold a value before and after.
    unsafe { gaugeviolet_rewrite(file.as_ptr(), file.len(), out.as_mut_ptr(), out.len()) }
}

pub(crate) fn check(file: &[u8], timetable: &[u8]) -> u64 {
    // SAFETY: as for `read`, for both slices. The function only reads them, so they may overlap.
    unsafe {
        gaugeviolet_check(
            file.as_ptr(),
            file.len(),
            timetable.as_ptr(),
            timetable.len(),
        )
    }
}

pub(crate) fn solve(file: &[u8], out: &mut [u8]) -> u64 {
    // SAFETY: as for `rewrite`.
    unsafe { gaugeviolet_solve(file.as_ptr(), file.len(), out.as_mut_ptr(), out.len()) }
}

pub(crate) fn walk_length(file: &[u8]) -> u64 {
    // SAFETY: as for `read`.
    unsafe { gaugeviolet_walk_length(file.as_ptr(), file.len()) }
}

pub(crate) fn export(file: &[u8], timetable: &[u8], out: &mut [u8]) -> u64 {
    // SAFETY: as for `rewrite`; `file` and `timetable` are only read, so they may overlap each other.
    unsafe {
        gaugeviolet_export(
            file.as_ptr(),
            file.len(),
            timetable.as_ptr(),
            timetable.len(),
            out.as_mut_ptr(),
            out.len(),
        )
    }
}

pub(crate) fn import(file: &[u8], stop_times: &[u8], out: &mut [u8]) -> u64 {
    // SAFETY: as for `export`.
    unsafe {
        gaugeviolet_import(
            file.as_ptr(),
            file.len(),
            stop_times.as_ptr(),
            stop_times.len(),
            out.as_mut_ptr(),
            out.len(),
        )
    }
}

pub(crate) fn starts(file: &[u8], train: u32, minutes: &[u16], totals: &mut [u32]) -> u64 {
    // SAFETY: as for `rewrite`, with `totals` lent for writing; lengths count entries, as Rattle's do, and
    // a slice of Rust is aligned for its entries.
    unsafe {
        gaugeviolet_starts(
            file.as_ptr(),
            file.len(),
            train,
            minutes.as_ptr(),
            minutes.len(),
            totals.as_mut_ptr(),
            totals.len(),
        )
    }
}

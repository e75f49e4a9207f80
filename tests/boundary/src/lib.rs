//! The probe's calls and the one for C. A slice crosses as a pointer and a length; each call returns
//! a number, and the probe's put what the answer carries to the start of `out`.

/// The shortest `out` that is served, and the answer to a shorter one.
pub const LEAST_OUT: usize = 4;
pub const SHORT_OUT: u32 = 999;
/// "None" in the place of a blocker.
pub const NO_BLOCKER: u64 = u64::MAX;

#[rustfmt::skip]
extern "C" {
    fn probe_read(text: *const u8, text_length: usize, table: *mut u32, table_length: usize,
                  out: *mut u64, out_length: usize) -> u32;
    fn probe_write(table: *const u32, table_length: usize, text: *mut u8, text_length: usize,
                   out: *mut u64, out_length: usize) -> u32;
    fn probe_schedule(table: *const u32, table_length: usize, z: u32,
                      rows: *mut u64, rows_length: usize,
                      out: *mut u64, out_length: usize) -> u32;
    fn probe_verdict(table: *const u32, table_length: usize,
                     out: *mut u64, out_length: usize) -> u32;
    fn probe_pattern(table: *const u32, table_length: usize, rows: *mut u64, rows_length: usize,
                     out: *mut u64, out_length: usize) -> u32;
    fn probe_draw(state: u32, out: *mut u64, out_length: usize) -> u32;
    fn probe_generate(state: u32, number: u32, table: *mut u32, table_length: usize,
                      out: *mut u64, out_length: usize) -> u32;
    fn probe_sheet_read(text: *const u8, text_length: usize, table: *mut u32, table_length: usize,
                        out: *mut u64, out_length: usize) -> u32;
    fn probe_sheet_write(table: *const u32, table_length: usize, text: *mut u8, text_length: usize,
                         out: *mut u64, out_length: usize) -> u32;
    #[link_name = "tile_check"]
    fn placement_check(text: *const u8, text_length: usize) -> u32;
}

// Each wrapper lends whole slices, so every pointer is valid for its length during the call.

pub fn read(text: &[u8], table: &mut [u32], out: &mut [u64]) -> u32 {
    unsafe {
        probe_read(
            text.as_ptr(),
            text.len(),
            table.as_mut_ptr(),
            table.len(),
            out.as_mut_ptr(),
            out.len(),
        )
    }
}

pub fn write(table: &[u32], text: &mut [u8], out: &mut [u64]) -> u32 {
    unsafe {
        probe_write(
            table.as_ptr(),
            table.len(),
            text.as_mut_ptr(),
            text.len(),
            out.as_mut_ptr(),
            out.len(),
        )
    }
}

pub fn schedule(table: &[u32], z: u32, rows: &mut [u64], out: &mut [u64]) -> u32 {
    unsafe {
        probe_schedule(
            table.as_ptr(),
            table.len(),
            z,
            rows.as_mut_ptr(),
            rows.len(),
            out.as_mut_ptr(),
            out.len(),
        )
    }
}

/// A "misses" carries three words: the length, the blocker or NO_BLOCKER, the excess.
pub fn verdict(table: &[u32], out: &mut [u64]) -> u32 {
    unsafe { probe_verdict(table.as_ptr(), table.len(), out.as_mut_ptr(), out.len()) }
}

pub fn pattern(table: &[u32], rows: &mut [u64], out: &mut [u64]) -> u32 {
    unsafe {
        probe_pattern(
            table.as_ptr(),
            table.len(),
            rows.as_mut_ptr(),
            rows.len(),
            out.as_mut_ptr(),
            out.len(),
        )
    }
}

pub fn draw(state: u32, out: &mut [u64]) -> u32 {
    unsafe { probe_draw(state, out.as_mut_ptr(), out.len()) }
}

pub fn generate(state: u32, number: u32, table: &mut [u32], out: &mut [u64]) -> u32 {
    unsafe {
        probe_generate(state, number, table.as_mut_ptr(), table.len(), out.as_mut_ptr(), out.len())
    }
}

pub fn sheet_read(text: &[u8], table: &mut [u32], out: &mut [u64]) -> u32 {
    unsafe {
        probe_sheet_read(
            text.as_ptr(),
            text.len(),
            table.as_mut_ptr(),
            table.len(),
            out.as_mut_ptr(),
            out.len(),
        )
    }
}

pub fn sheet_write(table: &[u32], text: &mut [u8], out: &mut [u64]) -> u32 {
    unsafe {
        probe_sheet_write(
            table.as_ptr(),
            table.len(),
            text.as_mut_ptr(),
            text.len(),
            out.as_mut_ptr(),
            out.len(),
        )
    }
}

pub fn tile_check(text: &[u8]) -> u32 {
    unsafe { placement_check(text.as_ptr(), text.len()) }
}

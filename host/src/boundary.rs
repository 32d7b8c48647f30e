//! The boundary: the five functions of the proved library, declared once, and a safe function over each.
//!
//! Nothing but these crosses. A slice passes as a pointer and a length. The answers are packed words, which the rest of the
//! crate turns into types at once; they leave it only under the feature `boundary`, for tests of the boundary itself.

extern "C" {
    fn gussetglen_check(code: *const u8, code_len: usize, rows: usize) -> u64;

    fn gussetglen_run(
        code: *const u8,
        code_len: usize,
        rows: usize,
        width: usize,
        first: usize,
        count: usize,
        cap: usize,
        values: *mut u64,
        values_len: usize,
        report: *mut u64,
        report_len: usize,
    ) -> u64;

    fn gussetglen_raise(start: usize, report: u64) -> u64;

    fn gussetglen_join(left: u64, right: u64) -> u64;

    fn gussetglen_pool(
        wires: usize,
        ends: *const u32,
        ends_len: usize,
        mentions: *const u32,
        mentions_len: usize,
        marks: *const u8,
        marks_len: usize,
        slots: *mut u32,
        slots_len: usize,
        per_wire: bool,
    ) -> u64;
}

// The library takes every argument as it comes: it asks nothing of its callers but that each pointer and length are those of
// a slice, and that what it writes is nobody else's meanwhile. References are both, so the functions below are safe.

/// A packed refusal, or 0: accepted.
pub fn check(code: &[u8], rows: usize) -> u64 {
    unsafe { gussetglen_check(code.as_ptr(), code.len(), rows) }
}

/// What a run is told beside the program and the two arrays.
#[derive(Clone, Copy, Debug)]
pub struct Shape {
    pub rows: usize,
    pub width: usize,
    pub first: usize,
    pub count: usize,
    pub cap: usize,
}

/// A packed refusal, or the stripe's packed report.
pub fn run(code: &[u8], shape: Shape, values: &mut [u64], report: &mut [u64]) -> u64 {
    let Shape { rows, width, first, count, cap } = shape;
    unsafe {
        gussetglen_run(
            code.as_ptr(),
            code.len(),
            rows,
            width,
            first,
            count,
            cap,
            values.as_mut_ptr(),
            values.len(),
            report.as_mut_ptr(),
            report.len(),
        )
    }
}

/// The packed report with its position raised to the batch, or refusal 13.
pub fn raise(start: usize, report: u64) -> u64 {
    unsafe { gussetglen_raise(start, report) }
}

/// The packed report that stands, with its side, or refusal 12.
pub fn join(left: u64, right: u64) -> u64 {
    unsafe { gussetglen_join(left, right) }
}

/// Refusal 14, or the packed length and peak.
pub fn pool(wires: usize, ends: &[u32], mentions: &[u32], marks: &[u8], slots: &mut [u32], per_wire: bool) -> u64 {
    unsafe {
        gussetglen_pool(
            wires,
            ends.as_ptr(),
            ends.len(),
            mentions.as_ptr(),
            mentions.len(),
            marks.as_ptr(),
            marks.len(),
            slots.as_mut_ptr(),
            slots.len(),
            per_wire,
        )
    }
}

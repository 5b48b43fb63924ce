//! The C library's functions, as `include/pizwoter.h` declares them, each on slices: all that is `unsafe` in this crate.
//!
//! A call hands on slices, pointer and length: they are valid for as long as it lasts, those that are written are borrowed alone, and Rust's pointer of an empty slice
//! is not null. The functions have no condition besides (crates/desk/src: no `requires`), so every function here is safe.

use crate::Totals;

extern "C" {
    fn pizwoter_version() -> u32;
    fn pizwoter_validate(program: *const u8, program_length: usize, reply: *mut i64, reply_length: usize) -> i32;
    fn pizwoter_validate_input(input: *const u8, input_length: usize, reply: *mut i64, reply_length: usize) -> i32;
    fn pizwoter_input_parts(input: *const u8, input_length: usize, reply: *mut i64, reply_length: usize) -> i32;
    fn pizwoter_draw(
        program: *const u8,
        program_length: usize,
        construction: u32,
        buffer: *mut u8,
        buffer_length: usize,
        reply: *mut i64,
        reply_length: usize,
    ) -> i32;
    #[rustfmt::skip]
    fn pizwoter_step(
        program: *const u8,
        program_length: usize,
        construction: u32,
        node: u16,
        count: u16,
        arrow: u16,
        memory: *mut i32,
        memory_length: usize,
        reply: *mut i64,
        reply_length: usize,
    ) -> i32;
    fn pizwoter_run(
        program: *const u8,
        program_length: usize,
        construction: u32,
        budget: u16,
        memory: *mut i32,
        memory_length: usize,
        reply: *mut i64,
        reply_length: usize,
    ) -> i32;
    #[rustfmt::skip]
    fn pizwoter_judge(
        program: *const u8,
        program_length: usize,
        construction: u32,
        start: *const u8,
        start_length: usize,
        sheet: *const u8,
        sheet_length: usize,
        reply: *mut i64,
        reply_length: usize,
    ) -> i32;
    fn pizwoter_index_mark(program: *const u8, program_length: usize, sheet: *const u8, sheet_length: usize, reply: *mut i64, reply_length: usize) -> i32;
    #[rustfmt::skip]
    fn pizwoter_solve(
        program: *const u8,
        program_length: usize,
        construction: u32,
        start: *const u8,
        start_length: usize,
        buffer: *mut u8,
        buffer_length: usize,
        reply: *mut i64,
        reply_length: usize,
    ) -> i32;
    fn pizwoter_split(program: *const u8, program_length: usize, place: u32, reply: *mut i64, reply_length: usize) -> i32;
    fn pizwoter_figures(marks: *const i32, marks_length: usize, reply: *mut i64, reply_length: usize) -> i32;
    #[rustfmt::skip]
    fn pizwoter_join(
        first_count: u32,
        first_sum: i64,
        first_squares: i64,
        second_count: u32,
        second_sum: i64,
        second_squares: i64,
        reply: *mut i64,
        reply_length: usize,
    ) -> i32;
}

pub fn version() -> u32 {
    unsafe { pizwoter_version() }
}

pub fn validate(program: &[u8], reply: &mut [i64]) -> i32 {
    unsafe { pizwoter_validate(program.as_ptr(), program.len(), reply.as_mut_ptr(), reply.len()) }
}

pub fn validate_input(input: &[u8], reply: &mut [i64]) -> i32 {
    unsafe { pizwoter_validate_input(input.as_ptr(), input.len(), reply.as_mut_ptr(), reply.len()) }
}

pub fn input_parts(input: &[u8], reply: &mut [i64]) -> i32 {
    unsafe { pizwoter_input_parts(input.as_ptr(), input.len(), reply.as_mut_ptr(), reply.len()) }
}

pub fn draw(program: &[u8], construction: u32, buffer: &mut [u8], reply: &mut [i64]) -> i32 {
    let (p, n) = (program.as_ptr(), program.len());
    unsafe { pizwoter_draw(p, n, construction, buffer.as_mut_ptr(), buffer.len(), reply.as_mut_ptr(), reply.len()) }
}

pub fn step(program: &[u8], construction: u32, node: u16, count: u16, arrow: u16, memory: &mut [i32], reply: &mut [i64]) -> i32 {
    let (p, n) = (program.as_ptr(), program.len());
    unsafe { pizwoter_step(p, n, construction, node, count, arrow, memory.as_mut_ptr(), memory.len(), reply.as_mut_ptr(), reply.len()) }
}

pub fn run(program: &[u8], construction: u32, budget: u16, memory: &mut [i32], reply: &mut [i64]) -> i32 {
    let (p, n) = (program.as_ptr(), program.len());
    unsafe { pizwoter_run(p, n, construction, budget, memory.as_mut_ptr(), memory.len(), reply.as_mut_ptr(), reply.len()) }
}

pub fn judge(program: &[u8], construction: u32, start: &[u8], sheet: &[u8], reply: &mut [i64]) -> i32 {
    let (p, n) = (program.as_ptr(), program.len());
    unsafe { pizwoter_judge(p, n, construction, start.as_ptr(), start.len(), sheet.as_ptr(), sheet.len(), reply.as_mut_ptr(), reply.len()) }
}

pub fn index_mark(program: &[u8], sheet: &[u8], reply: &mut [i64]) -> i32 {
    unsafe { pizwoter_index_mark(program.as_ptr(), program.len(), sheet.as_ptr(), sheet.len(), reply.as_mut_ptr(), reply.len()) }
}

pub fn solve(program: &[u8], construction: u32, start: &[u8], buffer: &mut [u8], reply: &mut [i64]) -> i32 {
    let (p, n) = (program.as_ptr(), program.len());
    unsafe { pizwoter_solve(p, n, construction, start.as_ptr(), start.len(), buffer.as_mut_ptr(), buffer.len(), reply.as_mut_ptr(), reply.len()) }
}

pub fn split(program: &[u8], place: u32, reply: &mut [i64]) -> i32 {
    unsafe { pizwoter_split(program.as_ptr(), program.len(), place, reply.as_mut_ptr(), reply.len()) }
}

pub fn figures(marks: &[i32], reply: &mut [i64]) -> i32 {
    unsafe { pizwoter_figures(marks.as_ptr(), marks.len(), reply.as_mut_ptr(), reply.len()) }
}

pub fn join(a: Totals, b: Totals, reply: &mut [i64]) -> i32 {
    unsafe { pizwoter_join(a.count, a.sum, a.squares, b.count, b.sum, b.squares, reply.as_mut_ptr(), reply.len()) }
}

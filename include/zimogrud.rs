//! Zimogrud for Rust: the calls of libdoor.a, as a module of the program that is linked with it. zimogrud.h, beside this file,
//! says of each what goes in, what comes out, and what the caller owes.
//!
//! It compiles in the editions 2018 and 2021 with rustc 1.82 or later, and in 2024 since that is known, from 1.85 on. How the
//! program is linked is for its build to say: `-L FOLDER -l static=door` to rustc.

// A program may make some of the calls only.
#[allow(dead_code)]
unsafe extern "C" {
    pub fn zg_turn(points: *const i32, points_len: usize, answer: *mut u64, answer_len: usize) -> u32;
    pub fn zg_side(points: *const i32, points_len: usize, answer: *mut u64, answer_len: usize) -> u32;
    pub fn zg_flat(
        a: *const i32,
        a_len: usize,
        b: *const i32,
        b_len: usize,
        answer: *mut u64,
        answer_len: usize,
    ) -> u32;
    pub fn zg_segment(
        a: *const i32,
        a_len: usize,
        b: *const i32,
        b_len: usize,
        answer: *mut u64,
        answer_len: usize,
    ) -> u32;
    pub fn zg_pair(
        a: *const i32,
        a_len: usize,
        b: *const i32,
        b_len: usize,
        answer: *mut u64,
        answer_len: usize,
    ) -> u32;
    pub fn zg_pair_bytes(a: *const u8, a_len: usize, b: *const u8, b_len: usize) -> u32;
    pub fn zg_list(
        a: *const i32,
        a_len: usize,
        b: *const i32,
        b_len: usize,
        buffer: *mut u32,
        buffer_len: usize,
        start: usize,
        answer: *mut u64,
        answer_len: usize,
    ) -> u32;
    pub fn zg_plate(
        calls: *const u32,
        calls_len: usize,
        numbers: *const i32,
        numbers_len: usize,
        answers: *mut u64,
        answers_len: usize,
    ) -> u64;
    pub fn zg_sheet(sheet: *const u8, sheet_len: usize, text: *mut u8) -> usize;
}

//! The calls of libdoor.a that are timed. The library is linked into this program.

#[path = "../include/zimogrud.rs"]
mod zimogrud;

use crate::ordinary::sheet::TEXT_BYTES;
use crate::ordinary::Answer;
use zimogrud::{zg_list, zg_pair, zg_pair_bytes, zg_plate, zg_segment, zg_sheet};

type Verdict = unsafe extern "C" fn(*const i32, usize, *const i32, usize, *mut u64, usize) -> u32;

pub fn pair(first: &[i32], second: &[i32]) -> Answer {
    verdict(zg_pair, first, second)
}

pub fn segment(first: &[i32], second: &[i32]) -> Answer {
    verdict(zg_segment, first, second)
}

#[inline(always)] // so that the call is made as a caller makes it, and not by way of a pointer
fn verdict(call: Verdict, first: &[i32], second: &[i32]) -> Answer {
    let mut numbers = [0; 4];
    // SAFETY: each pointer leads to as many numbers as are named, and nothing else uses them meanwhile.
    let result = unsafe {
        call(
            first.as_ptr(),
            first.len(),
            second.as_ptr(),
            second.len(),
            numbers.as_mut_ptr(),
            numbers.len(),
        )
    };
    told_answer(result, numbers)
}

/// The verdict on two triangles as bytes, or 100 and the number of a refusal.
pub fn pair_bytes(first: &[u8], second: &[u8]) -> u32 {
    // SAFETY: each pointer leads to as many bytes as are named, and nothing else uses them meanwhile.
    unsafe { zg_pair_bytes(first.as_ptr(), first.len(), second.as_ptr(), second.len()) }
}

pub fn list(first: &[i32], second: &[i32], buffer: &mut [u32], start: usize) -> Answer {
    let mut numbers = [0; 4];
    // SAFETY: each pointer leads to as many numbers as are named, and nothing else uses them meanwhile.
    let result = unsafe {
        zg_list(
            first.as_ptr(),
            first.len(),
            second.as_ptr(),
            second.len(),
            buffer.as_mut_ptr(),
            buffer.len(),
            start,
            numbers.as_mut_ptr(),
            numbers.len(),
        )
    };
    told_answer(result, numbers)
}

/// Makes the calls one after the other on an empty plate, and gives how many were made.
pub fn plate(calls: &[u32], numbers: &[i32], answers: &mut [u64]) -> u64 {
    // SAFETY: each pointer leads to as many numbers as are named, and nothing else uses them meanwhile.
    unsafe {
        zg_plate(
            calls.as_ptr(),
            calls.len(),
            numbers.as_ptr(),
            numbers.len(),
            answers.as_mut_ptr(),
            answers.len(),
        )
    }
}

/// Writes the answer to a job sheet to the front of the text, and gives its length.
pub fn sheet(sheet: &[u8], text: &mut [u8; TEXT_BYTES]) -> usize {
    // SAFETY: each pointer leads to as many bytes as the call asks for, and nothing else uses them meanwhile.
    unsafe { zg_sheet(sheet.as_ptr(), sheet.len(), text.as_mut_ptr()) }
}

fn told_answer(result: u32, [number, side, place, value]: [u64; 4]) -> Answer {
    assert_eq!(result, 0, "four numbers are room enough for an answer");
    Answer {
        number,
        side,
        place,
        value,
    }
}
